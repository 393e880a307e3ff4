//! Chains in a run that stopped: the cards of the walk, which of them is not held
//! whole or was taken before, and rings with the line that closed them.

use super::history::Trail;
use crate::script::{shown, Names, Script};
use model::machine::{location, Location, Machine, Values};
use model::names::{Action, Atom, Path};
use model::text::Share;
use model::watch::Halt;

/// What helps with a ring.
pub const NO_RING: &str = "leave out the line that closes the ring, or let a link of it be null";

/// At most that many cards of a walk are told.
const TOLD: usize = 12;

/// Did the walk over a chain lack a permission?
pub fn walked(halt: Halt) -> bool {
    let share = halt.missing.map(|missing| missing.share);
    share == Some(Share::Chain)
}

/// A walk over a chain that stopped: the names and values that it started from,
/// the atoms before its own, and its cards up to the one where it stopped.
pub struct Walk<'w, 'p, 'a> {
    machine: &'w Machine<'p, 'a>,
    names: Names<'w, 'a>,
    values: &'w Values,
    earlier: &'w [Atom<'a>],
    path: Path<'a>,
    cards: Vec<usize>,
}

/// The location of a card's field, the cards counted from 1.
fn link(machine: &Machine, card: usize, path: Path) -> Location {
    machine.objects[card - 1].first + path.slot
}

/// The cards from one on, up to null or to a card that was passed, which ends the
/// list once more.
fn cards(machine: &Machine, from: i32, path: Path) -> Vec<usize> {
    let mut passed = Vec::new();
    let mut at = from as usize;
    while at != 0 && !passed.contains(&at) {
        passed.push(at);
        at = machine.heap[link(machine, at, path)] as usize;
    }
    passed.extend((at != 0).then_some(at));
    passed
}

/// Where the walk of a stopped step began.
fn start(machine: &Machine, values: &Values, path: Path) -> Option<i32> {
    match machine.statement().action {
        Action::Shut(_) => Some(machine.heap[location(&machine.objects, values, path)?]),
        _ => Some(values[path.var]),
    }
}

impl<'w, 'p, 'a> Walk<'w, 'p, 'a> {
    /// None if the step was not stopped by a walk.
    pub fn of(
        machine: &'w Machine<'p, 'a>,
        names: Names<'w, 'a>,
        values: &'w Values,
        earlier: &'w [Atom<'a>],
        halt: Halt<'a>,
    ) -> Option<Self> {
        let stopped = halt.ring.is_some() || walked(halt);
        let path = halt.path.filter(|_| stopped)?;
        let mut cards = cards(machine, start(machine, values, path)?, path);
        if let Some(missing) = halt.missing {
            let at = |&card: &usize| link(machine, card, path) == missing.location;
            cards.truncate(1 + cards.iter().position(at)?);
        }
        Some(Walk {
            machine,
            names,
            values,
            earlier,
            path,
            cards,
        })
    }

    /// "object 1 (`a`)", with a variable that has the card.
    fn card(&self, card: usize) -> String {
        let known = |var: &usize| {
            let link = self.names.kind(*var) == self.names.kind(self.path.var);
            link && self.values[*var] == card as i32
        };
        let vars = 2 + self.names.block.locals.len();
        match (0..vars).find(known) {
            Some(var) => format!("object {card} (`{}`)", self.names.var(var)),
            None => format!("object {card}"),
        }
    }

    /// Some cards, the middle of many left out.
    fn list(&self, cards: &[usize]) -> String {
        let told = |cards: &[usize]| {
            let cards = cards.iter().map(|&card| self.card(card));
            cards.collect::<Vec<_>>().join(", ")
        };
        match cards.len().checked_sub(TOLD) {
            None | Some(0) => told(cards),
            Some(more) => {
                let (first, last) = (&cards[..TOLD - 2], &cards[TOLD - 2 + more..]);
                format!("{}, {more} more, {}", told(first), told(last))
            }
        }
    }

    /// The cards of a ring, the first once more at the end, and how many cards lead
    /// into it.
    fn ring(&self) -> (&[usize], usize) {
        let back = self.cards.last();
        let first = self.cards.iter().position(|card| Some(card) == back);
        let first = first.unwrap_or(0);
        (&self.cards[first..], first)
    }

    /// What the chain comes to; the block is named as messages do.
    pub fn said(&self, halt: Halt, title: &str) -> String {
        match halt.ring {
            Some(_) => self.ring_said(),
            None => self.missing_said(halt, title),
        }
    }

    /// "is a ring: object 1 (`a`), object 2 (`b`), object 1 (`a`)".
    fn ring_said(&self) -> String {
        let (ring, before) = self.ring();
        let list = self.list(ring);
        match before {
            0 => format!("is a ring: {list}"),
            _ => format!(
                "leads from {} into a ring: {list}",
                self.card(self.cards[0])
            ),
        }
    }

    /// "goes over object 2 (`b`) and needs `prev` of object 1, which main does not
    /// hold".
    fn missing_said(&self, halt: Halt, title: &str) -> String {
        let Some((&last, passed)) = self.cards.split_last() else {
            return String::new();
        };
        let needs = format!("needs `{}` of {}", shown(self.path.field), self.card(last));
        let missing = halt.missing.map(|missing| (missing.held, missing.taken));
        let lack = match missing {
            Some((_, taken)) if taken > 0 => format!("which {} took before", self.taker(last)),
            Some((1, _)) => format!("of which {title} holds only a half"),
            _ => format!("which {title} does not hold"),
        };
        match passed.is_empty() {
            true => format!("{needs}, {lack}"),
            false => format!("goes over {} and {needs}, {lack}", self.list(passed)),
        }
    }

    /// The earlier atom that took the link of a card.
    fn taker(&self, card: usize) -> String {
        let wanted = link(self.machine, card, self.path);
        let takes = |atom: &&Atom| match **atom {
            Atom::Permission(Share::Chain, path) => {
                let cards = cards(self.machine, self.values[path.var], path);
                let mut links = cards.into_iter().map(|card| link(self.machine, card, path));
                links.any(|link| link == wanted)
            }
            Atom::Permission(_, path) => {
                location(&self.machine.objects, self.values, path) == Some(wanted)
            }
            _ => false,
        };
        let taker = self.earlier.iter().find(takes);
        taker.map_or("an earlier atom".to_string(), |&atom| {
            format!("`{}`", self.names.atom(atom))
        })
    }

    /// What led to it: the line that closed the ring, or where the permission went.
    pub fn history(&self, script: &Script, trail: &Trail, halt: Halt) -> Option<String> {
        match (halt.ring, halt.missing) {
            (Some(_), _) => {
                let (ring, _) = self.ring();
                let links = ring.iter().map(|&card| link(self.machine, card, self.path));
                let closed = trail.written_last(links)?;
                let told = Trail::told(script, closed);
                Some(format!("the ring was closed at {told}"))
            }
            (_, Some(missing)) if missing.held == 0 => {
                let card = self.card(*self.cards.last()?);
                let shown = format!("`{}` of {card}", shown(self.path.field));
                trail.of_location(script, self.machine, missing.location, &shown)
            }
            _ => None,
        }
    }
}
