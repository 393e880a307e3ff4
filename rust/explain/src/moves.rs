//! Permissions that went to another holder in one step: of a field, of a half of
//! one, or of a whole chain at once.

use crate::script::{shown, Script};
use model::machine::{Location, Machine};
use model::names::{Action, Atom, Type};
use model::text::Share;

/// The frames that hold halves of a location, from main's 0, and how many.
pub type Holders = Vec<(usize, u8)>;

/// How many halves went, and to which frame; none is nobody.
type Move = (u8, Option<usize>);

/// Who holds each location.
pub fn holders(machine: &Machine) -> Vec<Holders> {
    let of = |place| machine.holders(place).collect();
    (0..machine.heap.len()).map(of).collect()
}

/// The halves that each frame gained, and those that nobody holds any more.
fn moved(before: &Holders, now: &Holders) -> Vec<Move> {
    let sum = |holders: &Holders| holders.iter().map(|held| held.1).sum::<u8>();
    let had = |frame| {
        let held = before.iter().find(|held| held.0 == frame);
        held.map_or(0, |held| held.1)
    };
    let gained = now.iter();
    let gained = gained.map(|&(frame, halves)| (halves.saturating_sub(had(frame)), Some(frame)));
    let lost = sum(before).saturating_sub(sum(now));
    let all = gained.chain([(lost, None)]);
    all.filter(|moved| moved.0 > 0).collect()
}

/// What went at a step, for each location that was there before it.
pub struct Moves<'m, 'p, 'a> {
    script: &'m Script<'a>,
    machine: &'m Machine<'p, 'a>,
    all: Vec<Vec<Move>>,
    chains: bool,
}

impl<'m, 'p, 'a> Moves<'m, 'p, 'a> {
    pub fn of(
        script: &'m Script<'a>,
        before: &[Holders],
        machine: &'m Machine<'p, 'a>,
    ) -> Moves<'m, 'p, 'a> {
        let now = holders(machine);
        let all = before.iter().zip(&now);
        Moves {
            script,
            machine,
            all: all.map(|(before, now)| moved(before, now)).collect(),
            chains: has_chains(script),
        }
    }

    /// What went of a field of an object, both from 0; a chain is told with its
    /// first card.
    pub fn said(&self, object: usize, slot: usize) -> Vec<String> {
        let place = self.place(object, slot);
        let name = shown(self.class(object).fields[slot].name);
        let said = |&(halves, to): &Move| {
            let holder = self.holder(to);
            let chain = self.chain(object, slot, to).filter(|_| halves == 2);
            match (chain, halves) {
                (Some(_), _) if self.is_followed(object, slot, to) => None,
                (Some(cards), _) if cards > 1 => Some(format!(
                    "the chain of object {} by {name}, {cards} cards, to {holder}",
                    object + 1
                )),
                (_, 1) => Some(format!("half of object {}.{name} to {holder}", object + 1)),
                _ => Some(format!("object {}.{name} to {holder}", object + 1)),
            }
        };
        self.all[place].iter().filter_map(said).collect()
    }

    fn place(&self, object: usize, slot: usize) -> Location {
        self.machine.objects[object].first + slot
    }

    fn class(&self, object: usize) -> &model::names::Class<'a> {
        &self.script.program.classes[self.machine.objects[object].class]
    }

    fn next(&self, object: usize, slot: usize) -> Option<usize> {
        let value = self.machine.heap[self.place(object, slot)];
        usize::try_from(value).ok()?.checked_sub(1)
    }

    /// How many cards the chain from an object has, if it went whole to one holder.
    fn chain(&self, object: usize, slot: usize, to: Option<usize>) -> Option<usize> {
        let class = self.class(object);
        let own = class.fields[slot].kind == Type::Class(class.name);
        let mut at = Some(object).filter(|_| own && self.chains);
        let mut cards = 0;
        while let Some(object) = at {
            let place = self.all.get(self.place(object, slot))?;
            if place[..] != [(2, to)] || cards == self.machine.objects.len() {
                return None;
            }
            cards += 1;
            at = self.next(object, slot);
        }
        (cards > 0).then_some(cards)
    }

    /// Is the object in a chain that began before it?
    fn is_followed(&self, object: usize, slot: usize, to: Option<usize>) -> bool {
        let class = self.machine.objects[object].class;
        let objects = 0..self.machine.objects.len();
        let mut like = objects.filter(|&other| self.machine.objects[other].class == class);
        like.any(|other| {
            self.next(other, slot) == Some(object) && self.chain(other, slot, to).is_some()
        })
    }

    fn holder(&self, holder: Option<usize>) -> String {
        let frame = holder.and_then(|at| self.machine.frames.get(at));
        frame.map_or("nobody".to_string(), |frame| {
            let header = self.script.program.blocks[frame.block].header;
            header.map_or("main".to_string(), |header| shown(header.name))
        })
    }
}

/// Does a formula that can move permissions name a chain?
fn has_chains(script: &Script) -> bool {
    let chain = |atom: &Atom| matches!(atom, Atom::Permission(Share::Chain, _));
    let contracts = script.program.blocks.iter();
    let mut contracts = contracts.flat_map(|block| block.requires.iter().chain(&block.ensures));
    let released = script.program.statements.iter();
    let mut released = released.filter_map(|line| match &line.action {
        Action::Release(formula) => Some(formula),
        _ => None,
    });
    contracts.any(chain) || released.any(|formula| formula.iter().any(chain))
}
