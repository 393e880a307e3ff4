//! Chains in a check: which link of one is missing, where it was opened and not
//! shut, and rings that the facts tell.

use super::limits::noted;
use super::route::{lost, route, told, Step};
use super::rules::Unshown;
use super::Cause;
use crate::script::{field_range, line, listed, shown, Names, Script};
use model::checker::{State, Term};
use model::names::{Atom, Expr, Path, Var};
use model::text::Share;
use model::watch::{Purpose, Record};

/// Where a chain leads by what the checker knows: the cards from the first, and
/// what is the matter with the last of them.
pub struct Way {
    pub cards: Vec<Var>,
    pub end: End,
}

#[derive(Clone, Copy, Debug, PartialEq, Eq)]
pub enum End {
    /// Every link is held, and the last one leads to null or to a chain.
    Held,
    /// Nothing of the last card's link is held.
    Missing,
    /// Only a half of it.
    Half,
    /// It is not known where it leads.
    Unknown,
    /// It leads back to the card at this place.
    Ring(usize),
}

/// The chain of a variable.
fn chain(path: Path, var: Var) -> Atom {
    Atom::Permission(Share::Chain, Path { var, ..path })
}

/// A variable with the value of a term.
fn variable(state: &State, term: Term) -> Option<Var> {
    state.equals(term).into_iter().find_map(|term| match term {
        Term::Var(var) => Some(var),
        _ => None,
    })
}

/// What is known of the link of one card: the next card, or why there is none.
fn next<'a>(state: &State<'a>, link: Path<'a>) -> Result<Var, End> {
    let value = state.resolve(Expr::Path(link)).map_err(|_| End::Missing)?;
    if state.show(&[Atom::Permission(Share::Acc, link)]).is_err() {
        return Err(End::Half);
    }
    if state.rest(link).is_ok() {
        return Err(End::Held);
    }
    variable(state, value).ok_or(End::Unknown)
}

/// The way from a card by its field, as far as the state knows it.
pub fn way<'a>(state: &State<'a>, path: Path<'a>) -> Way {
    let mut cards: Vec<Var> = Vec::new();
    let mut at = path.var;
    let end = loop {
        let equal = state.equals(Term::Var(at));
        if let Some(first) = cards
            .iter()
            .position(|&card| equal.contains(&Term::Var(card)))
        {
            break End::Ring(first);
        }
        cards.push(at);
        match next(state, Path { var: at, ..path }) {
            Ok(var) => at = var,
            Err(end) => break end,
        }
    };
    Way { cards, end }
}

impl Way {
    /// The lines that make one chain of what is held, the last card's first.
    pub fn shut(&self, names: &Names, field: &[u8]) -> Vec<String> {
        let cards = self.cards.iter().rev();
        let line = |&var: &Var| format!("shut {} {}", names.var(var), shown(field));
        cards.map(line).collect()
    }

    /// What is known of the links, in words; none if that is nothing.
    fn told(&self, names: &Names, field: &[u8]) -> Option<String> {
        let path = |var: &Var| format!("{}.{}", names.var(*var), shown(field));
        let last = path(self.cards.last()?);
        let lead = self.lead(names, field);
        Some(match self.end {
            End::Missing if self.cards.len() == 1 => return None,
            End::Missing => {
                let var = names.var(*self.cards.last()?);
                let field = shown(field);
                format!("{lead}, but neither `chain {var} {field}` nor `acc {var} {field}` is held")
            }
            End::Half => format!("of `{last}` a half is held, and a chain is of whole ones"),
            End::Unknown => {
                format!("`{last}` is held, and it is not known to which card or chain it leads")
            }
            End::Ring(_) => format!("{lead}: a ring, and a chain ends in null"),
            End::Held => {
                let paths: Vec<String> = self.cards.iter().map(path).collect();
                let is = if paths.len() == 1 { "is" } else { "are" };
                let lines = self.shut(names, field);
                let lines: Vec<String> = lines.iter().map(|line| format!("`{line}`")).collect();
                format!(
                    "{} {is} held, and the rest of the chain: it is one after {}",
                    listed(&paths, "and"),
                    lines.join(", then ")
                )
            }
        })
    }

    /// The cause with what is known of the links. That they are a ring is the headline:
    /// a ring is no chain, and no other atom is for one.
    fn noted(&self, cause: Cause, found: String) -> Cause {
        match self.end {
            End::Ring(_) => cause
                .or_head(Some(found))
                .note(noted("no atom is for a ring of cards")),
            _ => cause.note(found),
        }
    }

    /// "`a.prev` leads to `b`, and `b.prev` to `a`", up to the last card or to the
    /// one that a ring comes back to.
    fn lead(&self, names: &Names, field: &[u8]) -> String {
        let back = match self.end {
            End::Ring(first) => Some(self.cards[first]),
            _ => None,
        };
        let targets = self.cards[1..].iter().copied().chain(back);
        let legs = self.cards.iter().zip(targets);
        let leg = |(from, to): (&Var, Var)| {
            let from = format!("`{}.{}`", names.var(*from), shown(field));
            (from, names.var(to))
        };
        let legs: Vec<(String, String)> = legs.map(leg).collect();
        let first = legs.iter().take(1);
        let first = first.map(|(from, to)| format!("{from} leads to `{to}`"));
        let rest = legs.iter().skip(1);
        let rest = rest.map(|(from, to)| format!("{from} to `{to}`"));
        let said: Vec<String> = first.chain(rest).collect();
        match said.split_last() {
            Some((last, said)) if !said.is_empty() => format!("{} and {last}", said.join(", ")),
            _ => said.concat(),
        }
    }
}

/// The cause of a chain that is not shown, with where it went and which of its
/// links is missing; none if there is no more to say than of any permission.
pub fn broken(cause: &Cause, unshown: &Unshown, steps: &[Step]) -> Option<Cause> {
    let Atom::Permission(Share::Chain, path) = unshown.wanted else {
        return None;
    };
    let names = unshown.names();
    let way = way(&unshown.asked.state, path);
    let found = way.told(&names, path.field)?;
    let gone = went(unshown.script, steps, &way, unshown.wanted);
    Some(way.noted(cause.clone().or_note(gone), found))
}

/// Where the chain went that is wanted, or the link that it lacks.
fn went<'a>(
    script: &Script<'a>,
    steps: &[Step<'_, 'a>],
    way: &Way,
    wanted: Atom<'a>,
) -> Option<String> {
    let link = match (wanted, way.cards.last()) {
        (Atom::Permission(_, path), Some(&var)) if way.end == End::Missing => {
            Some(Atom::Permission(Share::Acc, Path { var, ..path }))
        }
        _ => None,
    };
    let mut atoms = [Some(wanted), link].into_iter().flatten();
    atoms.find_map(|atom| {
        let place = lost(steps, atom)?;
        let name = script.names_at(place).atom(atom);
        Some(format!("`{name}` was {}", told(script, place, atom)))
    })
}

/// Where a path is not held, but the chain that it is in.
pub fn inside<'a>(names: &Names, state: &State<'a>, wanted: Atom<'a>) -> Option<String> {
    let Atom::Permission(Share::Acc | Share::Read, path) = wanted else {
        return None;
    };
    let (var, field) = (names.var(path.var), shown(path.field));
    let held = state.entries(Term::Var(path.var), path.field);
    let mut shares = held.map(|place| state.permissions[place].share);
    shares.any(|share| share == Share::Chain).then(|| {
        format!("`{var}.{field}` is in `chain {var} {field}`, which is held: `open` takes it out")
    })
}

/// What has to be shown for a `shut` that lacks a chain: that of the card to which
/// the link leads, or that it leads to a card whose chain is held, or to none.
pub fn rest<'a>(script: &Script<'a>, state: &State<'a>, place: usize, path: Path<'a>) -> Atom<'a> {
    let value = state.resolve(Expr::Path(path)).ok();
    if let Some(var) = value.and_then(|value| variable(state, value)) {
        return chain(path, var);
    }
    let names = script.names_at(place);
    let mut held = state.permissions.iter().filter(|held| {
        (held.share, held.field) == (Share::Chain, path.field)
            && names.kind(held.var) == names.kind(path.var)
    });
    let end = held.next().map_or(Expr::Null, |held| Expr::Var(held.var));
    Atom::Eq(Expr::Path(path), end)
}

/// `shut` without a chain of the value of its path.
pub fn no_rest(script: &Script, record: &Record, number: u32) -> Option<Cause> {
    let asked = record.asked.as_ref()?;
    let path = asked.rest?;
    let names = script.names_at(asked.place);
    let bytes = line(script.text, number)?;
    let cause = Cause::new(format!(
        "`shut` takes the chain by `{}` of the card that `{}` leads to, and it is not held here",
        shown(path.field),
        names.expr(Expr::Path(path))
    ));
    let cause = cause.mark(field_range(bytes, 1..3));
    let wanted = rest(script, &asked.state, asked.place, path);
    let steps = route(script, record, asked.place);
    let way = way(&asked.state, path);
    let gone = went(script, &steps, &way, wanted);
    let cause = cause.or_note(gone);
    Some(match way.told(&names, path.field) {
        Some(found) => way.noted(cause, found),
        None => cause,
    })
}

/// The words of an `open` or `shut` that takes what is not there.
pub fn said(purpose: Purpose, names: &Names, wanted: Atom, missing: &str) -> String {
    let shown_atom = names.atom(wanted);
    match (purpose, wanted) {
        (Purpose::Open, Atom::Ne(x, _)) => format!(
            "`open` goes on from `{}`, and `{shown_atom}` is {missing} here",
            names.expr(x)
        ),
        (Purpose::Shut, Atom::Permission(_, path)) => format!(
            "`shut` makes `{}` the first link of a chain, which needs `{shown_atom}`, and it is \
             {missing} here",
            names.expr(Expr::Path(path))
        ),
        _ => format!("`open` takes `{shown_atom}` apart, and it is {missing} here"),
    }
}
