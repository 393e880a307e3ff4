//! Halves in a check: what is said where a half of a field is held and a whole
//! one is needed, where the other half went, and what earlier atoms took.

use super::half_helps::help;
use super::route::{lost, named, reason, Step};
use super::rules::Unshown;
use super::Cause;
use crate::script::{listed, quoted, Names};
use model::checker::{State, Term};
use model::names::{Atom, Expr};
use model::text::Share;

/// Why a permission is not shown though something of its path is listed.
pub enum Short {
    /// One half is listed, and both are needed.
    Half,
    /// Halves are listed that did not come together.
    Apart(Vec<String>),
    /// Earlier atoms of the formula took so many halves of it.
    Taken(Vec<String>, u8),
}

/// None if nothing of the path is listed, or only whole permissions are asked for.
pub fn short(unshown: &Unshown) -> Option<Short> {
    let Atom::Permission(Share::Acc | Share::Read, path) = unshown.wanted else {
        return None;
    };
    let (at, state) = (unshown.place?, &unshown.asked.state);
    let places: Vec<usize> = state.listed(path).collect();
    if places.is_empty() {
        return None;
    }
    if state.show(&[unshown.wanted]).is_ok() {
        return taken(unshown, &places, at);
    }
    let names = unshown.names();
    let entries = places.iter().map(|&place| &state.permissions[place]);
    Some(match places.len() {
        1 => Short::Half,
        _ => Short::Apart(entries.map(|entry| names.held(entry)).collect()),
    })
}

/// The earlier atoms that took of the same entries, if a half is among them or
/// asked for.
fn taken(unshown: &Unshown, places: &[usize], at: usize) -> Option<Short> {
    let state = &unshown.asked.state;
    let takes = |atom: &&Atom| match **atom {
        Atom::Permission(Share::Acc | Share::Read, path) => {
            state.listed(path).any(|place| places.contains(&place))
        }
        _ => false,
    };
    let halves = |atom: &Atom| match atom {
        Atom::Permission(share, _) => share.halves(),
        _ => 0,
    };
    let takers: Vec<&Atom> = unshown.asked.show[..at].iter().filter(takes).collect();
    let mut all = takers.iter().copied().chain([&unshown.wanted]);
    let half = all.any(|atom| halves(atom) == Share::Read.halves());
    let names = unshown.names();
    let said = takers.iter().map(|&&atom| names.atom(atom)).collect();
    let sum = takers.iter().map(|atom| halves(atom)).sum();
    half.then_some(Short::Taken(said, sum))
}

impl Short {
    /// "`acc c tag` is .. here".
    pub fn missing(&self) -> &'static str {
        match self {
            Short::Half | Short::Apart(_) => "only half held",
            Short::Taken(..) => "not left",
        }
    }

    /// The cause with what is held, where the rest went, and what helps.
    pub fn told(&self, cause: Cause, unshown: &Unshown, steps: &[Step]) -> Cause {
        match self {
            Short::Taken(takers, halves) => {
                let takes = if takers.len() == 1 { "takes" } else { "take" };
                let takers = listed(takers, "and");
                let wanted = unshown.names().atom(unshown.wanted);
                cause.note(match halves {
                    1 => format!("{takers} {takes} a half of it first, and `{wanted}` is both"),
                    _ => format!("{takers} {takes} both halves of it first"),
                })
            }
            Short::Apart(entries) => cause.note(format!(
                "held are {}, halves that did not come together: a `read` joins one of an equal \
                 path that is listed when it is added, not later",
                listed(entries, "and")
            )),
            Short::Half => {
                let gone = lost(steps, unshown.wanted);
                let cause = cause.or_head(half(unshown)).note(other_half(unshown, gone));
                cause.or_help(help(unshown, gone))
            }
        }
    }
}

fn half(unshown: &Unshown) -> Option<String> {
    let Atom::Permission(_, path) = unshown.wanted else {
        return None;
    };
    let path = unshown.names().expr(Expr::Path(path));
    Some(format!("only a half of the permission to `{path}` is held"))
}

/// "a half of `c.tag` is held, a whole one is needed; the other half went at line
/// 14: .."
fn other_half(unshown: &Unshown, gone: Option<usize>) -> String {
    let names = unshown.names();
    let Atom::Permission(_, path) = unshown.wanted else {
        return String::new();
    };
    let path = names.expr(Expr::Path(path));
    let went = match gone {
        None => format!("no more was held in {}", names.title()),
        Some(place) => {
            let statement = named(unshown.script, place);
            let line = quoted(unshown.script.text, statement.line);
            let action = &unshown.script.program.statements[place].action;
            let why = reason(unshown.script, &names, action, unshown.wanted);
            format!(
                "the other half went at line {}: `{line}`, {why}",
                statement.line
            )
        }
    };
    format!("a half of `{path}` is held, a whole one is needed; {went}")
}

/// Two halves that may be of one field, where the two cards are to be different.
pub fn may_be_one<'a>(names: &Names, state: &State<'a>, wanted: Atom<'a>) -> Option<String> {
    let Atom::Ne(Expr::Var(left), Expr::Var(right)) = wanted else {
        return None;
    };
    let of = |var| {
        let equal = state.equals(Term::Var(var));
        let held = state.permissions.iter();
        held.filter(move |held| held.share.lists_path() && equal.contains(&Term::Var(held.var)))
    };
    let mut pairs = of(left).flat_map(|one| of(right).map(move |other| (one, other)));
    let (one, other) =
        pairs.find(|(one, other)| one.field == other.field && one.var != other.var)?;
    Some(format!(
        "`{}` and `{}` may be halves of one field; if one of them were `acc`, the two would be \
         different cards",
        names.held(one),
        names.held(other)
    ))
}
