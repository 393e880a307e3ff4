//! States of the check that no run has.

use model::checker::{Fact, State, Term};
use model::names::{Atom, Expr, Path};
use model::text::Share;

/// What can't be in any run: a fact beside its opposite, or more than both halves
/// of a field.
pub fn impossible<'a>(state: &State<'a>) -> bool {
    let mut facts = state.facts.iter();
    facts.any(|fact| state.show(&[denied(fact)]).is_ok()) || too_much(state)
}

/// The opposite of a fact.
fn denied<'a>(fact: &Fact<'a>) -> Atom<'a> {
    let side = |term: Term<'a>| match term {
        Term::Number(value) => Expr::Number(value),
        Term::Null => Expr::Null,
        Term::Var(var) => Expr::Var(var),
        // The checker goes by the names of a path; the slot is the machine's.
        Term::Path(var, field) => Expr::Path(Path {
            var,
            field,
            slot: 0,
        }),
    };
    let (left, right) = (side(fact.left), side(fact.right));
    match fact.equal {
        true => Atom::Ne(left, right),
        false => Atom::Eq(left, right),
    }
}

/// Is one path listed twice, and once whole?
fn too_much(state: &State) -> bool {
    let paths = || state.permissions.iter().enumerate();
    let whole = paths().filter(|(_, held)| held.share == Share::Acc);
    whole
        .flat_map(|(at, held)| paths().map(move |(other, more)| (at != other, held, more)))
        .any(|(apart, held, more)| apart && held.path() == more.path())
}
