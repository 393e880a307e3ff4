//! Number 10: "requires, ensures or join reads `x.f` with no `acc x f` before
//! it in the line", and W5: "The invariant, and the condition after it, read
//! only paths that the invariant holds; number 10 covers this line." W8: "For
//! number 10, `read x f` serves as `acc x f` does." A chain (W9) is no listed path
//! and serves none. It goes by the two names as written.

use crate::number::{Reason, Refusal};
use crate::text::{Atom, Expr, Line, Name};

/// A path that is read without its permission: the place of its atom, x and f.
pub type Unframed<'a> = (usize, Name<'a>, Name<'a>);

/// The first path that the atom at a place reads and none of the others holds.
fn bare<'a>(place: usize, atom: Atom<'a>, held: &[Atom<'a>]) -> Option<Unframed<'a>> {
    let holds = |atom: &Atom, x: Name, field: Name| match *atom {
        Atom::Permission(share, y, other) => share.lists_path() && (y, other) == (x, field),
        Atom::Eq(..) | Atom::Ne(..) => false,
    };
    let bare = |side: Expr<'a>| match side {
        Expr::Path(x, field) if !held.iter().any(|atom| holds(atom, x, field)) => {
            Some((place, x, field))
        }
        _ => None,
    };
    match atom {
        Atom::Permission(..) => None,
        Atom::Eq(left, right) | Atom::Ne(left, right) => bare(left).or_else(|| bare(right)),
    }
}

/// The first path that the formula reads with no permission before it.
pub fn unframed<'a>(formula: &[Atom<'a>]) -> Option<Unframed<'a>> {
    let mut atoms = formula.iter().enumerate();
    atoms.find_map(|(place, &atom)| bare(place, atom, &formula[..place]))
}

/// The first such path of a `loop`, its atom by its place on the line: the
/// invariant comes first, and all of it serves the condition.
fn unframed_loop<'a>(condition: Atom<'a>, invariant: &[Atom<'a>]) -> Option<Unframed<'a>> {
    let inside = unframed(invariant).map(|(place, x, field)| (1 + place, x, field));
    inside.or_else(|| bare(0, condition, invariant))
}

/// The first path that makes the line number 10; the place of its atom is that
/// on the line.
pub fn unframed_in<'a>(line: &Line<'a>) -> Option<Unframed<'a>> {
    match line {
        Line::Requires(formula) | Line::Ensures(formula) | Line::Join(formula) => unframed(formula),
        Line::Loop(condition, invariant) => unframed_loop(*condition, invariant),
        _ => None,
    }
}

/// "then line by line 10".
pub fn frame(lines: &[Line]) -> Result<(), Refusal> {
    match lines.iter().position(|line| unframed_in(line).is_some()) {
        Some(index) => Err(Refusal {
            reason: Reason::Unframed,
            line: index as u32 + 1,
        }),
        None => Ok(()),
    }
}
