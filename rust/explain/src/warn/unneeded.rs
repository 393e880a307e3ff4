//! Atoms that nothing needs: without each of them the text is accepted too, and
//! without all of them together. Each is left out and the text is checked again.

use super::{Kind, Warning};
use crate::script::{line, quoted, Script};
use crate::Answers;
use model::form::fields;
use model::names::{Action, Atom};
use std::ops::Range;

/// The fields of an atom.
const ATOM: usize = 3;

/// An atom of a line, by the place of its first field.
#[derive(Clone, Copy, Debug, PartialEq, Eq)]
struct Spot {
    line: u32,
    field: usize,
}

impl Spot {
    /// The atom at a place of a line's formula, which begins at a field.
    fn of(line: u32, first: usize, place: usize) -> Spot {
        Spot {
            line,
            field: first + ATOM * place,
        }
    }

    fn mark(self, text: &[u8]) -> Option<Range<usize>> {
        let bytes = line(text, self.line)?;
        crate::script::field_range(bytes, self.field..self.field + ATOM)
    }

    /// The atom as the line has it, with blanks for tabs.
    fn quoted(self, text: &[u8]) -> String {
        let line = quoted(text, self.line);
        let words = line.split(' ').skip(self.field).take(ATOM);
        words.collect::<Vec<_>>().join(" ")
    }
}

/// The text without some atoms.
fn without(text: &[u8], spots: &[Spot]) -> Vec<u8> {
    let lines = text.split(|&byte| byte == b'\n').enumerate();
    let lines = lines.map(|(at, bytes)| {
        let here = |field: usize| {
            let mut spots = spots.iter().filter(|spot| spot.line as usize == at + 1);
            spots.any(|spot| (spot.field..spot.field + ATOM).contains(&field))
        };
        let kept = fields(bytes).into_iter().enumerate();
        let kept = kept.filter(|(field, _)| !here(*field));
        let kept: Vec<&[u8]> = kept.map(|(_, (_, bytes))| bytes).collect();
        kept.join(&b'\t')
    });
    lines.collect::<Vec<_>>().join(&b'\n')
}

/// What nothing needs so far, and who is asked.
struct Search<'s, 'a, A> {
    answers: &'s mut A,
    text: &'a [u8],
    spared: Vec<Spot>,
}

impl<A: Answers> Search<'_, '_, A> {
    /// Is the text accepted without these atoms, and also without those before?
    fn spares(&mut self, spots: &[Spot]) -> bool {
        let all = [&self.spared[..], spots].concat();
        let mut accepted = |spots: &[Spot]| {
            let less = without(self.text, spots);
            self.answers.check(&less).is_ok()
        };
        let spared = accepted(spots) && accepted(&all);
        if spared {
            self.spared = all;
        }
        spared
    }
}

/// The atoms of each `join` and of each invariant that nothing needs.
pub fn atoms<A: Answers>(answers: &mut A, script: &Script) -> Vec<Warning> {
    let mut search = Search {
        answers,
        text: script.text,
        spared: Vec::new(),
    };
    let mut found = Vec::new();
    for statement in &script.program.statements {
        let Some((first, atoms)) = kept(&statement.action) else {
            continue;
        };
        let what = match statement.action {
            Action::Loop(_) => "invariant",
            _ => "`join`",
        };
        // From the last on: a permission goes only after what reads its path.
        for place in (0..atoms.len()).rev() {
            let spot = Spot::of(statement.line, first, place);
            if search.spares(&[spot]) {
                let atom = spot.quoted(script.text);
                found.push(Warning {
                    kind: Kind::UnneededAtom,
                    line: spot.line,
                    last: spot.line,
                    mark: spot.mark(script.text),
                    text: format!(
                        "nothing needs `{atom}` in this {what}: without it the script is accepted \
                         too"
                    ),
                });
            }
        }
    }
    found
}

/// The formula of a `join` or of an invariant: its first field, and its atoms.
fn kept<'p, 'a>(action: &'p Action<'a>) -> Option<(usize, &'p [Atom<'a>])> {
    match action {
        Action::Join(formula) => Some((1, formula)),
        Action::Loop(rounds) => Some((1 + ATOM, &rounds.invariant)),
        _ => None,
    }
}

/// Where the method hands an atom of its `requires` on: in each `join` and invariant
/// that has it.
fn handed_on(script: &Script, block: usize, atom: &Atom) -> Vec<Spot> {
    let body = script.program.body(block).iter();
    let spots = body.filter_map(|statement| {
        let (first, atoms) = kept(&statement.action)?;
        let place = atoms.iter().position(|other| other == atom)?;
        Some(Spot::of(statement.line, first, place))
    });
    spots.collect()
}

/// The permissions that a method is handed and that nothing needs. Each is left out of
/// `ensures` too, where it is given back, and if need be of what the body hands it on by.
pub fn permissions<A: Answers>(answers: &mut A, script: &Script) -> Vec<Warning> {
    let mut search = Search {
        answers,
        text: script.text,
        spared: Vec::new(),
    };
    let mut found = Vec::new();
    for (block, own) in script.program.blocks.iter().enumerate() {
        let (requires, ensures) = script.contract_lines(block);
        for (place, atom) in own.requires.iter().enumerate().rev() {
            if !matches!(atom, Atom::Permission(..)) {
                continue;
            }
            let spot = Spot::of(requires, 1, place);
            let back = own.ensures.iter().position(|other| other == atom);
            let back = back.map(|place| Spot::of(ensures, 1, place));
            let spots: Vec<Spot> = [spot].into_iter().chain(back).collect();
            let on = handed_on(script, block, atom);
            let all = [&spots[..], &on].concat();
            let mut tries = [spots, all].into_iter();
            if let Some(spots) = tries.find(|spots| search.spares(spots)) {
                found.push(handed(script, block, spot, &spots[1..]));
            }
        }
    }
    found
}

/// A permission that a method is handed and never uses, and where else it stands.
fn handed(script: &Script, block: usize, spot: Spot, others: &[Spot]) -> Warning {
    let atom = spot.quoted(script.text);
    let name = script.names(block).title();
    let lines: Vec<String> = others.iter().map(|spot| spot.line.to_string()).collect();
    let left = match &lines[..] {
        [] => "without it".to_string(),
        [line] => format!("without it here and in line {line}"),
        [lines @ .., last] => format!(
            "without it here and in lines {} and {last}",
            lines.join(", ")
        ),
    };
    Warning {
        kind: Kind::UnusedPermission,
        line: spot.line,
        last: spot.line,
        mark: spot.mark(script.text),
        text: format!("{name} never uses `{atom}`: {left} the script is accepted too"),
    }
}

#[cfg(test)]
mod tests {
    use super::*;

    #[test]
    fn atoms_left_out() {
        let text = b"join\teq\ta\tb\tne\tc\td\nloop\teq\ta\tb\tacc\tc\tf\n";
        let spots = [Spot::of(1, 1, 0), Spot::of(2, 4, 0)];
        assert_eq!(without(text, &spots), b"join\tne\tc\td\nloop\teq\ta\tb\n");
        assert_eq!(spots[0].quoted(text), "eq a b");
        assert_eq!(spots[1].mark(text), Some(12..19));
        assert_eq!(without(text, &[]), text);
    }
}
