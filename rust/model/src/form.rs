//! The form of a line, field by field: which field has not its form, and why.
//! A line without a fault here is one that `text::line` takes, and no other; a
//! test compares the two.

use crate::limits;
use crate::text::{expression, name, number, Line, Reader};

pub use crate::shapes::{AtomShape, Operand, Shape, Tail, ATOM_SHAPES, SHAPES};

/// The shape of the lines that begin with the word.
pub fn shape_of(word: &[u8]) -> Option<&'static Shape> {
    SHAPES.iter().find(|shape| shape.word.as_bytes() == word)
}

/// The line, or one of its kind where only its first word has its form.
pub fn line_or_kind(bytes: &[u8]) -> Option<Line<'_>> {
    crate::text::line(bytes).or_else(|| {
        let word = bytes.split(|&byte| byte == b'\t').next()?;
        crate::text::line(shape_of(word)?.sample.as_bytes())
    })
}

/// The words of the lines that may stand next.
pub fn next_words(reader: &Reader) -> Vec<&'static str> {
    let fits = |shape: &&Shape| {
        let line: Option<Line> = crate::text::line(shape.sample.as_bytes());
        line.is_some_and(|line| reader.clone().step(&line))
    };
    SHAPES.iter().filter(fits).map(|shape| shape.word).collect()
}

/// Why a field has not the form of a name or an expression.
#[derive(Clone, Copy, Debug, PartialEq, Eq)]
#[non_exhaustive]
pub enum Malformed {
    Empty,
    /// A name of more letters than a name may have.
    TooLong,
    /// A number where a name must stand.
    NumberForName,
    /// A path where a name must stand.
    PathForName,
    /// A path of more than one field.
    LongPath,
    /// A number with a leading zero.
    LeadingZero,
    /// `-0`.
    MinusZero,
    /// A number below or above what 32 bits hold.
    OutOfRange,
    /// A number with a `+`.
    PlusSign,
    /// A name that begins with a digit.
    FirstDigit,
    /// A character that no name, number or path has, at this byte of the field.
    Character(usize),
}

/// What is wrong with a line's form.
#[derive(Clone, Copy, Debug, PartialEq, Eq)]
#[non_exhaustive]
pub enum Fault {
    EmptyLine,
    UnknownWord,
    /// The operand of this letter is missing.
    Missing(&'static str, Operand),
    /// A field after the last that the line may have.
    Extra,
    Field(Operand, Malformed),
    /// No atom begins with this word.
    UnknownAtom,
    /// An atom with one or two of its three fields.
    ShortAtom,
    /// A ninth atom of a formula.
    NinthAtom,
    /// An atom that is no condition, or no atom at all, after `if` or `loop`.
    NoCondition,
}

/// The fields of a line with where each begins.
pub fn fields(line: &[u8]) -> Vec<(usize, &[u8])> {
    let mut at = 0;
    line.split(|&byte| byte == b'\t')
        .map(|field| {
            let start = at;
            at += field.len() + 1;
            (start, field)
        })
        .collect()
}

/// The first fault of a line's form, and the place of its field from 0.
pub fn fault(line: &[u8]) -> Option<(usize, Fault)> {
    let fields: Vec<&[u8]> = line.split(|&byte| byte == b'\t').collect();
    if line.is_empty() {
        return Some((0, Fault::EmptyLine));
    }
    let Some(shape) = shape_of(fields[0]) else {
        return Some((0, Fault::UnknownWord));
    };
    for (at, &(letter, operand)) in shape.operands.iter().enumerate() {
        let at = at + 1;
        let Some(field) = fields.get(at) else {
            return Some((at, Fault::Missing(letter, operand)));
        };
        if let Some(why) = malformed(operand, field) {
            return Some((at, Fault::Field(operand, why)));
        }
    }
    let first = shape.operands.len() + 1;
    let rest = &fields[first..];
    match shape.tail {
        Tail::Nothing => (!rest.is_empty()).then_some((first, Fault::Extra)),
        Tail::Formula => formula_fault(first, rest),
        Tail::Condition => condition_fault(first, rest)
            .or_else(|| (rest.len() > 3).then_some((first + 3, Fault::Extra))),
        Tail::Loop => condition_fault(first, rest).or_else(|| formula_fault(first + 3, &rest[3..])),
    }
}

fn formula_fault(first: usize, fields: &[&[u8]]) -> Option<(usize, Fault)> {
    for (place, atom) in fields.chunks(3).enumerate() {
        let at = first + 3 * place;
        if place == limits::ATOMS {
            return Some((at, Fault::NinthAtom));
        }
        if let Some(found) = atom_fault(at, atom) {
            return Some(found);
        }
    }
    None
}

/// The fault of the first atom, which must be a condition.
fn condition_fault(first: usize, fields: &[&[u8]]) -> Option<(usize, Fault)> {
    let known = ATOM_SHAPES.iter().filter(|atom| atom.condition);
    let word = fields.first().copied().unwrap_or_default();
    if !known.into_iter().any(|atom| atom.word.as_bytes() == word) {
        return Some((first, Fault::NoCondition));
    }
    atom_fault(first, &fields[..fields.len().min(3)])
}

fn atom_fault(at: usize, fields: &[&[u8]]) -> Option<(usize, Fault)> {
    let word = fields.first().copied().unwrap_or_default();
    let Some(shape) = ATOM_SHAPES.iter().find(|atom| atom.word.as_bytes() == word) else {
        return Some((at, Fault::UnknownAtom));
    };
    for (place, &(_, operand)) in shape.operands.iter().enumerate() {
        let Some(field) = fields.get(place + 1) else {
            return Some((at, Fault::ShortAtom));
        };
        if let Some(why) = malformed(operand, field) {
            return Some((at + place + 1, Fault::Field(operand, why)));
        }
    }
    None
}

/// Why the field is no such operand; none if it is one.
fn malformed(operand: Operand, field: &[u8]) -> Option<Malformed> {
    if operand == Operand::Expression {
        return expression(field).is_none().then(|| no_expression(field));
    }
    name(field).is_none().then(|| match field {
        _ if number(field).is_some() => Malformed::NumberForName,
        _ if field.contains(&b'.') && expression(field).is_some() => Malformed::PathForName,
        _ => no_expression(field),
    })
}

fn no_expression(field: &[u8]) -> Malformed {
    if field.is_empty() {
        return Malformed::Empty;
    }
    let digits = field.strip_prefix(b"-").unwrap_or(field);
    if !digits.is_empty() && digits.iter().all(u8::is_ascii_digit) {
        return match digits {
            b"0" => Malformed::MinusZero,
            [b'0', ..] => Malformed::LeadingZero,
            _ => Malformed::OutOfRange,
        };
    }
    if let [b'+', rest @ ..] = field {
        if !rest.is_empty() && rest.iter().all(u8::is_ascii_digit) {
            return Malformed::PlusSign;
        }
    }
    let parts: Vec<&[u8]> = field.split(|&byte| byte == b'.').collect();
    let letters = |part: &[u8]| part.iter().all(u8::is_ascii_alphanumeric);
    if let Some(at) = field
        .iter()
        .position(|&byte| !byte.is_ascii_alphanumeric() && byte != b'.')
    {
        return Malformed::Character(at);
    }
    if parts.len() > 2 && parts.iter().all(|part| !part.is_empty() && letters(part)) {
        return Malformed::LongPath;
    }
    if parts.iter().any(|part| part.is_empty()) {
        return Malformed::Character(field.iter().position(|&byte| byte == b'.').unwrap_or(0));
    }
    if parts.iter().any(|part| part[0].is_ascii_digit()) {
        return Malformed::FirstDigit;
    }
    Malformed::TooLong
}
