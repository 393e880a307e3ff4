//! Number 4: the form of lines.

use super::limits::noted;
use super::places::{misplaced, words};
use super::Cause;
use crate::fix::STAR;
use crate::nearest::{did_you_mean, nearest};
use crate::script::{field_range, line, listed, shown};
use model::form::{
    fault, fields, next_words, AtomShape, Fault, Malformed, Operand, Shape, Tail, ATOM_SHAPES,
    SHAPES,
};
use model::limits;
use model::text::{self, Place, Reader, Share};

/// The form of a kind of line, as the guide writes it.
pub fn form_of(shape: &Shape) -> String {
    let letters = shape
        .operands
        .iter()
        .map(|(letter, _)| format!(" {letter}"));
    let start = format!("{}{}", shape.word, letters.collect::<String>());
    let condition = |rest: &str| format!("{start} eq e e{rest}` or `{start} ne e e{rest}");
    match shape.tail {
        Tail::Nothing => start,
        Tail::Formula => format!("{start} ATOM.."),
        Tail::Condition => condition(""),
        Tail::Loop => condition(" ATOM.."),
    }
}

fn means(operand: Operand) -> &'static str {
    match operand {
        Operand::Type => "`int` or a class",
        Operand::Name => "a name",
        Operand::Variable => "a variable",
        Operand::Expression => "a number, `null`, a variable or a path",
    }
}

/// Number 4: the line is not in its form, or stands in the wrong place.
pub fn malformed(text: &[u8], number: u32) -> Option<Cause> {
    let bytes = line(text, number)?;
    let mut reader = Reader::new();
    let _ = text::lines_by(&mut reader, text);
    let Some((at, found)) = fault(bytes) else {
        return Some(misplaced(text, number, &reader));
    };
    let all = fields(bytes);
    let end = match found {
        Fault::ShortAtom | Fault::Extra => all.len(),
        Fault::NinthAtom => at + 3,
        _ => at + 1,
    };
    let after = Some(bytes.len()..bytes.len());
    let mark = field_range(bytes, at..end).or(after);
    let field = all.get(at).map_or(&b""[..], |field| field.1);
    let cause = match found {
        Fault::UnknownWord => unknown_word(field, &reader)
            .or_help(assignment(&all))
            .or_help(rounds(field).map(str::to_string)),
        Fault::EmptyLine if reader.place == Place::Done => {
            Cause::new("the line is empty, and nothing follows main's `end`").help(DELETE)
        }
        Fault::EmptyLine => {
            Cause::new("the line is empty; a script has no empty lines").help(DELETE)
        }
        Fault::Field(operand, why) => match path_help(why, &all, at) {
            Some(help) => field_cause(operand, why, field).help(help),
            None => field_cause(operand, why, field),
        },
        Fault::UnknownAtom if bytes == STAR.as_bytes() => to_be_filled_in(),
        Fault::UnknownAtom => unknown_atom(field),
        Fault::ShortAtom => short_atom(&bytes[all[at].0..]),
        _ => count_cause(found, all[0].1, field),
    };
    Some(cause.mark(mark))
}

/// A star that is yet to be filled in, which only fill takes.
fn to_be_filled_in() -> Cause {
    Cause::new("the line is yet to be filled in: in the place of `*` stand the atoms")
        .note("`station fill FILE` finds the permissions, and `--write` puts them there")
}

const DELETE: &str = "delete the line";

fn short_atom(atom: &[u8]) -> Cause {
    let atom = shown(atom).replace('\t', " ");
    let forms = atom_forms();
    Cause::new(format!(
        "the atom `{atom}` has not its three fields: {forms}"
    ))
}

/// The forms of all atoms.
fn atom_forms() -> String {
    let form = |atom: &AtomShape| {
        let [(one, _), (other, _)] = atom.operands;
        format!("{} {one} {other}", atom.word)
    };
    listed(&ATOM_SHAPES.iter().map(form).collect::<Vec<_>>(), "or")
}

/// A path where `let`, `open`, `shut` or a permission wants a variable: how the line
/// is written.
fn path_help(why: Malformed, all: &[(usize, &[u8])], at: usize) -> Option<String> {
    let path = shown(all.get(at)?.1);
    let (x, f) = path
        .split_once('.')
        .filter(|_| why == Malformed::PathForName)?;
    match (all[0].1, all[at - 1].1) {
        (b"let", b"let") => Some(format!(
            "a field is written by `set {x} {f} k`, with a variable k"
        )),
        (b"shut", b"shut") => Some(format!("write `shut {x} {f}`")),
        (b"open", _) if at == 2 => Some(format!("write `open {} {x} {f}`", shown(all[1].1))),
        (_, word) => Share::named(word).map(|share| format!("write `{} {x} {f}`", share.word())),
    }
}

/// A loop as other languages have it.
fn rounds(word: &[u8]) -> Option<&'static str> {
    match word {
        b"while" | b"until" | b"for" | b"do" | b"repeat" => Some(
            "`loop` begins a loop, with the condition for one more round, and `again` closes it",
        ),
        b"break" | b"continue" => {
            Some("a loop is left at its `loop`, where the condition is false, or by `return`")
        }
        _ => None,
    }
}

/// `a = b + 1` or `a += 1` as other languages have it.
fn computed(words: &[&str]) -> Option<String> {
    let (x, y, sign, z) = match *words {
        [x, "=" | ":=", y, sign @ ("+" | "-"), z] => (x, y, sign, z),
        [x, sign @ ("+=" | "-="), z] => (x, x, sign, z),
        [x, sign @ ("++" | "--")] => (x, x, sign, "1"),
        _ => return None,
    };
    let word = if sign.starts_with('+') { "add" } else { "sub" };
    let number = z.starts_with(|letter: char| letter.is_ascii_digit());
    Some(match number {
        true => format!("`let k {z}`, then `{word} {x} {y} k`"),
        false => format!("`{word} {x} {y} {z}`"),
    })
}

/// `a = 7` as other languages have it.
fn assignment(all: &[(usize, &[u8])]) -> Option<String> {
    let words: Vec<String> = all.iter().map(|field| shown(field.1)).collect();
    let words: Vec<&str> = words.iter().map(String::as_str).collect();
    let [left, "=" | ":=", right] = words[..] else {
        return computed(&words);
    };
    Some(match left.split_once('.') {
        Some((x, f)) => format!("`set {x} {f} y`, with a variable y that has the value"),
        None => format!("`let {left} {right}`"),
    })
}

/// Too few or too many fields or atoms.
fn count_cause(found: Fault, word: &[u8], field: &[u8]) -> Cause {
    let shape = model::form::shape_of(word);
    let form = shape.map(form_of).unwrap_or_default();
    let rounds = shape.is_some_and(|shape| shape.tail == Tail::Loop);
    match found {
        Fault::Missing(letter, operand) => Cause::new(format!(
            "the field for {letter} is missing, {}: the form is `{form}`",
            means(operand)
        )),
        Fault::Extra if field.is_empty() => {
            Cause::new("the line has a tab too many, and so an empty field").help(FORMAT)
        }
        Fault::Extra => Cause::new(format!(
            "`{}` is a field too many: the form is `{form}`",
            shown(field)
        )),
        Fault::NinthAtom if rounds => Cause::new(format!(
            "an invariant has at most {} atoms after the condition, and this is the ninth",
            limits::ATOMS
        ))
        .help("leave out what neither the body nor a line after `again` needs"),
        Fault::NinthAtom => Cause::new(format!(
            "a formula has at most {} atoms, and this is the ninth",
            limits::ATOMS
        ))
        .help("`assert` can be split over two lines; a contract wants less in one line"),
        _ if rounds => Cause::new(format!(
            "`loop` takes a condition first, then the atoms of its invariant: `{form}`"
        )),
        _ => Cause::new(format!("`{}` takes one condition: `{form}`", shown(word))),
    }
}

const FORMAT: &str = "`station fmt --write FILE` fixes it";

fn unknown_word(word: &[u8], reader: &Reader) -> Cause {
    let name = shown(word);
    let next = next_words(reader);
    let here = words(&next);
    if name.is_empty() {
        return Cause::new("the line begins with a tab; there is no indentation").help(FORMAT);
    }
    if name.starts_with(['#', ';']) || name.starts_with("//") || name.starts_with("--") {
        return Cause::new("a script has no comments").help(DELETE);
    }
    if let Some(shape) = SHAPES
        .iter()
        .find(|shape| name.eq_ignore_ascii_case(shape.word))
    {
        return Cause::new(format!("words are written small: `{}`", shape.word));
    }
    if let Some(atom) = ATOM_SHAPES.iter().find(|atom| atom.word == name) {
        return Cause::new(format!("`{}` begins an atom, and no line", atom.word))
            .note(format!("here may stand {here}"));
    }
    let all = || SHAPES.iter().map(|shape| shape.word);
    let near = nearest(&name, next.iter().copied()).or_else(|| nearest(&name, all()));
    let near = near.map_or(String::new(), |word| format!("; did you mean `{word}`?"));
    Cause::new(format!("no line begins with `{name}`{near}")).note(format!("here may stand {here}"))
}

fn unknown_atom(word: &[u8]) -> Cause {
    let name = shown(word);
    let atoms = format!("an atom is {}", atom_forms());
    match name.as_str() {
        "" => Cause::new("an atom begins with an empty field: a tab too many").help(FORMAT),
        "and" | "&&" | "*" | "," => Cause::new(format!(
            "no word stands between atoms, and `{name}` is none; {atoms}"
        ))
        .help(format!("leave `{name}` out")),
        _ => {
            let near = did_you_mean(&name, ATOM_SHAPES.iter().map(|atom| atom.word));
            Cause::new(format!("no atom begins with `{name}`{near}")).note(atoms)
        }
    }
}

fn field_cause(operand: Operand, why: Malformed, field: &[u8]) -> Cause {
    let name = shown(field);
    let must = means(operand);
    let stands = |what: &str| Cause::new(format!("{what} `{name}` stands where {must} must stand"));
    match why {
        Malformed::Empty => Cause::new(format!(
            "the field is empty where {must} must stand: two tabs, or one at the end"
        ))
        .help(FORMAT),
        Malformed::NumberForName if operand == Operand::Variable => {
            stands("the number").help(format!("`let k {name}` first, then name k here"))
        }
        Malformed::NumberForName => stands("the number"),
        Malformed::PathForName if operand == Operand::Variable => {
            stands("the path").help(format!("`let v {name}` first, then name v here"))
        }
        Malformed::PathForName => stands("the path"),
        Malformed::LongPath => {
            let mut parts = name.splitn(3, '.').map(str::to_string);
            let mut part = || parts.next().unwrap_or_default();
            let (x, f, rest) = (part(), part(), part());
            Cause::new(format!("a path has one field, and `{name}` has more"))
                .note(noted(
                    "a card behind a link has a name of its own before it is read",
                ))
                .help(format!("`let v {x}.{f}` first, then read `v.{rest}`"))
        }
        Malformed::Character(at) => {
            let letter = field.get(at).map_or('?', |&byte| char::from(byte));
            match letter {
                '"' | '\'' => Cause::new("a script has numbers and links, no texts"),
                _ => Cause::new(format!("`{letter}` stands in no name, number or path")),
            }
            .note(format!("here must stand {must}"))
        }
        other => word_cause(other, &name),
    }
}

/// Names and numbers that are not written as they are.
fn word_cause(why: Malformed, name: &str) -> Cause {
    match why {
        Malformed::TooLong => Cause::new(format!(
            "a name has at most {} letters and digits; `{name}` has too many ({})",
            limits::NAME_BYTES,
            name.split('.').map(str::len).max().unwrap_or(0)
        )),
        Malformed::LeadingZero => {
            let sign = if name.starts_with('-') { "-" } else { "" };
            let number = match name.trim_start_matches(['-', '0']) {
                "" => "0".to_string(),
                digits => format!("{sign}{digits}"),
            };
            Cause::new("a number has no leading zero").help(format!("write `{number}`"))
        }
        Malformed::MinusZero => Cause::new("`-0` is no number").help("write `0`"),
        Malformed::OutOfRange => Cause::new(format!(
            "a number is at least {} and at most {}",
            i32::MIN,
            i32::MAX
        )),
        Malformed::PlusSign => Cause::new("a number has no `+`")
            .help(format!("write `{}`", name.trim_start_matches('+'))),
        Malformed::FirstDigit => Cause::new("a name begins with a letter"),
        _ => Cause::new(format!("`{name}` has no form of the language")),
    }
}
