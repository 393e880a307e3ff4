//! Possible fixes of a line that is not in its form: another word, a field split,
//! dropped or given a variable of its own.

use super::draft::{both, delete, insert, Candidate, Draft};
use super::form::rewritten;
use crate::nearest::nearest;
use model::form::{Fault, Malformed, Operand, SHAPES};

/// The fixes of the field at a place of a line.
pub fn candidates(draft: &Draft, at: usize, place: usize, fault: Fault) -> Vec<Candidate> {
    let line = &draft.lines[at];
    match fault {
        Fault::EmptyLine => vec![delete(at)],
        Fault::UnknownWord => words(line, at),
        Fault::UnknownAtom => atoms(line, at, place),
        Fault::Field(operand, why) => field(draft, at, place, operand, why),
        Fault::ShortAtom | Fault::NinthAtom => vec![rewritten(at, &line[..place])],
        Fault::Extra => {
            let mut found = vec![rewritten(at, &line[..place])];
            found.extend((1..line.len()).map(|gone| rewritten(at, &without(line, gone))));
            found
        }
        _ => Vec::new(),
    }
}

fn without(line: &[String], place: usize) -> Vec<String> {
    let mut line = line.to_vec();
    line.remove(place);
    line
}

fn with(line: &[String], place: usize, field: &str) -> Vec<String> {
    let mut line = line.to_vec();
    line[place] = field.to_string();
    line
}

fn comment(word: &str) -> bool {
    word.starts_with(['#', ';']) || word.starts_with("//") || word.starts_with("--")
}

/// The nearest word, an assignment as other languages write it, or a comment.
fn words(line: &[String], at: usize) -> Vec<Candidate> {
    if comment(&line[0]) {
        return vec![delete(at)];
    }
    let known = SHAPES.iter().map(|shape| shape.word);
    let mut found = Vec::new();
    if let [left, sign, right] = line {
        if sign == "=" || sign == ":=" {
            let fields = match left.split_once('.') {
                Some((x, f)) => ["set", x, f, right].map(str::to_string).to_vec(),
                None => ["let", left, right].map(str::to_string).to_vec(),
            };
            found.push(rewritten(at, &fields));
        }
    }
    if let Some(word) = nearest(&line[0], known) {
        found.push(rewritten(at, &with(line, 0, word)));
    }
    found
}

/// The words that begin an atom.
pub const ATOM_WORDS: [&str; 5] = ["acc", "read", "chain", "eq", "ne"];

fn atoms(line: &[String], at: usize, place: usize) -> Vec<Candidate> {
    let mut found = vec![rewritten(at, &without(line, place))];
    if let Some(word) = nearest(&line[place], ATOM_WORDS) {
        found.insert(0, rewritten(at, &with(line, place, word)));
    }
    found
}

/// A field that is not what its place wants.
fn field(
    draft: &Draft,
    at: usize,
    place: usize,
    operand: Operand,
    why: Malformed,
) -> Vec<Candidate> {
    let line = &draft.lines[at];
    let field = line[place].clone();
    let fixed = |field: &str| vec![rewritten(at, &with(line, place, field))];
    match why {
        Malformed::Empty => vec![rewritten(at, &without(line, place))],
        Malformed::PathForName if permission(&line[place - 1]) || chained(line, place) => {
            let mut split = line.to_vec();
            let parts: Vec<String> = field.split('.').map(str::to_string).collect();
            split.splice(place..=place, parts);
            vec![rewritten(at, &split)]
        }
        Malformed::PathForName if line[0] == "let" && place == 1 => assigned(draft, at),
        Malformed::NumberForName | Malformed::PathForName if operand == Operand::Variable => {
            held_first(draft, at, place)
        }
        Malformed::LongPath => long_path(draft, at, place),
        Malformed::LeadingZero => {
            let sign = if field.starts_with('-') { "-" } else { "" };
            match field.trim_start_matches(['-', '0']) {
                "" => fixed("0"),
                digits => fixed(&format!("{sign}{digits}")),
            }
        }
        Malformed::MinusZero => fixed("0"),
        Malformed::PlusSign => fixed(field.trim_start_matches('+')),
        Malformed::Character(_) => {
            let kept: String = field.chars().filter(char::is_ascii_alphanumeric).collect();
            fixed(&kept)
        }
        _ => Vec::new(),
    }
}

/// Is it the card of an `open` or `shut`, with its field in one?
fn chained(line: &[String], place: usize) -> bool {
    matches!((line[0].as_str(), place), ("shut", 1) | ("open", 2))
}

/// Does the word begin an atom of a permission?
fn permission(word: &str) -> bool {
    matches!(word, "acc" | "read" | "chain")
}

/// A variable of its own, declared at the head of the block, that takes a value
/// before the line.
fn holding(draft: &Draft, at: usize, value: &str) -> Vec<(String, Candidate)> {
    let Some((first, last)) = draft.block(at) else {
        return Vec::new();
    };
    let name = draft.fresh(first, last);
    let slot = draft.vars_end(first);
    let declared = |kind: String| {
        let var = insert(slot, &format!("var\t{kind}\t{name}"));
        let taken = insert(at, &format!("let\t{name}\t{value}"));
        (name.clone(), both(var, taken))
    };
    draft.types().into_iter().map(declared).collect()
}

/// A number or path where a variable must stand.
fn held_first(draft: &Draft, at: usize, place: usize) -> Vec<Candidate> {
    let line = &draft.lines[at];
    let held = holding(draft, at, &line[place]).into_iter();
    held.map(|(name, held)| both(held, rewritten(at, &with(line, place, &name))))
        .collect()
}

/// `x.f.g`: the first link in a variable of its own.
fn long_path(draft: &Draft, at: usize, place: usize) -> Vec<Candidate> {
    let line = &draft.lines[at];
    let mut parts = line[place].splitn(3, '.');
    let (Some(x), Some(f), Some(rest)) = (parts.next(), parts.next(), parts.next()) else {
        return Vec::new();
    };
    let held = holding(draft, at, &format!("{x}.{f}")).into_iter();
    held.map(|(name, held)| {
        let path = format!("{name}.{rest}");
        both(held, rewritten(at, &with(line, place, &path)))
    })
    .collect()
}

/// `let x.f e` is `set x f e`, where e is a variable.
fn assigned(draft: &Draft, at: usize) -> Vec<Candidate> {
    let [_, path, value] = &draft.lines[at][..] else {
        return Vec::new();
    };
    let Some((x, f)) = path.split_once('.') else {
        return Vec::new();
    };
    let set = |value: &str| rewritten(at, &["set", x, f, value].map(str::to_string));
    let mut found = vec![set(value)];
    let held = holding(draft, at, value).into_iter();
    found.extend(held.map(|(name, held)| both(held, set(&name))));
    found
}
