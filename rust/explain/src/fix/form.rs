//! Possible fixes of the numbers 3, 4 and 8: bytes, fields, and lines that are
//! missing or stand in the wrong place.

use super::draft::{both, delete, insert, named, replace, Candidate, Draft};
use super::edit::Edit;
use super::fields;
use super::stars;
use crate::fmt::formatted;
use model::form::fault;
use model::text::{self, Reader};

/// The text as `fmt` gives it.
pub fn reformatted(text: &[u8]) -> Option<Candidate> {
    let better = formatted(text);
    (better != text).then(|| Candidate {
        words: "format the text with `station fmt`".to_string(),
        edits: vec![Edit::Whole(better)],
        after: 0,
    })
}

/// Number 4.
pub fn candidates(text: &[u8], draft: &Draft, at: usize) -> Vec<Candidate> {
    let mut found: Vec<Candidate> = stars::candidate(text, draft, at).into_iter().collect();
    let bytes = draft.lines[at].join("\t");
    let own = match fault(bytes.as_bytes()) {
        Some((place, fault)) => fields::candidates(draft, at, place, fault),
        None => misplaced(draft, at),
    };
    let form = reformatted(text).into_iter();
    // One empty line is deleted, more are dropped with the form.
    match bytes.is_empty() {
        true => found.extend(own.into_iter().chain(form)),
        false => found.extend(form.chain(own)),
    }
    found
}

/// Number 8: the lines that close what is open.
pub fn unfinished(draft: &Draft) -> Vec<Candidate> {
    let end = draft.lines.len();
    let mut found: Vec<Candidate> = closed(draft, end, None).into_iter().collect();
    found.extend(inner(draft, end));
    found
}

/// The reader before a line.
fn reader_at(draft: &Draft, at: usize) -> Reader {
    let mut reader = Reader::new();
    for line in draft.lines.iter().take(at) {
        let line = line.join("\t");
        if let Some(line) = text::line(line.as_bytes()) {
            reader.step(&line);
        }
    }
    reader
}

/// The lines that a text can lack, in the order in which they are tried.
const CLOSING: [&str; 7] = [
    "requires", "ensures", "else", "join", "again", "end", "main",
];

/// The lines before a place that let the line stand there, or end the text.
fn closed(draft: &Draft, at: usize, line: Option<&str>) -> Option<Candidate> {
    let mut reader = reader_at(draft, at);
    let mut lines: Vec<&str> = Vec::new();
    for _ in 0..16 {
        let suits = match line.map(str::as_bytes).and_then(text::line) {
            Some(line) => reader.clone().step(&line),
            None => reader.place == text::Place::Done,
        };
        if suits {
            break;
        }
        let next = model::form::next_words(&reader);
        let word = CLOSING.into_iter().find(|word| next.contains(word))?;
        reader.step(&text::line(word.as_bytes())?);
        lines.push(word);
    }
    let inserted = lines.into_iter().map(|line| insert(at, line));
    inserted.reduce(both)
}

fn misplaced(draft: &Draft, at: usize) -> Vec<Candidate> {
    let line = draft.lines[at].join("\t");
    let mut found = Vec::new();
    found.extend(classes(draft, at));
    found.extend(methods(draft, at));
    found.extend(openings(draft, at));
    found.extend(inner(draft, at));
    found.extend(closed(draft, at, Some(&line)));
    if let Some((first, _)) = draft.block(at) {
        // A declaration, or a statement, that comes too late.
        let slot = draft.vars_end(first);
        if slot < at {
            found.push(both(insert(slot, &line), delete(at)));
        }
    }
    if at > 0 && draft.word(at - 1) == "return" {
        found.push(both(insert(at - 1, &line), delete(at)));
        found.push(delete(at - 1));
    }
    found.push(delete(at));
    found
}

/// A `class` before a field or method that has none.
fn classes(draft: &Draft, at: usize) -> Vec<Candidate> {
    let names = draft.missing_types();
    let lines = names
        .iter()
        .map(|name| insert(at, &format!("class\t{name}")));
    lines.collect()
}

/// A `method` line before a `requires` that has none: one that a call asks for.
fn methods(draft: &Draft, at: usize) -> Vec<Candidate> {
    if draft.word(at) != "requires" {
        return Vec::new();
    }
    let last = (at..draft.lines.len()).find(|&line| draft.word(line) == "end");
    let inside = draft.names(at..last.unwrap_or(draft.lines.len()));
    let has = |name: &str, place: usize| {
        let lines = draft.lines.iter();
        let mut lines = lines.filter(|line| matches!(line[0].as_str(), "var" | "field"));
        lines.any(|line| line.get(place).is_some_and(|known| known == name))
    };
    let mut params: Vec<String> = inside.into_iter().filter(|name| !has(name, 2)).collect();
    params.push(draft.fresh(at, last.unwrap_or(at)));
    let mut found = Vec::new();
    for (place, call) in draft.lines.iter().enumerate() {
        let [word, x, _, name, z] = &call[..] else {
            continue;
        };
        let declared = |line: &Vec<String>| line[0] == "method" && line.get(2) == Some(name);
        if word != "call" || draft.lines.iter().any(declared) {
            continue;
        }
        for result in types_of(draft, place, x) {
            for kind in types_of(draft, place, z) {
                for param in &params {
                    let line = format!("method\t{result}\t{name}\t{kind}\t{param}");
                    found.push(insert(at, &line));
                }
            }
        }
    }
    found
}

/// The type of a variable at a line, or every type if it has none there.
fn types_of(draft: &Draft, at: usize, name: &str) -> Vec<String> {
    let block = draft.block(at).map(|(first, _)| draft.variables(first));
    let mut known = block.unwrap_or_default().into_iter();
    match known.find(|(var, _)| var == name) {
        Some((_, kind)) => vec![kind],
        None => draft.types(),
    }
}

/// An `else`, `join` or `again` inside the block, at every line before this one.
fn inner(draft: &Draft, at: usize) -> Vec<Candidate> {
    let Some((first, _)) = draft.block(at.saturating_sub(1)) else {
        return Vec::new();
    };
    let slot = draft.vars_end(first);
    let places = (slot + 1..=at).rev();
    let lines = |place| ["else", "join", "again"].map(|line| insert(place, line));
    let mut found: Vec<Candidate> = places.flat_map(lines).collect();
    let pair = |place| both(insert(place, "else"), insert(place, "join"));
    found.extend((slot + 1..=at).rev().map(pair));
    found
}

/// An `if` or `loop` for an `else`, `join` or `again` that has none.
fn openings(draft: &Draft, at: usize) -> Vec<Candidate> {
    let word = match draft.word(at) {
        "else" | "join" => "if",
        "again" => "loop",
        _ => return Vec::new(),
    };
    let Some((first, last)) = draft.block(at) else {
        return Vec::new();
    };
    let slot = draft.vars_end(first);
    let conditions = conditions(draft, first, last);
    let mut found = Vec::new();
    for place in (slot..=at).rev().take(12) {
        for condition in &conditions {
            let line = format!("{word}\t{condition}");
            found.push(insert(place, &line));
        }
    }
    found
}

/// Conditions over the variables that the block names.
fn conditions(draft: &Draft, first: usize, last: usize) -> Vec<String> {
    let lines = draft.vars_end(first)..last;
    let used = draft.names(lines.clone());
    let known = draft.variables(first).into_iter();
    let known: Vec<_> = known.filter(|(name, _)| used.contains(name)).collect();
    let body = draft.lines.get(lines).unwrap_or_default();
    let fields = || body.iter().flat_map(|line| line.iter().skip(1));
    let mut sides = Vec::new();
    for (name, kind) in &known {
        let ends: Vec<String> = match kind.as_str() {
            "int" => numbers(fields()),
            _ => vec!["null".to_string()],
        };
        sides.extend(ends.into_iter().map(|end| (name.clone(), end)));
        let same = known.iter().filter(|other| other.1 == *kind);
        let others = same.filter(|other| other.0 > *name);
        sides.extend(others.map(|other| (name.clone(), other.0.clone())));
    }
    for path in fields().filter(|field| path(field)) {
        sides.push((path.clone(), "null".to_string()));
        sides.extend(numbers(fields()).into_iter().map(|end| (path.clone(), end)));
    }
    sides.dedup();
    let both_ways =
        |(one, other): (String, String)| ["eq", "ne"].map(|word| format!("{word}\t{one}\t{other}"));
    sides.into_iter().flat_map(both_ways).take(80).collect()
}

fn path(field: &str) -> bool {
    field
        .split_once('.')
        .is_some_and(|(x, _)| !x.is_empty() && (named(x) || x == "this"))
}

/// The numbers among some fields, with 0 and 1.
fn numbers<'f>(fields: impl Iterator<Item = &'f String>) -> Vec<String> {
    let mut found = vec!["0".to_string(), "1".to_string()];
    for field in fields {
        if text::number(field.as_bytes()).is_some() && !found.contains(field) {
            found.push(field.clone());
        }
    }
    found.truncate(6);
    found
}

/// A fixed line in the place of a malformed one.
pub fn rewritten(at: usize, fields: &[String]) -> Candidate {
    replace(at, &fields.join("\t"))
}
