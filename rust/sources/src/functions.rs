//! The functions of a Rattle source, each with its contract and its body.

use crate::{declarations, Source};
use std::ops::Range;

/// The words that begin a clause of a contract. A loop's invariant stands in the proof.
const CLAUSES: [&str; 2] = ["requires", "ensures"];

/// A clause of a contract.
pub struct Clause {
    pub word: &'static str,
    /// The line of its opening brace, counted from 0.
    pub line: usize,
    /// From brace to brace, with single blanks.
    pub text: String,
}

/// A function.
pub struct Function {
    pub name: String,
    /// Its lines, from that of `fn` to the one after its closing brace.
    pub lines: Range<usize>,
    pub clauses: Vec<Clause>,
    /// What stands on these lines but for comments, quoted bytes and the contract, for which there are blanks.
    pub code: String,
}

/// How many bytes at the text's start are a comment, or bytes between quotation marks.
fn passed_over(text: &str) -> usize {
    if text.starts_with("//") {
        return text.find('\n').unwrap_or(text.len());
    }
    if let Some(quoted) = text.strip_prefix('"') {
        return quoted.find('"').map_or(text.len(), |end| end + 2);
    }
    // A byte in quotation marks, and not a lifetime.
    let closed = |mark: &&str| {
        let rest = text.get(mark.len() + 1..);
        text.starts_with(*mark) && rest.is_some_and(|rest| rest.starts_with('\''))
    };
    let mut marks = ["b'\\", "b'"].into_iter();
    marks.find(closed).map_or(0, |mark| mark.len() + 2)
}

/// Blanks for the text, byte for byte; its lines stay.
fn blanks(text: &str) -> String {
    let blank = |byte| if byte == b'\n' { '\n' } else { ' ' };
    text.bytes().map(blank).collect()
}

/// The text with blanks for its comments and quoted bytes.
fn bare(text: &str) -> String {
    let mut out = String::new();
    let mut rest = text;
    while let Some(first) = rest.chars().next() {
        let passed = passed_over(rest);
        if passed > 0 {
            out.push_str(&blanks(&rest[..passed]));
            rest = &rest[passed..];
        } else {
            out.push(first);
            rest = &rest[first.len_utf8()..];
        }
    }
    out
}

/// The next pair of braces from a place on, with all between them.
fn braces(text: &str, from: usize) -> Option<Range<usize>> {
    let start = from + text[from..].find('{')?;
    let mut depth = 0;
    for (at, letter) in text[start..].char_indices() {
        match letter {
            '{' => depth += 1,
            '}' => depth -= 1,
            _ => {}
        }
        if depth == 0 {
            return Some(start..start + at + 1);
        }
    }
    None
}

/// The word of the clause that begins where this text ends; a clause may be starred and have a name after its word.
fn clause_word(before: &str) -> Option<&'static str> {
    let mut last = before.split_whitespace().rev().take(2);
    last.find_map(|stands| {
        CLAUSES
            .into_iter()
            .find(|word| stands.trim_end_matches('*') == *word)
    })
}

fn folded(text: &str) -> String {
    text.split_whitespace().collect::<Vec<_>>().join(" ")
}

/// The function that begins at a place of the source: a pair of braces is a clause after the word of one,
/// or after its name, and else the body.
fn function(source: &Source, bare: &str, name: &str, start: usize) -> Option<Function> {
    let line = |at: usize| bare[..at].matches('\n').count();
    let mut clauses = Vec::new();
    let mut code = String::new();
    let mut from = start;
    loop {
        let pair = braces(bare, from)?;
        let before = &bare[from..pair.start];
        let Some(word) = clause_word(before) else {
            code.push_str(&bare[from..pair.end]);
            return Some(Function {
                name: name.to_string(),
                lines: line(start)..line(pair.end) + 1,
                clauses,
                code,
            });
        };
        code.push_str(before);
        code.push_str(&blanks(&bare[pair.clone()]));
        clauses.push(Clause {
            word,
            line: line(pair.start),
            text: folded(&source.text[pair.clone()]),
        });
        from = pair.end;
    }
}

/// The functions of a source; none if it is no code.
pub fn functions(source: &Source) -> Vec<Function> {
    if !source.is_code() {
        return Vec::new();
    }
    let bare = bare(&source.text);
    let starts: Vec<usize> = std::iter::once(0)
        .chain(bare.match_indices('\n').map(|(at, _)| at + 1))
        .collect();
    let declared = declarations(source).into_iter();
    declared
        .filter_map(|one| function(source, &bare, &one.name, starts[one.first]))
        .collect()
}
