//! Numbers 4, 5 and 8 where it is the place of a line that is wrong, a limit
//! that is passed, or an end that is missing.

use super::Cause;
use crate::script::{field_range, line, listed, shown};
use model::form::{fields, next_words};
use model::limits;
use model::text::{self, Block, Branch, Limit, Place, Reader};

/// The words of lines, as a message lists them.
pub fn words(next: &[&str]) -> String {
    match next {
        [] => "nothing more".to_string(),
        _ => {
            let next: Vec<String> = next.iter().map(ToString::to_string).collect();
            listed(&next, "or")
        }
    }
}

/// The lines of the `if`s and `loop`s that are open before a line.
fn open_lines(text: &[u8], before: u32) -> Vec<u32> {
    let mut reader = Reader::new();
    let mut open = Vec::new();
    for (at, bytes) in text.split(|&byte| byte == b'\n').enumerate() {
        let number = at as u32 + 1;
        if number >= before {
            break;
        }
        let Some(line) = text::line(bytes) else { break };
        reader.step(&line);
        open.truncate(reader.branches.len());
        if reader.branches.len() > open.len() {
            open.push(number);
        }
    }
    open
}

/// The last line before this one that begins with one of the words.
fn last_with(text: &[u8], before: u32, words: &[&str]) -> Option<u32> {
    (1..before).rev().find(|&number| {
        let bytes = line(text, number).unwrap_or_default();
        let word = bytes.split(|&byte| byte == b'\t').next();
        words.iter().any(|known| word == Some(known.as_bytes()))
    })
}

/// The line has its form and may not stand here.
pub fn misplaced(text: &[u8], number: u32, reader: &Reader) -> Cause {
    let bytes = line(text, number).unwrap_or_default();
    let word = shown(fields(bytes)[0].1);
    let cause =
        Cause::new(out_of_place(text, number, reader, &word)).mark(field_range(bytes, 0..1));
    let cause = match reader.place {
        Place::Done => cause.help("delete the lines after it"),
        _ => cause.note(format!("here may stand {}", words(&next_words(reader)))),
    };
    match missing_before(bytes, reader) {
        Some(lines) => cause.help(format!("write {} before it", listed(&lines, "and"))),
        None if only_returned(text, number, reader) => {
            cause.help("move the line before the `return`, or leave one of them out")
        }
        None => cause,
    }
}

/// Might the line stand here if the line before were no `return`?
fn only_returned(text: &[u8], number: u32, reader: &Reader) -> bool {
    let mut unreturned = reader.clone();
    unreturned.returned = false;
    let found = line(text, number).and_then(text::line);
    reader.returned && found.is_some_and(|line| unreturned.step(&line))
}

/// The innermost open part is of another kind than the line would close.
fn still_open(text: &[u8], number: u32, reader: &Reader, word: &str) -> String {
    let open = open_lines(text, number).last().copied().unwrap_or(0);
    let looping = |branch: &Branch| *branch == Branch::Loop;
    let branches = &reader.branches;
    match (word, branches.last()) {
        ("else" | "join", _) if branches.iter().all(looping) => {
            format!("`{word}` has no `if` before it that is open")
        }
        ("again", _) if !branches.iter().any(looping) => {
            "`again` has no `loop` before it that is open".to_string()
        }
        (_, Some(Branch::Loop)) => format!("the `loop` of line {open} is still open"),
        ("else", _) => format!("the `if` of line {open} has its `else` already"),
        ("join", _) => format!("the `if` of line {open} has no `else` yet"),
        _ => format!("the `if` of line {open} is still open"),
    }
}

fn out_of_place(text: &[u8], number: u32, reader: &Reader, word: &str) -> String {
    let block = last_with(text, number, &["method", "main"]).unwrap_or(0);
    match (reader.place, word) {
        (Place::Done, _) => "nothing follows main's `end`".to_string(),
        (Place::Requires, _) => format!("`{word}` stands where the method's `requires` must stand"),
        (Place::Ensures, _) => format!("`{word}` stands where the method's `ensures` must stand"),
        (Place::Start, _) => format!("`{word}` stands before the first `class` or `main`"),
        (Place::Methods, "field") => "the fields of a class come before its methods".to_string(),
        (Place::Fields | Place::Methods, _) => format!("`{word}` stands outside every block"),
        (Place::Body(_), "var") => {
            "the `var` lines come before the block's first statement".to_string()
        }
        (Place::Vars(Block::Main) | Place::Body(Block::Main), "return") => {
            "`return` stands in methods only, and this is main".to_string()
        }
        (_, "else" | "join" | "again" | "end") => still_open(text, number, reader, word),
        (_, "class" | "method" | "main" | "field" | "requires" | "ensures") => {
            format!("the block of line {block} is not ended")
        }
        _ if only_returned(text, number, reader) => format!(
            "the `return` of line {} ends the method, and no run comes to `{word}`",
            number - 1
        ),
        _ => format!("`{word}` may not stand here"),
    }
}

/// The lines that a reader wants next where something is missing, in order.
const CLOSING: [&str; 7] = [
    "requires", "ensures", "else", "join", "again", "end", "main",
];

/// The lines to write so that the reader comes to a place that suits.
fn closing(reader: &Reader, suits: impl Fn(&Reader) -> bool) -> Option<Vec<String>> {
    let mut reader = reader.clone();
    let mut lines = Vec::new();
    for _ in 0..2 * limits::NESTING + CLOSING.len() {
        if suits(&reader) {
            return Some(lines);
        }
        let next = next_words(&reader);
        let word = CLOSING.iter().find(|word| next.contains(word))?;
        reader.step(&text::line(word.as_bytes())?);
        lines.push(word.to_string());
    }
    None
}

/// What is missing before a line, so that it may stand. From inside a block no
/// way leads through `main`.
fn missing_before(bytes: &[u8], reader: &Reader) -> Option<Vec<String>> {
    let line = text::line(bytes)?;
    let inside = matches!(reader.place, Place::Vars(_) | Place::Body(_));
    let fits = |lines: &Vec<String>| {
        let through = lines.iter().any(|line| line == "main");
        let crosses = inside && through;
        !lines.is_empty() && !crosses
    };
    closing(reader, |reader| reader.clone().step(&line)).filter(fits)
}

/// Number 5.
pub fn limit(text: &[u8], number: u32) -> Option<Cause> {
    let mut reader = Reader::new();
    let _ = text::lines_by(&mut reader, text);
    let bytes = line(text, number)?;
    let word = shown(fields(bytes)[0].1);
    let inner = format!("move the inner `{word}` into a method");
    let (said, help) = match reader.passed()? {
        Limit::Classes => (
            format!("a script has at most {} classes", limits::CLASSES),
            "split the script, or let one class have the fields of two",
        ),
        Limit::Fields => (
            format!("a class has at most {} fields", limits::FIELDS),
            "put some fields into a second class, and a link to it into this one",
        ),
        Limit::Methods => (
            format!("a script has at most {} methods", limits::METHODS),
            "leave out methods that nothing calls, or split the script",
        ),
        Limit::Locals => (
            format!("a block has at most {} `var` lines", limits::LOCALS),
            "use one variable for two things, or move lines into a method, which has its own",
        ),
        Limit::Statements => (
            format!(
                "a script has at most {} statement lines, with `else`, `join`, `again` and `end`",
                limits::STATEMENT_LINES
            ),
            "move lines that recur into a method, where they count once",
        ),
        Limit::Nesting => (
            format!("branches and loops nest at most {} deep", limits::NESTING),
            inner.as_str(),
        ),
        _ => return None,
    };
    let cause = Cause::new(said).mark(field_range(bytes, 0..usize::MAX));
    Some(cause.help(help))
}

/// Number 8.
pub fn unfinished(text: &[u8]) -> Cause {
    let mut reader = Reader::new();
    let _ = text::lines_by(&mut reader, text);
    let lines = text.iter().filter(|&&byte| byte == b'\n').count() as u32;
    let open = open_lines(text, lines + 1).last().copied().unwrap_or(0);
    let block = last_with(text, lines + 1, &["method", "main"]).unwrap_or(0);
    let said = match (reader.place, reader.branches.last()) {
        _ if text.is_empty() => "the text is empty".to_string(),
        (_, Some(Branch::First)) => format!("the `if` of line {open} has no `else` and no `join`"),
        (_, Some(Branch::Second)) => format!("the `if` of line {open} has no `join`"),
        (_, Some(Branch::Loop)) => format!("the `loop` of line {open} has no `again`"),
        (Place::Requires, _) => format!("the method of line {block} has no `requires`"),
        (Place::Ensures, _) => format!("the method of line {block} has no `ensures`"),
        (Place::Vars(_) | Place::Body(_), _) => format!("the block of line {block} has no `end`"),
        _ => "the text has no `main`".to_string(),
    };
    let done = |reader: &Reader| reader.place == Place::Done;
    let cause = Cause::new(said);
    match closing(&reader, done) {
        Some(lines) => cause.help(format!(
            "write {} after the last line",
            listed(&lines, "and")
        )),
        None => cause,
    }
}
