//! What is offered passes the numbers 6, 7 and 9, and what a script has is offered.

use super::scripts::{generated, readable};
use crate::lsp::completion::completion;
use crate::lsp::outline::Outline;
use crate::lsp::roles::{role, Role};
use explain::Json;
use generator::rng::Rng;
use model::form::{shape_of, Tail};

fn labels(text: &str, line: usize, column: usize) -> Vec<String> {
    let outline = Outline::of(text.as_bytes());
    let Json::List(items) = completion(text, &outline, line as u32, column) else {
        panic!("no list");
    };
    let label = |item: &Json| item.get("label").and_then(Json::text).map(str::to_string);
    items.iter().filter_map(label).collect()
}

/// The text with another line.
fn with_line(text: &str, at: usize, line: &str) -> String {
    let mut lines: Vec<&str> = text.split('\n').collect();
    lines[at] = line;
    lines.join("\n")
}

/// What is offered for the field after these.
fn offered(text: &str, at: usize, fields: &[&str]) -> Vec<String> {
    let line = format!("{}\t", fields.join("\t"));
    labels(&with_line(text, at, &line), at, line.len())
}

/// Is a line with so many fields whole, up to its operands or an atom?
fn whole(fields: &[&str]) -> bool {
    let shape = shape_of(fields[0].as_bytes()).expect("a word");
    let rest = (fields.len() - 1).checked_sub(shape.operands.len());
    rest.is_some_and(|rest| rest % 3 == 0 && (rest > 0 || shape.tail == Tail::Nothing))
}

/// The numbers of names and types.
const NAMES: [u32; 3] = [6, 7, 9];

/// The line with the first word that is offered for each field that it still lacks;
/// none if nothing is.
fn finished(text: &str, at: usize, fields: &[&str]) -> Option<String> {
    let mut fields: Vec<String> = fields.iter().map(|field| field.to_string()).collect();
    loop {
        let known: Vec<&str> = fields.iter().map(String::as_str).collect();
        if whole(&known) {
            return Some(known.join("\t"));
        }
        let next = offered(text, at, &known).into_iter().next()?;
        fields.push(next);
    }
}

/// At every field of every script: what stands there is offered, and with
/// each name that is offered the line passes.
#[test]
fn names_that_pass() {
    let (mut kept, mut tried) = (0, 0);
    for text in readable() {
        for (at, line) in text.lines().enumerate() {
            let fields: Vec<&str> = line.split('\t').collect();
            for place in 1..fields.len() {
                let role = role(&fields, place);
                let word = fields[place];
                let new = matches!(
                    role,
                    Role::NewClass | Role::NewField | Role::NewMethod | Role::NewVariable
                );
                let number = model::text::number(word.as_bytes()).is_some();
                let words = offered(&text, at, &fields[..place]);
                if !new && !number {
                    assert!(
                        words.contains(&word.to_string()),
                        "{line}: {word} of {words:?}"
                    );
                    kept += 1;
                }
                for word in words.iter().filter(|word| *word != "*") {
                    let start = [&fields[..place], &[word.as_str()]].concat();
                    let Some(other) = finished(&text, at, &start) else {
                        continue;
                    };
                    let answer = model::check(with_line(&text, at, &other).as_bytes());
                    assert!(
                        !NAMES.contains(&answer.0) || answer.1 != at as u32 + 1,
                        "{line}: {other} gets {answer:?}\n{text}"
                    );
                    tried += 1;
                }
            }
        }
    }
    assert!(kept > 3_000 && tried > 8_000, "{kept} {tried}");
}

/// In a whole line, where other fields follow: what stands there is offered, and the
/// line passes with each other name.
#[test]
fn names_before_others() {
    let (mut kept, mut tried) = (0, 0);
    for text in readable() {
        for (at, line) in text.lines().enumerate() {
            let fields: Vec<&str> = line.split('\t').collect();
            for place in 1..fields.len() {
                let column = fields[..place].iter().map(|field| field.len() + 1).sum();
                let words = labels(&text, at, column);
                let number = model::text::number(fields[place].as_bytes()).is_some();
                // Nothing is offered for a name that the line declares.
                if !words.is_empty() && !number {
                    assert!(
                        words.contains(&fields[place].to_string()),
                        "{line}: {words:?}"
                    );
                    kept += 1;
                }
                for word in words.iter().filter(|word| *word != "*") {
                    let mut other = fields.clone();
                    other[place] = word;
                    let answer = model::check(with_line(&text, at, &other.join("\t")).as_bytes());
                    let passes = !NAMES.contains(&answer.0) || answer.1 != at as u32 + 1;
                    assert!(passes, "{line}: {other:?} gets {answer:?}");
                    tried += 1;
                }
            }
        }
    }
    assert!(kept > 3_000 && tried > 8_000, "{kept} {tried}");
}

/// What is not offered would be refused: with each name of the script that is left
/// out at the last field the line gets 4, 6, 7 or 9.
#[test]
fn names_that_are_left_out() {
    let mut tried = 0;
    for text in readable() {
        let mut names: Vec<&str> = text.split(['\t', '\n', '.']).collect();
        names.retain(|name| model::text::name(name.as_bytes()).is_some());
        names.sort_unstable();
        names.dedup();
        for (at, line) in text.lines().enumerate() {
            let fields: Vec<&str> = line.split('\t').collect();
            let place = fields.len() - 1;
            let role = role(&fields, place);
            if !matches!(
                role,
                Role::Variable | Role::Expression | Role::Field(_) | Role::Method(_)
            ) {
                continue;
            }
            let words = offered(&text, at, &fields[..place]);
            for name in names
                .iter()
                .filter(|name| !words.contains(&name.to_string()))
            {
                let other = [&fields[..place], &[name]].concat().join("\t");
                let answer = model::check(with_line(&text, at, &other).as_bytes());
                assert!(
                    answer.1 == at as u32 + 1 && (answer.0 == 4 || NAMES.contains(&answer.0)),
                    "{line}: {other} gets {answer:?}, of {words:?}"
                );
                tried += 1;
            }
        }
    }
    assert!(tried > 2_000, "{tried}");
}

/// No text and no place makes it panic.
#[test]
fn hostile_places() {
    let mut rng = Rng::new(34);
    for text in generated(300) {
        for _ in 0..30 {
            labels(&text, rng.below(60), rng.below(60));
        }
    }
    for text in [
        "",
        "\t",
        "call\t\t\t\t\t\t",
        "open\t\t",
        "eq\t",
        "set\t\u{e9}\t",
        "requires\t\t",
    ] {
        for column in 0..12 {
            labels(text, 0, column);
        }
    }
}
