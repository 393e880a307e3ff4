//! Numbers in the code that have no name.

use crate::{functions, Source};

/// Numbers that need no name.
const PLAIN: [&str; 3] = ["0", "1", "2"];

/// The types that a number may end in.
const TYPES: [&str; 10] = [
    "u8", "u16", "u32", "u64", "usize", "i8", "i16", "i32", "i64", "isize",
];

fn is_word(letter: char) -> bool {
    letter.is_alphanumeric() || letter == '_'
}

/// The decimal numbers of a code and where they stand. Bits written as `0x..` are none; nor is a field, as `.0`.
fn numbers(code: &str) -> Vec<(usize, &str)> {
    let begins = |at: usize, letter: char| {
        let before = &code[..at];
        let field = before.ends_with('.') && !before.ends_with("..");
        letter.is_ascii_digit() && !before.ends_with(is_word) && !field
    };
    let starts = code
        .char_indices()
        .filter(|(at, letter)| begins(*at, *letter));
    let whole = |at: usize| {
        let rest = &code[at..];
        &rest[..rest.find(|letter| !is_word(letter)).unwrap_or(rest.len())]
    };
    starts
        .map(|(at, _)| (at, whole(at)))
        .filter(|(_, number)| !number.starts_with("0x"))
        .collect()
}

/// The digits alone.
fn digits(number: &str) -> String {
    let bare = TYPES.iter().find_map(|name| number.strip_suffix(name));
    bare.unwrap_or(number).replace('_', "")
}

/// `Stop::HeapFull => 22,`: what gives a case its number is the number's name.
fn is_of_a_case(line: &str, number: &str) -> bool {
    let arm = line.trim().strip_suffix(',');
    arm.and_then(|arm| arm.split_once(" => "))
        .is_some_and(|(case, value)| case.contains("::") && value == number)
}

/// `x[i + 3]` beside `x[i + 2]`, `nth(text, 3)` beside `nth(text, 2)`: numbers at the end of the same brackets that count on from 2.
fn counts_on(code: &str, at: usize, number: &str) -> bool {
    let (before, after) = (&code[..at], &code[at + number.len()..]);
    let (Some(open), Ok(number)) = (before.rfind(['(', '[']), number.parse::<usize>()) else {
        return false;
    };
    let named = before[..open].trim_end_matches(is_word).len();
    let same = |close: char| {
        let stands = |other: usize| code.contains(&format!("{}{other}{close}", &before[named..]));
        (2..number).all(stands)
    };
    [')', ']']
        .into_iter()
        .any(|close| after.starts_with(close) && same(close))
}

/// The numbers in functions that should have a name: all but 0, 1, 2, those of cases and those that count on from 2.
/// Contracts, comments and the lines that declare a `const` are not looked at.
pub fn bare_numbers(source: &Source) -> Vec<String> {
    let mut found = Vec::new();
    for function in functions(source) {
        let code = function.code.as_str();
        for (at, number) in numbers(code) {
            let above = code[..at].matches('\n').count();
            let line = code.lines().nth(above).unwrap_or_default().trim();
            let named = line.starts_with("const ") || is_of_a_case(line, number);
            let plain = PLAIN.contains(&digits(number).as_str());
            if !named && !plain && !counts_on(code, at, number) {
                let line = function.lines.start + above;
                let shown = source.text.lines().nth(line).unwrap_or_default().trim();
                found.push(format!("{}: {number} in `{shown}`", source.line(line)));
            }
        }
    }
    found
}
