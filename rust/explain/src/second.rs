//! The other lines that a message names: each is shown below it with its own source
//! line. Messages name a line as `line 14`; what they quote of the text stands between
//! signs `, and is passed over.

use crate::script::{line, quoted};
use crate::show::{shown, Paint};
use std::fmt::Write;

/// The lines that a message names, in order, each once.
pub fn named(said: &str) -> Vec<u32> {
    let mut lines = Vec::new();
    for part in said.split('`').step_by(2) {
        let words: Vec<&str> = part.split_whitespace().collect();
        for pair in words.windows(2) {
            if pair[0].trim_start_matches('(') != "line" {
                continue;
            }
            let digits: String = pair[1].chars().take_while(char::is_ascii_digit).collect();
            let number = digits.parse().ok();
            lines.extend(number.filter(|number| !lines.contains(number)));
        }
    }
    lines
}

/// The message without its quotes of lines that it names: they are shown below it.
pub fn without_quotes(said: &str, text: &[u8]) -> String {
    let mut said = said.to_string();
    for number in named(&said) {
        let start = format!("line {number}");
        let quote = format!(": `{}`", quoted(text, number));
        let Some(at) = said.find(&start).map(|at| at + start.len()) else {
            continue;
        };
        let step = said[at..].starts_with(" (step ");
        let end = said[at..].find(')').filter(|_| step);
        let at = at + end.map_or(0, |end| end + 1);
        if said[at..].starts_with(&quote) {
            said.replace_range(at..at + quote.len(), "");
        }
    }
    said
}

/// At most that many bytes of a long line are shown.
const SHOWN_BYTES: usize = 100;

/// Lines of the text with their numbers, each with a rule below it.
pub fn lines(out: &mut String, paint: Paint, text: &[u8], numbers: &[u32], width: usize) {
    for &number in numbers {
        let Some(bytes) = line(text, number) else {
            continue;
        };
        let start: String = bytes
            .iter()
            .take(SHOWN_BYTES)
            .map(|&byte| shown(byte))
            .collect();
        let more = if bytes.len() > SHOWN_BYTES { "..." } else { "" };
        let (bar, side) = (paint.side("|"), paint.side(&format!("{number:>width$}")));
        let rule = paint.side(&"-".repeat(start.len().max(1)));
        let _ = writeln!(out, "{side} {bar} {start}{more}");
        let _ = writeln!(out, "{:width$} {bar} {rule}", "");
    }
}

#[cfg(test)]
mod tests {
    use super::*;

    #[test]
    fn lines_that_are_named() {
        for (said, lines) in [
            (
                "held up to line 14: `call r c lose k`, and (line 6) does",
                vec![14, 6],
            ),
            ("line 3, then line 3 again, and line 12.", vec![3, 12]),
            ("lines 11 to 12, `let line 5` and a line", vec![]),
            ("`x` at line 4 (step 1): `let n 1`", vec![4]),
            ("line", vec![]),
            ("line 99999999999999", vec![]),
        ] {
            assert_eq!(named(said), lines, "{said}");
        }
    }

    #[test]
    fn quotes_that_go() {
        let text = b"main\nlet\tn\t1\n";
        for (said, less) in [
            (
                "held up to line 2: `let n 1`, which",
                "held up to line 2, which",
            ),
            (
                "`n` at line 2 (step 1): `let n 1`",
                "`n` at line 2 (step 1)",
            ),
            ("line 2: `let n 2`", "line 2: `let n 2`"),
            ("no line at all", "no line at all"),
        ] {
            assert_eq!(without_quotes(said, text), less);
        }
    }
}
