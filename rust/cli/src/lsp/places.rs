//! Places in a text as the protocol has them: lines from 0, columns in units of
//! UTF-16. A place beyond a line is its end, one beyond the text has an empty line.

use explain::{script, Json};
use std::ops::Range;

/// A line of the text; empty if there is none.
pub fn line_of(text: &str, line: u32) -> &str {
    let bytes = script::line(text.as_bytes(), line.saturating_add(1)).unwrap_or_default();
    std::str::from_utf8(bytes).unwrap_or("")
}

/// The column of a byte of the line.
pub fn column(line: &str, byte: usize) -> usize {
    let before = |at: &usize| *at < byte;
    let letters = line.char_indices().filter(|(at, _)| before(at));
    letters.map(|(_, letter)| letter.len_utf16()).sum()
}

/// The byte at a column of the line.
pub fn byte(line: &str, column: usize) -> usize {
    let mut left = column;
    for (at, letter) in line.char_indices() {
        if left < letter.len_utf16() {
            return at;
        }
        left -= letter.len_utf16();
    }
    line.len()
}

pub fn position(line: u32, column: usize) -> Json {
    Json::object().with("line", line).with("character", column)
}

pub fn range(line: u32, from: usize, to: usize) -> Json {
    Json::object()
        .with("start", position(line, from))
        .with("end", position(line, to))
}

/// Some bytes of a line.
pub fn range_of(text: &str, line: u32, bytes: &Range<usize>) -> Json {
    let shown = line_of(text, line);
    range(line, column(shown, bytes.start), column(shown, bytes.end))
}

/// Whole lines, the last one with all that it has.
pub fn lines(text: &str, first: u32, last: u32) -> Json {
    let shown = line_of(text, last);
    Json::object()
        .with("start", position(first, 0))
        .with("end", position(last, column(shown, shown.len())))
}

/// A place in a document.
pub fn location(uri: &str, range: Json) -> Json {
    Json::object().with("uri", uri).with("range", range)
}

#[cfg(test)]
mod tests {
    use super::*;

    #[test]
    fn columns_are_units_of_utf16() {
        let line = "a\u{e9}\u{1f600}b";
        for (at, units) in [(0, 0), (1, 1), (3, 2), (7, 4), (8, 5)] {
            assert_eq!(column(line, at), units);
            assert_eq!(byte(line, units), at);
        }
        // Within a character, and beyond the line.
        assert_eq!(byte(line, 3), 3);
        assert_eq!(byte(line, usize::MAX), line.len());
        assert_eq!(line_of("a\nb", 1), "b");
        assert_eq!(line_of("a\nb", u32::MAX), "");
    }
}
