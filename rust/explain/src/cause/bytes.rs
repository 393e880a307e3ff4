//! Numbers 2 and 3: too many bytes, and bytes that are not allowed in a text.

use super::Cause;
use crate::script::line;
use model::text::allowed_byte;

pub fn too_long(text: &[u8]) -> Cause {
    let most = nuyardi::limits::TEXT_BYTES;
    let size = match text.len() > most + 1 {
        true => text.len().to_string(),
        false => format!("more than {most}"),
    };
    Cause::new(format!(
        "the text has {size} bytes, and {most} are the most"
    ))
}

/// The character that begins at a byte, if the bytes are UTF-8 there.
fn character(bytes: &[u8]) -> Option<char> {
    let most = bytes.len().min(4);
    let sizes = 1..=most;
    sizes
        .filter_map(|size| std::str::from_utf8(&bytes[..size]).ok())
        .find_map(|text| text.chars().next())
}

/// Letters from here on are shown by their number alone: some turn the direction
/// of what a terminal shows.
const LATIN: char = '\u{250}';

/// What a character is, and what to write for it.
fn described(letter: char) -> (String, &'static str) {
    let known = match letter {
        ' ' => ("a blank; fields are separated by one tab", FORMAT),
        '\r' => ("a CR; lines end in LF alone", FORMAT),
        '\u{feff}' => ("a byte order mark (U+FEFF)", FORMAT),
        '\u{a0}' | '\u{202f}' | '\u{2007}' => ("a no-break blank", FORMAT),
        '\u{2212}' => (
            "the sign U+2212, which looks like a minus; `-` is the sign of a number",
            FORMAT,
        ),
        '\u{2010}'..='\u{2015}' => ("a dash; the sign of a number is `-`", "write `-`"),
        '\u{2018}'..='\u{201f}' | '\u{ab}' | '\u{bb}' => (
            "a quotation mark; a script has numbers and links, no texts",
            "leave it out",
        ),
        letter if letter.is_alphabetic() && letter < LATIN => {
            let text = format!("the letter `{letter}`; names have the letters a to z and A to Z");
            return (text, "write it with ASCII letters");
        }
        letter => {
            let text = format!("the character U+{:04X}", u32::from(letter));
            return (text, "leave it out");
        }
    };
    (known.0.to_string(), known.1)
}

const FORMAT: &str = "`station fmt --write FILE` fixes it";

pub fn bad_byte(text: &[u8], number: u32) -> Option<Cause> {
    let line = line(text, number)?;
    let Some(at) = line.iter().position(|byte| !allowed_byte(byte)) else {
        return Some(
            Cause::new("the last line is not ended by LF")
                .mark(Some(line.len()..line.len()))
                .help(FORMAT),
        );
    };
    let Some(letter) = character(&line[at..]) else {
        let text = format!("byte {} of the line has the value {}", at + 1, line[at]);
        let mark = Some(at..at + 1);
        return Some(Cause::new(text).mark(mark).help("leave it out"));
    };
    let (what, help) = described(letter);
    let cause = Cause::new(format!("byte {} of the line is {what}", at + 1));
    let to = at + letter.len_utf8();
    Some(cause.mark(Some(at..to)).help(help))
}
