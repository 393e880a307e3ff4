//! The frames of the language server protocol: `Content-Length: N`, a blank
//! line, N bytes. One small module, since no library is at hand. A wrong header
//! is told, and the next `Content-Length: N` that ends a line is taken again.

use std::io::{BufRead, Read, Write};

/// Of a longer header line only so many last bytes are looked at.
const HEADER_BYTES: usize = 4_096;
/// A longer body is not read.
const BODY_BYTES: usize = 16 << 20;
/// A header has no more lines.
const HEADERS: usize = 32;

/// What comes next from the client.
#[derive(Debug, PartialEq, Eq)]
pub enum Frame {
    Body(Vec<u8>),
    /// What is wrong with a header; the next frame can be asked for.
    Wrong(&'static str),
    End,
}

/// A line of a header.
enum Header {
    Blank,
    Length(usize),
    /// A charset that the protocol does not have.
    Charset,
    Other,
    Wrong(&'static str),
}

const NO_HEADER: &str = "a header line is NAME: VALUE";
const NO_LENGTH: &str = "a header needs Content-Length, a number of bytes";
const TOO_LONG: &str = "a message has at most 16777216 bytes";
const TOO_MANY: &str = "a header has at most 32 lines";
const CHARSET: &str = "the charset of a message is utf-8";

/// The frames of an input.
pub struct Frames<R> {
    input: R,
    /// A wrong header was told: everything is passed over up to the next length.
    lost: bool,
    /// The length that ended a wrong header line, from which reading goes on.
    found: Option<usize>,
}

/// The number after the last `Content-Length:` of a line, if nothing follows it.
fn length_at_end(line: &[u8]) -> Option<usize> {
    const NAME: &[u8] = b"content-length:";
    let mut places = line.windows(NAME.len()).enumerate().rev();
    let (at, _) = places.find(|(_, part)| part.eq_ignore_ascii_case(NAME))?;
    let digits = line[at + NAME.len()..].trim_ascii();
    let plain = digits.iter().all(u8::is_ascii_digit);
    let value = std::str::from_utf8(digits).ok().filter(|_| plain)?;
    value.parse().ok().filter(|&length| length <= BODY_BYTES)
}

fn header(line: &[u8]) -> Header {
    if line.is_empty() {
        return Header::Blank;
    }
    let Some(colon) = line.iter().position(|&byte| byte == b':') else {
        return Header::Wrong(NO_HEADER);
    };
    let (name, value) = (&line[..colon], line[colon + 1..].trim_ascii());
    let token = |byte: &u8| byte.is_ascii_alphanumeric() || *byte == b'-';
    if name.is_empty() || !name.iter().all(token) {
        return Header::Wrong(NO_HEADER);
    }
    if name.eq_ignore_ascii_case(b"content-length") {
        let digits = !value.is_empty() && value.iter().all(u8::is_ascii_digit);
        return match length_at_end(line) {
            Some(length) => Header::Length(length),
            None if digits => Header::Wrong(TOO_LONG),
            None => Header::Wrong(NO_LENGTH),
        };
    }
    let value = value.to_ascii_lowercase();
    let charset = value.split(|&byte| byte == b';').map(<[u8]>::trim_ascii);
    let mut charset = charset.filter_map(|part| part.strip_prefix(b"charset="));
    let known = |charset: &[u8]| matches!(charset, b"utf-8" | b"utf8" | b"\"utf-8\"");
    match name.eq_ignore_ascii_case(b"content-type") && !charset.all(known) {
        true => Header::Charset,
        false => Header::Other,
    }
}

impl<R: BufRead> Frames<R> {
    pub fn new(input: R) -> Frames<R> {
        Frames {
            input,
            lost: false,
            found: None,
        }
    }

    /// The last bytes of the next line, without its end; none where the input ends
    /// before it.
    fn line(&mut self) -> Option<Vec<u8>> {
        let mut line = Vec::new();
        loop {
            let start = line.len();
            let mut part = (&mut self.input).take(HEADER_BYTES as u64);
            part.read_until(b'\n', &mut line).ok()?;
            if line.len() == start {
                return None;
            }
            if line.last() == Some(&b'\n') {
                line.pop();
                break;
            }
            let over = line.len().saturating_sub(HEADER_BYTES);
            line.drain(..over);
        }
        if line.last() == Some(&b'\r') {
            line.pop();
        }
        let over = line.len().saturating_sub(HEADER_BYTES);
        line.drain(..over);
        Some(line)
    }

    /// Passes over everything up to a line that ends with a length.
    fn found_again(&mut self) -> Option<usize> {
        loop {
            let line = self.line()?;
            if let Some(length) = length_at_end(&line) {
                self.lost = false;
                return Some(length);
            }
        }
    }

    fn wrong(&mut self, why: &'static str) -> Frame {
        self.lost = self.found.is_none();
        Frame::Wrong(why)
    }

    fn body(&mut self, length: usize) -> Option<Vec<u8>> {
        let mut body = Vec::new();
        let mut part = (&mut self.input).take(length as u64);
        part.read_to_end(&mut body).ok()?;
        (body.len() == length).then_some(body)
    }

    /// The next frame.
    pub fn read(&mut self) -> Frame {
        let mut length = self.found.take();
        if self.lost {
            length = self.found_again();
            if length.is_none() {
                return Frame::End;
            }
        }
        let mut charset = true;
        for _ in 0..HEADERS {
            let Some(line) = self.line() else {
                return Frame::End;
            };
            match header(&line) {
                Header::Blank => {
                    let Some(length) = length else {
                        return self.wrong(NO_LENGTH);
                    };
                    return match self.body(length) {
                        None => Frame::End,
                        Some(body) if charset => Frame::Body(body),
                        Some(_) => Frame::Wrong(CHARSET),
                    };
                }
                Header::Length(found) => length = Some(found),
                Header::Charset => charset = false,
                Header::Other => {}
                Header::Wrong(why) => {
                    self.found = length_at_end(&line);
                    return self.wrong(why);
                }
            }
        }
        self.wrong(TOO_MANY)
    }
}

/// Writes one message.
pub fn write(output: &mut impl Write, body: &str) -> std::io::Result<()> {
    write!(output, "Content-Length: {}\r\n\r\n{body}", body.len())?;
    output.flush()
}

#[cfg(test)]
#[path = "framing/tests.rs"]
mod tests;
