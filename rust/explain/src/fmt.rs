//! Formatting: a text as people type it, made one that can be read. A text that
//! has its form is not changed.

/// Characters that stand for a blank: no-break blanks among them.
const BLANKS: [&[u8]; 4] = [
    "\u{a0}".as_bytes(),
    "\u{202f}".as_bytes(),
    "\u{2007}".as_bytes(),
    "\u{2009}".as_bytes(),
];

/// U+2212, which looks like a minus.
const MINUS: &[u8] = "\u{2212}".as_bytes();

/// The byte order mark.
const MARK: &[u8] = "\u{feff}".as_bytes();

/// The line with the characters above made blanks and `-`.
fn plain(line: &[u8]) -> Vec<u8> {
    let mut out = Vec::with_capacity(line.len());
    let mut rest = line;
    while let Some((&first, tail)) = rest.split_first() {
        let known = BLANKS.iter().map(|blank| (*blank, b' '));
        let mut known = known.chain([(MINUS, b'-')]);
        match known.find(|(bytes, _)| rest.starts_with(bytes)) {
            Some((bytes, put)) => {
                out.push(put);
                rest = &rest[bytes.len()..];
            }
            None => {
                out.push(first);
                rest = tail;
            }
        }
    }
    out
}

fn blank(byte: &u8) -> bool {
    matches!(byte, b' ' | b'\t' | b'\r')
}

/// A line in its form, with its LF; nothing for an empty one.
fn formatted_line(line: &[u8]) -> Vec<u8> {
    let line = plain(line.strip_suffix(b"\n").unwrap_or(line));
    let fields = line.split(blank).filter(|field| !field.is_empty());
    let mut out = fields.collect::<Vec<_>>().join(&b'\t');
    if !out.is_empty() {
        out.push(b'\n');
    }
    out
}

/// Each line with its form; a byte order mark goes with the first.
fn lines(text: &[u8]) -> impl Iterator<Item = (&[u8], Vec<u8>)> {
    let mut plain = text;
    while let Some(rest) = plain.strip_prefix(MARK) {
        plain = rest;
    }
    let marks = text.len() - plain.len();
    let mut at = 0;
    let typed = plain.split_inclusive(|&byte| byte == b'\n');
    typed.map(move |line| {
        let from = if at == 0 { 0 } else { marks + at };
        at += line.len();
        (&text[from..marks + at], formatted_line(line))
    })
}

/// Runs of blanks between fields become one tab; leading and trailing blanks
/// and CR go; U+2212 becomes `-`; a byte order mark goes; empty lines go, which
/// no script has; the last line is ended.
pub fn formatted(text: &[u8]) -> Vec<u8> {
    lines(text).flat_map(|(_, better)| better).collect()
}

/// What the form changes in a text.
#[derive(Clone, Copy, Debug, PartialEq, Eq)]
pub struct Changes {
    /// Lines that are put right.
    pub lines: usize,
    /// Empty lines that go.
    pub dropped: usize,
}

/// Counts what [`formatted`] changes.
pub fn changes(text: &[u8]) -> Changes {
    let changed = |(typed, better): &(&[u8], Vec<u8>)| !better.is_empty() && typed != better;
    Changes {
        lines: lines(text).filter(changed).count(),
        dropped: lines(text).filter(|(_, better)| better.is_empty()).count(),
    }
}

#[cfg(test)]
mod tests {
    use super::{changes, formatted, Changes};

    #[test]
    fn blanks_become_one_tab() {
        for (typed, fixed) in [
            (&b"let  a \t 7\n"[..], &b"let\ta\t7\n"[..]),
            (b"  let a 7\t\r\nend", b"let\ta\t7\nend\n"),
            (b"", b""),
            (b"\n \r\n", b""),
            (b"\r", b""),
            (b"\n\nmain\n\t\nend\n\n", b"main\nend\n"),
            (b"a\0b\xff c\n", b"a\0b\xff\tc\n"),
            (
                "\u{feff}let\u{a0}a \u{2212}5\r\n".as_bytes(),
                b"let\ta\t-5\n",
            ),
            (
                "class K\u{e5}rt\n".as_bytes(),
                "class\tK\u{e5}rt\n".as_bytes(),
            ),
        ] {
            assert_eq!(formatted(typed), fixed, "{typed:?}");
        }
    }

    #[test]
    fn what_is_changed() {
        for (typed, lines, dropped) in [
            (&b"main\nend\n"[..], 0, 0),
            (b"main\n\nend", 1, 1),
            ("\u{feff}main\n end\n".as_bytes(), 2, 0),
            ("\u{feff}\nmain\nend\n".as_bytes(), 0, 1),
            (b"\n \n", 0, 2),
            (b"", 0, 0),
        ] {
            assert_eq!(changes(typed), Changes { lines, dropped }, "{typed:?}");
        }
    }

    /// A formatted text stays, has each line that was not empty, and one that the
    /// reader takes is never changed.
    #[test]
    fn what_has_its_form_stays() {
        for seed in 0..2_000u64 {
            let text: Vec<u8> = (0..seed % 97)
                .map(|at| {
                    b" \t\r\nab\x80\xe2\x88\x92\xc2\xa0"
                        [(seed.wrapping_mul(0x9e37_79b9) >> (at % 23)) as usize % 12]
                })
                .collect();
            let once = formatted(&text);
            assert_eq!(formatted(&once), once, "{text:?}");
            assert!(once.is_empty() || once.ends_with(b"\n"));
            let lines = |text: &[u8]| text.split_inclusive(|&byte| byte == b'\n').count();
            let Changes {
                lines: changed,
                dropped,
            } = changes(&text);
            assert_eq!(lines(&once) + dropped, lines(&text));
            assert_eq!(changed + dropped == 0, once == text);
        }
        let mut read = 0;
        for seed in 0..3_000 {
            let text = generator::text(seed);
            if model::read(&text).is_ok() {
                read += 1;
                assert_eq!(formatted(&text), text);
            }
        }
        assert!(read > 1_000);
    }
}
