//! Changes of whole lines, applied to a text, and the changes between two texts.

use crate::json::Json;

/// A change; line numbers are those of the text before it.
#[derive(Clone, Debug, PartialEq, Eq)]
pub enum Edit {
    /// A new line before this one.
    Insert(u32, String),
    /// Another line in the place of this one.
    Replace(u32, String),
    /// The line goes.
    Delete(u32),
    /// Another text in the place of the whole.
    Whole(Vec<u8>),
}

/// The lines of a text, each with its LF.
fn pieces(text: &[u8]) -> Vec<&[u8]> {
    text.split_inclusive(|&byte| byte == b'\n').collect()
}

/// The text with the changes made.
pub fn applied(text: &[u8], edits: &[Edit]) -> Vec<u8> {
    if let [Edit::Whole(whole)] = edits {
        return whole.clone();
    }
    let mut out = Vec::with_capacity(text.len() + 64);
    let lines = pieces(text);
    for at in 0..=lines.len() {
        let number = at as u32 + 1;
        let mut kept = lines.get(at).copied();
        for edit in edits {
            match edit {
                Edit::Insert(before, line) if *before == number => {
                    out.extend_from_slice(line.as_bytes());
                    out.push(b'\n');
                }
                Edit::Delete(line) if *line == number => kept = None,
                _ => {}
            }
        }
        for edit in edits {
            if let Edit::Replace(line, with) = edit {
                if *line == number && kept.is_some() {
                    kept = None;
                    out.extend_from_slice(with.as_bytes());
                    out.push(b'\n');
                }
            }
        }
        out.extend_from_slice(kept.unwrap_or_default());
    }
    out
}

/// A changed range: lines and columns from 1, columns in bytes, the end the place
/// after the last; and what stands there instead.
#[derive(Clone, Debug, PartialEq, Eq)]
pub struct Change {
    /// The first line and column.
    pub from: (u32, u32),
    /// The line and column after the last.
    pub to: (u32, u32),
    /// The new text.
    pub text: String,
}

impl Change {
    /// The change as JSON.
    pub fn json(&self) -> Json {
        Json::object()
            .with("line", self.from.0)
            .with("column", self.from.1)
            .with("endline", self.to.0)
            .with("end", self.to.1)
            .with("text", self.text.as_str())
    }
}

/// Texts with more lines than this product are compared by their ends alone.
const COMPARED: usize = 4_000_000;

/// For each line of `new` the line of `old` that it is, by a longest common
/// subsequence.
fn matched(old: &[&[u8]], new: &[&[u8]]) -> Vec<(usize, usize)> {
    if old.len().saturating_mul(new.len()) > COMPARED {
        return Vec::new();
    }
    let width = new.len() + 1;
    let mut best = vec![0u32; (old.len() + 1) * width];
    for i in (0..old.len()).rev() {
        for j in (0..new.len()).rev() {
            best[i * width + j] = match old[i] == new[j] {
                true => 1 + best[(i + 1) * width + j + 1],
                false => best[(i + 1) * width + j].max(best[i * width + j + 1]),
            };
        }
    }
    let (mut i, mut j) = (0, 0);
    let mut pairs = Vec::new();
    while i < old.len() && j < new.len() {
        if old[i] == new[j] {
            pairs.push((i, j));
            (i, j) = (i + 1, j + 1);
        } else if best[(i + 1) * width + j] >= best[i * width + j + 1] {
            i += 1;
        } else {
            j += 1;
        }
    }
    pairs
}

/// The changes that lead from one text to the other, in order, none touching the
/// next.
pub fn changes(old: &[u8], new: &[u8]) -> Vec<Change> {
    let (old, new) = (pieces(old), pieces(new));
    let same = old.iter().zip(&new).take_while(|(a, b)| a == b).count();
    let (rest, fresh) = (&old[same..], &new[same..]);
    let ends = rest.iter().rev().zip(fresh.iter().rev());
    let tail = ends.take_while(|(a, b)| a == b).count();
    let (rest, fresh) = (&rest[..rest.len() - tail], &fresh[..fresh.len() - tail]);
    let mut pairs = matched(rest, fresh);
    pairs.push((rest.len(), fresh.len()));
    let (mut i, mut j) = (0, 0);
    let mut found = Vec::new();
    for (a, b) in pairs {
        if i < a || j < b {
            let line = |at: usize| (same + at) as u32 + 1;
            let text: Vec<u8> = fresh[j..b].concat();
            found.push(Change {
                from: (line(i), 1),
                to: end_of(&rest[i..a], line(i), line(a)),
                text: String::from_utf8_lossy(&text).into_owned(),
            });
        }
        (i, j) = (a + 1, b + 1);
    }
    found
}

/// The place after some lines: the start of the next, or the end of a last line
/// that has no LF.
fn end_of(lines: &[&[u8]], first: u32, next: u32) -> (u32, u32) {
    match lines.last() {
        Some(last) if !last.ends_with(b"\n") => (next - 1, last.len() as u32 + 1),
        Some(_) => (next, 1),
        None => (first, 1),
    }
}

#[cfg(test)]
mod tests {
    use super::*;

    /// The text with the ranges replaced, from the last to the first.
    fn redone(text: &[u8], changes: &[Change]) -> Vec<u8> {
        let starts: Vec<usize> = pieces(text)
            .iter()
            .scan(0, |at, line| {
                let start = *at;
                *at += line.len();
                Some(start)
            })
            .collect();
        let place = |(line, column): (u32, u32)| {
            let start = starts.get(line as usize - 1).copied();
            start.unwrap_or(text.len()) + column as usize - 1
        };
        let mut out = text.to_vec();
        for change in changes.iter().rev() {
            out.splice(place(change.from)..place(change.to), change.text.bytes());
        }
        out
    }

    #[test]
    fn changes_lead_from_one_text_to_the_other() {
        let texts: [&[u8]; 8] = [
            b"",
            b"a\n",
            b"a\nb\nc\n",
            b"a\nx\nc\n",
            b"b\nc\nd\n",
            b"a\nb\nc",
            b"c\nb\na\n",
            b"\n\n",
        ];
        for old in texts {
            for new in texts {
                assert_eq!(redone(old, &changes(old, new)), new, "{old:?} {new:?}");
            }
        }
    }

    #[test]
    fn edits() {
        let edits = [
            Edit::Insert(1, "x".into()),
            Edit::Replace(2, "B".into()),
            Edit::Delete(3),
            Edit::Insert(4, "end".into()),
        ];
        assert_eq!(applied(b"a\nb\nc\n", &edits), b"x\na\nB\nend\n");
    }
}
