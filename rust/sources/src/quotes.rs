//! What the comments of a source quote.

use crate::{Declaration, Source};

/// Words between quotation marks in a comment.
pub struct Quote {
    pub text: String,
    /// The line on which its comment begins, from 0.
    pub line: usize,
    /// The declaration that the comment belongs to, by its number.
    pub owner: Option<usize>,
}

/// A comment: lines that follow each other.
struct Comment {
    text: String,
    first: usize,
    end: usize,
}

/// The comment of a line and whether code stands before it.
fn comment<'a>(line: &'a str, mark: &str) -> Option<(&'a str, bool)> {
    let at = line.find(mark)?;
    let before = &line[..at];
    let whole = before.trim().is_empty();
    (whole || before.ends_with(' ')).then(|| (line[at + mark.len()..].trim(), !whole))
}

fn comments(source: &Source) -> Vec<Comment> {
    let mark = if source.is_code() { "//" } else { "--" };
    let mut found: Vec<Comment> = Vec::new();
    let mut open = false;
    for (number, line) in source.text.lines().enumerate() {
        let Some((text, beside)) = comment(line, mark) else {
            open = false;
            continue;
        };
        match found.last_mut().filter(|_| open && !beside) {
            Some(last) => {
                last.text.push(' ');
                last.text.push_str(text);
                last.end = number + 1;
            }
            None => found.push(Comment {
                text: text.to_string(),
                first: number,
                end: number + 1,
            }),
        }
        open = !beside;
    }
    found
}

/// The declaration that begins at the next line that is not blank; else the innermost one that the line stands in.
fn owner(source: &Source, declared: &[Declaration], comment: &Comment) -> Option<usize> {
    let mut lines = source.text.lines().enumerate().skip(comment.end);
    // What a function or a type is marked with stands between its comment and itself.
    let marks = |line: &str| line.trim().is_empty() || line.trim_start().starts_with("#[");
    let next = lines.find(|(_, line)| !marks(line));
    let begins = next.and_then(|(number, _)| declared.iter().position(|one| one.first == number));
    begins.or_else(|| {
        let number = comment.first;
        declared
            .iter()
            .rposition(|one| one.first <= number && number < one.end)
    })
}

/// The quotes of a source; a comment with an odd number of marks is an error, with its line.
pub fn quotes(source: &Source, declared: &[Declaration]) -> Result<Vec<Quote>, String> {
    let mut found = Vec::new();
    for comment in comments(source) {
        let parts: Vec<&str> = comment.text.split('"').collect();
        if parts.len().is_multiple_of(2) {
            let place = source.line(comment.first);
            return Err(format!("{place}: a quote without its end"));
        }
        for text in parts.iter().skip(1).step_by(2) {
            found.push(Quote {
                text: text.to_string(),
                line: comment.first,
                owner: owner(source, declared, &comment),
            });
        }
    }
    Ok(found)
}
