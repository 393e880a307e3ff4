//! What a report says, in pieces: one wording for the text and the page. On the
//! page a line is a link to it.

use super::html::escaped;

/// A part of a sentence.
#[derive(Clone, Debug, PartialEq, Eq)]
pub enum Piece {
    Text(String),
    /// Words of the script.
    Code(String),
    /// A line of the script, from 1.
    Line(u32),
}

/// A sentence, or what stands in a cell.
pub type Said = Vec<Piece>;

pub fn text(text: impl Into<String>) -> Piece {
    Piece::Text(text.into())
}

pub fn code(words: impl Into<String>) -> Piece {
    Piece::Code(words.into())
}

/// A sentence whose parts in backquotes are words of the script.
pub fn sentence(words: &str) -> Said {
    let parts = words.split('`').enumerate();
    let pieces = parts.map(|(at, part)| match at % 2 {
        0 => text(part),
        _ => code(part),
    });
    pieces.filter(|piece| *piece != text("")).collect()
}

/// Items with a comma between them; one word where there is none.
pub fn joined(items: impl IntoIterator<Item = Said>, none: &str) -> Said {
    let mut all = Said::new();
    for item in items {
        if !all.is_empty() {
            all.push(text(", "));
        }
        all.extend(item);
    }
    if all.is_empty() {
        all.push(text(none));
    }
    all
}

/// `line 5`, or `lines 5, 7`.
pub fn lines(lines: &[u32]) -> Said {
    let word = if lines.len() == 1 { "line " } else { "lines " };
    let each = lines.iter().map(|&line| vec![Piece::Line(line)]);
    let mut said = vec![text(word)];
    said.extend(joined(each, "none"));
    said
}

/// As plain text.
pub fn plain(said: &[Piece]) -> String {
    let pieces = said.iter().map(|piece| match piece {
        Piece::Text(text) => text.clone(),
        Piece::Code(words) => format!("`{words}`"),
        Piece::Line(line) => line.to_string(),
    });
    pieces.collect()
}

/// The id of a line of the source; the prefix tells scripts of one page apart.
pub fn line_id(prefix: &str, line: u32) -> String {
    format!("{prefix}L{line}")
}

/// As HTML.
pub fn html(said: &[Piece], prefix: &str) -> String {
    let pieces = said.iter().map(|piece| match piece {
        Piece::Text(text) => escaped(text),
        Piece::Code(words) => format!("<code>{}</code>", escaped(words)),
        Piece::Line(line) => format!("<a href=\"#{}\">{line}</a>", line_id(prefix, *line)),
    });
    pieces.collect()
}

#[cfg(test)]
mod tests {
    use super::*;

    #[test]
    fn one_wording() {
        let mut said = sentence("`set` writes, ");
        said.extend(lines(&[3, 4]));
        assert_eq!(plain(&said), "`set` writes, lines 3, 4");
        let shown = "<code>set</code> writes, lines <a href=\"#aL3\">3</a>, <a href=\"#aL4\">4</a>";
        assert_eq!(html(&said, "a"), shown);
        assert_eq!(plain(&joined([], "nothing")), "nothing");
        assert_eq!(html(&[code("<b>")], ""), "<code>&lt;b&gt;</code>");
    }
}
