//! HTML, written: escaping, and the few elements that the page has many of.

/// Text for an element or an attribute.
pub fn escaped(text: &str) -> String {
    let mut out = String::with_capacity(text.len());
    for letter in text.chars() {
        match letter {
            '&' => out.push_str("&amp;"),
            '<' => out.push_str("&lt;"),
            '>' => out.push_str("&gt;"),
            '"' => out.push_str("&quot;"),
            '\'' => out.push_str("&#39;"),
            letter if hidden(letter) => out.extend(letter.escape_unicode()),
            letter => out.push(letter),
        }
    }
    out
}

/// Characters that are not seen, or that turn the direction of what follows.
fn hidden(letter: char) -> bool {
    letter.is_control()
        || matches!(letter, '\u{200b}'..='\u{200f}' | '\u{2028}'..='\u{202e}' | '\u{2060}'..='\u{2069}' | '\u{feff}')
}

/// A cell whose heading is shown beside it where the page is narrow.
pub fn cell(heading: &str, inner: &str) -> String {
    format!("<td data-head=\"{}\">{inner}</td>", escaped(heading))
}

/// A table of rows that are made already.
pub fn table(class: &str, headings: &[String], rows: &str) -> String {
    let head: String = headings
        .iter()
        .map(|heading| format!("<th scope=\"col\">{heading}</th>"))
        .collect();
    format!(
        "<table class=\"{class}\">\n<thead><tr>{head}</tr></thead>\n<tbody>\n{rows}</tbody>\n</table>\n"
    )
}

/// Base64 (RFC 4648), as the page's policy names the sum of its script.
pub fn base64(bytes: &[u8]) -> String {
    const LETTERS: &[u8; 64] = b"ABCDEFGHIJKLMNOPQRSTUVWXYZabcdefghijklmnopqrstuvwxyz0123456789+/";
    let mut out = String::new();
    for part in bytes.chunks(3) {
        let byte = |at| u32::from(part.get(at).copied().unwrap_or(0));
        let word = byte(0) << 16 | byte(1) << 8 | byte(2);
        for at in 0..4 {
            let letter = LETTERS[(word >> (18 - 6 * at)) as usize % 64];
            out.push(if at <= part.len() { letter.into() } else { '=' });
        }
    }
    out
}

#[cfg(test)]
mod tests {
    use super::{base64, escaped};

    /// The test vectors of the standard.
    #[test]
    fn base64_vectors() {
        for (text, code) in [
            ("", ""),
            ("f", "Zg=="),
            ("fo", "Zm8="),
            ("foo", "Zm9v"),
            ("foobar", "Zm9vYmFy"),
        ] {
            assert_eq!(base64(text.as_bytes()), code);
        }
    }

    #[test]
    fn nothing_gets_through() {
        let shown = escaped("<img src=x onerror='a' b=\"c\">&\u{202e}\n");
        assert_eq!(
            shown,
            "&lt;img src=x onerror=&#39;a&#39; b=&quot;c&quot;&gt;&amp;\\u{202e}\\u{a}"
        );
        assert_eq!(escaped("K\u{e5}rt"), "K\u{e5}rt");
    }
}
