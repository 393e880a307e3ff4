//! JSON, written and read: one small module, since no library is at hand. The
//! reader takes what RFC 8259 allows, at most 64 levels deep.

use std::fmt;

/// Deeper values are refused.
const DEPTH: usize = 64;

/// A JSON value; its display is its text.
#[derive(Clone, Debug, PartialEq)]
pub enum Json {
    /// `null`.
    Null,
    /// `true` or `false`.
    Bool(bool),
    /// A whole number.
    Int(i64),
    /// A number with a fraction or an exponent.
    Float(f64),
    /// A string.
    Text(String),
    /// An array.
    List(Vec<Json>),
    /// An object, its fields in order.
    Object(Vec<(String, Json)>),
}

impl From<bool> for Json {
    fn from(value: bool) -> Json {
        Json::Bool(value)
    }
}

impl From<u32> for Json {
    fn from(value: u32) -> Json {
        Json::Int(value.into())
    }
}

impl From<i32> for Json {
    fn from(value: i32) -> Json {
        Json::Int(value.into())
    }
}

impl From<usize> for Json {
    fn from(value: usize) -> Json {
        Json::Int(i64::try_from(value).unwrap_or(i64::MAX))
    }
}

impl From<&str> for Json {
    fn from(value: &str) -> Json {
        Json::Text(value.to_string())
    }
}

impl From<String> for Json {
    fn from(value: String) -> Json {
        Json::Text(value)
    }
}

impl<T: Into<Json>> From<Vec<T>> for Json {
    fn from(values: Vec<T>) -> Json {
        Json::List(values.into_iter().map(Into::into).collect())
    }
}

impl<T: Into<Json>> From<Option<T>> for Json {
    fn from(value: Option<T>) -> Json {
        value.map_or(Json::Null, Into::into)
    }
}

impl Json {
    /// An object without fields.
    pub fn object() -> Json {
        Json::Object(Vec::new())
    }

    /// The object with a further field.
    pub fn with(mut self, name: &str, value: impl Into<Json>) -> Json {
        if let Json::Object(fields) = &mut self {
            fields.push((name.to_string(), value.into()));
        }
        self
    }

    /// The same, if there is a value.
    pub fn with_some(self, name: &str, value: Option<impl Into<Json>>) -> Json {
        match value {
            Some(value) => self.with(name, value),
            None => self,
        }
    }

    /// A field of an object.
    pub fn get(&self, name: &str) -> Option<&Json> {
        match self {
            Json::Object(fields) => {
                let mut found = fields.iter().filter(|field| field.0 == name);
                found.next().map(|field| &field.1)
            }
            _ => None,
        }
    }

    /// A field of a field, and so on.
    pub fn at(&self, names: &[&str]) -> Option<&Json> {
        names.iter().try_fold(self, |value, name| value.get(name))
    }

    /// A string.
    pub fn text(&self) -> Option<&str> {
        match self {
            Json::Text(text) => Some(text),
            _ => None,
        }
    }

    /// A whole number.
    pub fn int(&self) -> Option<i64> {
        match self {
            Json::Int(value) => Some(*value),
            _ => None,
        }
    }
}

fn quoted(f: &mut fmt::Formatter<'_>, text: &str) -> fmt::Result {
    f.write_str("\"")?;
    for letter in text.chars() {
        match letter {
            '"' => f.write_str("\\\"")?,
            '\\' => f.write_str("\\\\")?,
            letter if letter.is_control() => write!(f, "\\u{:04x}", u32::from(letter))?,
            letter => write!(f, "{letter}")?,
        }
    }
    f.write_str("\"")
}

impl fmt::Display for Json {
    fn fmt(&self, f: &mut fmt::Formatter<'_>) -> fmt::Result {
        match self {
            Json::Null => f.write_str("null"),
            Json::Bool(value) => write!(f, "{value}"),
            Json::Int(value) => write!(f, "{value}"),
            Json::Float(value) if value.is_finite() => write!(f, "{value:?}"),
            Json::Float(_) => f.write_str("null"),
            Json::Text(text) => quoted(f, text),
            Json::List(items) => {
                f.write_str("[")?;
                for (at, item) in items.iter().enumerate() {
                    let comma = if at > 0 { "," } else { "" };
                    write!(f, "{comma}{item}")?;
                }
                f.write_str("]")
            }
            Json::Object(fields) => {
                f.write_str("{")?;
                for (at, (name, value)) in fields.iter().enumerate() {
                    f.write_str(if at > 0 { "," } else { "" })?;
                    quoted(f, name)?;
                    write!(f, ":{value}")?;
                }
                f.write_str("}")
            }
        }
    }
}

/// Reads one JSON value with nothing but blanks around it.
pub fn parse(text: &str) -> Option<Json> {
    let mut reader = Reader { text, at: 0 };
    let value = reader.value(DEPTH)?;
    reader.blanks();
    (reader.at == text.len()).then_some(value)
}

struct Reader<'t> {
    text: &'t str,
    at: usize,
}

impl Reader<'_> {
    fn peek(&self) -> Option<u8> {
        self.text.as_bytes().get(self.at).copied()
    }

    fn blanks(&mut self) {
        while matches!(self.peek(), Some(b' ' | b'\t' | b'\n' | b'\r')) {
            self.at += 1;
        }
    }

    /// Takes the word if it comes next.
    fn take(&mut self, word: &str) -> Option<()> {
        self.blanks();
        let rest = self.text.get(self.at..)?;
        rest.starts_with(word).then(|| self.at += word.len())
    }

    fn value(&mut self, depth: usize) -> Option<Json> {
        self.blanks();
        let depth = depth.checked_sub(1)?;
        match self.peek()? {
            b'n' => self.take("null").map(|()| Json::Null),
            b't' => self.take("true").map(|()| Json::Bool(true)),
            b'f' => self.take("false").map(|()| Json::Bool(false)),
            b'"' => self.string().map(Json::Text),
            b'[' => self
                .items("[", "]", |reader| reader.value(depth))
                .map(Json::List),
            b'{' => {
                let field = |reader: &mut Self| {
                    reader.blanks();
                    let name = reader.string()?;
                    reader.take(":")?;
                    Some((name, reader.value(depth)?))
                };
                self.items("{", "}", field).map(Json::Object)
            }
            _ => self.number(),
        }
    }

    fn items<T>(
        &mut self,
        open: &str,
        close: &str,
        item: impl Fn(&mut Self) -> Option<T>,
    ) -> Option<Vec<T>> {
        self.take(open)?;
        let mut items = Vec::new();
        if self.take(close).is_some() {
            return Some(items);
        }
        loop {
            items.push(item(self)?);
            if self.take(close).is_some() {
                return Some(items);
            }
            self.take(",")?;
        }
    }

    fn number(&mut self) -> Option<Json> {
        let from = self.at;
        while matches!(
            self.peek(),
            Some(b'0'..=b'9' | b'-' | b'+' | b'.' | b'e' | b'E')
        ) {
            self.at += 1;
        }
        let word = self.text.get(from..self.at)?;
        let digits = word.strip_prefix('-').unwrap_or(word);
        let first = digits.as_bytes().first()?;
        let zeros = digits.len() > 1 && *first == b'0' && digits.as_bytes()[1].is_ascii_digit();
        if !first.is_ascii_digit() || zeros || !word.ends_with(|last: char| last.is_ascii_digit()) {
            return None;
        }
        match word.parse() {
            Ok(value) => Some(Json::Int(value)),
            Err(_) => word.parse().ok().map(Json::Float),
        }
    }

    fn string(&mut self) -> Option<String> {
        self.take("\"")?;
        let mut out = String::new();
        loop {
            let letter = self.text.get(self.at..)?.chars().next()?;
            self.at += letter.len_utf8();
            match letter {
                '"' => return Some(out),
                '\\' => out.push(self.escape()?),
                letter if u32::from(letter) < 32 => return None,
                letter => out.push(letter),
            }
        }
    }

    fn escape(&mut self) -> Option<char> {
        let letter = self.peek()?;
        self.at += 1;
        Some(match letter {
            b'"' => '"',
            b'\\' => '\\',
            b'/' => '/',
            b'b' => '\u{8}',
            b'f' => '\u{c}',
            b'n' => '\n',
            b'r' => '\r',
            b't' => '\t',
            b'u' => return self.unicode(),
            _ => return None,
        })
    }

    /// `\uXXXX`, or two of them for one character; a half alone is U+FFFD.
    fn unicode(&mut self) -> Option<char> {
        let first = self.hex()?;
        if !(0xd800..0xdc00).contains(&first) {
            return Some(char::from_u32(first).unwrap_or('\u{fffd}'));
        }
        let back = self.at;
        if self.text.get(back..back + 2) == Some("\\u") {
            self.at += 2;
            let second = self.hex()?;
            if (0xdc00..0xe000).contains(&second) {
                return char::from_u32(0x10000 + ((first - 0xd800) << 10) + (second - 0xdc00));
            }
            self.at = back;
        }
        Some('\u{fffd}')
    }

    fn hex(&mut self) -> Option<u32> {
        let word = self.text.get(self.at..self.at + 4)?;
        self.at += 4;
        let hex = word.bytes().all(|byte| byte.is_ascii_hexdigit());
        u32::from_str_radix(word, 16).ok().filter(|_| hex)
    }
}

#[cfg(test)]
mod tests {
    use super::*;

    #[test]
    fn written_is_read() {
        let value = Json::object()
            .with("a\"\\\n\u{1}é", vec![1u32, 2])
            .with("b", Json::Null)
            .with("c", Json::object().with("d", true).with("e", "\u{1f600}"))
            .with("f", Json::Float(1.5))
            .with("g", i32::MIN);
        assert_eq!(parse(&value.to_string()), Some(value.clone()));
        assert_eq!(value.at(&["c", "d"]), Some(&Json::Bool(true)));
    }

    #[test]
    fn other_writers() {
        let text = " { \"a\" : [ 1 , -2.5e3 , \"\\u00e9\\ud83d\\ude00\\/\\ud800x\" ] } ";
        let list = vec![
            Json::Int(1),
            Json::Float(-2500.0),
            Json::Text("é\u{1f600}/\u{fffd}x".to_string()),
        ];
        assert_eq!(parse(text), Some(Json::object().with("a", list)));
    }

    #[test]
    fn what_is_no_json() {
        let deep = "[".repeat(100_000);
        for text in [
            "",
            " ",
            "{",
            "[1,]",
            "{\"a\"}",
            "{\"a\":}",
            "01",
            "+1",
            "1.",
            "-",
            ".5",
            "nul",
            "\"",
            "\"\\x\"",
            "\"\\u12\"",
            "\"\\u+123\"",
            "\"\n\"",
            "1 2",
            "[1 2]",
            "{1:2}",
            "\"\\",
            "tru",
            &deep,
        ] {
            assert_eq!(parse(text), None, "{}", &text[..text.len().min(40)]);
        }
        let deep = format!("{}{}", "[".repeat(63), "]".repeat(63));
        assert!(parse(&deep).is_some());
    }

    /// Bytes without a plan never make the reader panic.
    #[test]
    fn hostile() {
        let parts = [
            "{", "}", "[", "]", ",", ":", "\"", "\\", "u", "d800", "1", "-", "é", " ", "e",
        ];
        let mut seed = 1u64;
        for _ in 0..50_000 {
            let mut text = String::new();
            for _ in 0..seed % 17 {
                seed = seed
                    .wrapping_mul(6_364_136_223_846_793_005)
                    .wrapping_add(1_442_695_040_888_963_407);
                text.push_str(parts[(seed >> 33) as usize % parts.len()]);
            }
            seed = seed.wrapping_add(0x9e37_79b9_7f4a_7c15);
            if let Some(value) = parse(&text) {
                assert_eq!(parse(&value.to_string()), Some(value), "{text}");
            }
        }
    }
}
