//! A small, strict reader of the pages that `station report` writes: every
//! element is closed, every attribute quoted, every sign escaped.

/// An element with what is in it; a text has no name.
#[derive(Debug, Default)]
pub struct Element {
    pub name: String,
    attributes: Vec<(String, String)>,
    pub children: Vec<Element>,
    own: String,
}

/// Elements without an end.
const VOID: [&str; 2] = ["meta", "input"];
/// Elements whose text is taken as it stands.
const RAW: [&str; 2] = ["style", "script"];

fn unescaped(text: &str) -> String {
    let mut out = String::new();
    let mut rest = text;
    while let Some(at) = rest.find('&') {
        out.push_str(&rest[..at]);
        let (sign, after) = rest[at..].split_once(';').expect("a sign's end");
        out.push(match sign {
            "&amp" => '&',
            "&lt" => '<',
            "&gt" => '>',
            "&quot" => '"',
            "&#39" => '\'',
            other => panic!("{other}"),
        });
        rest = after;
    }
    out + rest
}

struct Reader<'p> {
    rest: &'p str,
}

impl<'p> Reader<'p> {
    fn until(&mut self, end: &str) -> &'p str {
        let found = self.rest.split_once(end);
        let (before, after) = found.unwrap_or_else(|| panic!("no {end}"));
        self.rest = after;
        before
    }

    /// The attributes up to `>`; does the element end there?
    fn attributes(&mut self, element: &mut Element) -> bool {
        loop {
            self.rest = self.rest.trim_start();
            if let Some(rest) = self.rest.strip_prefix("/>") {
                self.rest = rest;
                return true;
            }
            if let Some(rest) = self.rest.strip_prefix('>') {
                self.rest = rest;
                return VOID.contains(&element.name.as_str());
            }
            if let Some(rest) = self.rest.strip_prefix("hidden>") {
                self.rest = rest;
                return false;
            }
            let name = self.until("=\"").to_string();
            assert!(
                name.bytes()
                    .all(|byte| byte.is_ascii_alphabetic() || byte == b'-' || byte == b':'),
                "{name}"
            );
            let value = unescaped(self.until("\""));
            element.attributes.push((name, value));
        }
    }

    /// What stands before `</name>`.
    fn inside(&mut self, element: &mut Element) {
        let end = format!("</{}>", element.name);
        if RAW.contains(&element.name.as_str()) {
            element.own = self.until(&end).to_string();
            return;
        }
        loop {
            let text = self.rest.split('<').next().unwrap_or("");
            self.rest = &self.rest[text.len()..];
            assert!(!text.contains('>'), "{text}");
            element.children.push(Element {
                own: unescaped(text),
                ..Element::default()
            });
            if let Some(rest) = self.rest.strip_prefix(end.as_str()) {
                self.rest = rest;
                return;
            }
            element.children.push(self.element());
        }
    }

    fn element(&mut self) -> Element {
        self.rest = self.rest.strip_prefix('<').expect("an element");
        let letters = |letter: char| !letter.is_ascii_alphanumeric();
        let name = self.rest.split(letters).next().unwrap_or("");
        assert!(!name.is_empty(), "{:.40}", self.rest);
        self.rest = &self.rest[name.len()..];
        let mut element = Element {
            name: name.to_string(),
            ..Element::default()
        };
        if !self.attributes(&mut element) {
            self.inside(&mut element);
        }
        element
    }
}

/// Reads a page.
pub fn read(page: &str) -> Element {
    let rest = page.strip_prefix("<!DOCTYPE html>\n").expect("a page");
    let mut reader = Reader { rest };
    let root = reader.element();
    assert_eq!(reader.rest, "\n", "after the page");
    root
}

impl Element {
    pub fn attribute(&self, name: &str) -> Option<&str> {
        let found = self.attributes.iter().find(|(known, _)| known == name);
        found.map(|(_, value)| value.as_str())
    }

    pub fn number(&self, name: &str) -> i64 {
        let value = self.attribute(name).unwrap_or_else(|| panic!("no {name}"));
        value.parse().unwrap_or_else(|_| panic!("{name}: {value}"))
    }

    /// All text in it.
    pub fn text(&self) -> String {
        let inner = self.children.iter().map(Element::text);
        self.own.clone() + &inner.collect::<String>()
    }

    /// The element itself and all in it that have a name.
    pub fn all(&self) -> Vec<&Element> {
        let mut all: Vec<&Element> = Vec::new();
        let mut next = vec![self];
        while let Some(element) = next.pop() {
            if !element.name.is_empty() {
                all.push(element);
            }
            next.extend(element.children.iter().rev());
        }
        all
    }

    pub fn named(&self, name: &str) -> Vec<&Element> {
        let all = self.all().into_iter();
        all.filter(|element| element.name == name).collect()
    }

    pub fn with_class(&self, class: &str) -> Vec<&Element> {
        let all = self.all().into_iter();
        all.filter(|element| {
            let classes = element.attribute("class").unwrap_or("");
            classes.split(' ').any(|one| one == class)
        })
        .collect()
    }

    pub fn find(&self, id: &str) -> Option<&Element> {
        let mut all = self.all().into_iter();
        all.find(|element| element.attribute("id") == Some(id))
    }

    /// The text of the element with an id.
    pub fn text_of(&self, id: &str) -> String {
        self.find(id).unwrap_or_else(|| panic!("no {id}")).text()
    }
}
