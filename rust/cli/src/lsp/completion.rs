//! The words and names that are offered at a place.

use super::outline::{Method, Name, Outline};
use super::places::{byte, column, line_of, range};
use super::typing::Typing;
use explain::Json;
use model::form::{self, line_or_kind, next_words};
use model::number;
use model::text::Reader;

/// The kinds of things that are offered, as the protocol numbers them.
#[derive(Clone, Copy)]
enum ItemKind {
    Method = 2,
    Field = 5,
    Variable = 6,
    Class = 7,
    Keyword = 14,
}

/// What is offered.
pub struct Item {
    pub label: String,
    kind: ItemKind,
    /// Its type, or its line.
    detail: String,
}

impl Item {
    /// The item, put in the place of what is typed.
    fn json(self, typed: &Json) -> Json {
        let edit = Json::object()
            .with("range", typed.clone())
            .with("newText", self.label.as_str());
        let detail = Some(self.detail).filter(|detail| !detail.is_empty());
        Json::object()
            .with("label", self.label)
            .with("kind", self.kind as u32)
            .with_some("detail", detail)
            .with("textEdit", edit)
    }

    pub fn word(word: &str) -> Item {
        Item {
            label: word.to_string(),
            kind: ItemKind::Keyword,
            detail: String::new(),
        }
    }

    pub fn class(name: &str) -> Item {
        Item {
            label: name.to_string(),
            kind: ItemKind::Class,
            detail: format!("class {name}"),
        }
    }

    pub fn variable(name: &Name) -> Item {
        Item {
            label: name.name.clone(),
            kind: ItemKind::Variable,
            detail: name.kind.clone(),
        }
    }

    pub fn field(field: &Name) -> Item {
        Item {
            label: field.name.clone(),
            kind: ItemKind::Field,
            detail: field.kind.clone(),
        }
    }

    pub fn path(variable: &str, field: &Name) -> Item {
        Item {
            label: format!("{variable}.{}", field.name),
            ..Item::field(field)
        }
    }

    pub fn method(method: &Method) -> Item {
        let Method {
            name,
            result,
            param,
            ..
        } = method;
        Item {
            label: name.clone(),
            kind: ItemKind::Method,
            detail: format!("method {result} {name} {} {}", param.kind, param.name),
        }
    }
}

/// The reader before a line, passing over lines that it does not take.
fn reader_before(text: &str, line: u32) -> Reader {
    let mut reader = Reader::new();
    for bytes in text.split('\n').take(line as usize) {
        if let Some(line) = line_or_kind(bytes.as_bytes()) {
            reader.step(&line);
        }
    }
    reader
}

/// Does the line get number 6, 7 or 9, when it is another?
fn refused_by_name(text: &str, line: u32, other: &str) -> bool {
    let mut lines: Vec<&str> = text.split('\n').collect();
    match lines.get_mut(line as usize) {
        Some(old) if form::fault(other.as_bytes()).is_none() => *old = other,
        _ => return false,
    }
    let (refused, at) = model::check(lines.join("\n").as_bytes());
    at == line + 1 && matches!(refused, number::NAME | number::TYPE | number::ASSIGNED)
}

/// What may stand at a place. The whole field is replaced; where others follow it,
/// the line passes with them.
pub fn completion(text: &str, outline: &Outline, line: u32, at: usize) -> Json {
    let shown = line_of(text, line);
    let (before, after) = shown.split_at(byte(shown, at));
    let rest = after.find('\t').map_or("", |end| &after[end..]);
    let fields: Vec<&str> = before.split('\t').collect();
    let start = before.len() - fields.last().map_or(0, |typed| typed.len());
    let mut items = match fields.len() {
        1 => {
            let words = next_words(&reader_before(text, line));
            words.into_iter().map(Item::word).collect()
        }
        count => {
            let typing = Typing {
                outline,
                line: line.saturating_add(1),
                fields,
                at: count - 1,
            };
            typing.items()
        }
    };
    if !rest.is_empty() {
        let with = |item: &Item| format!("{}{}{rest}", &before[..start], item.label);
        items.retain(|item| !refused_by_name(text, line, &with(item)));
    }
    let end = shown.len() - rest.len();
    let typed = range(line, column(shown, start), column(shown, end));
    Json::List(items.into_iter().map(|item| item.json(&typed)).collect())
}
