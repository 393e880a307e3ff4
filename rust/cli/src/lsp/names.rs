//! Every name of a text with what it names: going to a declaration, references and
//! renaming.

use super::outline::{Outline, NAMED_BYTES};
use super::places::{byte, line_of, location, range_of};
use super::roles::{role, Role};
use explain::Json;
use model::form;
use model::text::{expression, reserved, Expr};
use std::ops::Range;

/// What a name stands for. A variable is one of its block, by the block's place.
#[derive(Clone, Debug, PartialEq, Eq)]
pub enum Entity {
    Class(String),
    /// A field of a class; of none where the class is not known.
    Field(Option<String>, String),
    Method(Option<String>, String),
    Variable(Option<usize>, String),
}

impl Entity {
    pub fn name(&self) -> &str {
        match self {
            Entity::Class(name) => name,
            Entity::Field(_, name) | Entity::Method(_, name) => name,
            Entity::Variable(_, name) => name,
        }
    }

    /// The same kind of thing at the same place, by another name.
    fn called(&self, name: &str) -> Entity {
        let name = name.to_string();
        match self.clone() {
            Entity::Class(_) => Entity::Class(name),
            Entity::Field(class, _) => Entity::Field(class, name),
            Entity::Method(class, _) => Entity::Method(class, name),
            Entity::Variable(block, _) => Entity::Variable(block, name),
        }
    }

    /// How messages call it.
    fn title(&self) -> &'static str {
        match self {
            Entity::Class(_) => "class",
            Entity::Field(..) => "field of this class",
            Entity::Method(..) => "method of this class",
            Entity::Variable(..) => "variable of this block",
        }
    }
}

/// A name in the text: its line from 0, its bytes there.
#[derive(Clone, Debug)]
pub struct Occurrence {
    pub line: u32,
    pub bytes: Range<usize>,
    pub entity: Entity,
    pub declares: bool,
}

/// The names of one field of a line, each with its place in the field.
fn named(outline: &Outline, line: u32, role: &Role, field: &str) -> Vec<(usize, Entity)> {
    let class_of = |variable: &str| {
        let class = outline.class_of(line, variable);
        class.map(|class| class.name.clone())
    };
    let own_class = || outline.class_at(line).map(|class| class.name.clone());
    let variable = |name: &str| Entity::Variable(outline.block_at(line), name.to_string());
    let name = field.to_string();
    let entity = match role {
        Role::Type | Role::Class | Role::NewClass => Entity::Class(name),
        Role::Variable | Role::NewVariable => variable(field),
        Role::Field(of) => Entity::Field(class_of(of), name),
        Role::Method(of) => Entity::Method(class_of(of), name),
        Role::NewField => Entity::Field(own_class(), name),
        Role::NewMethod => Entity::Method(own_class(), name),
        Role::Expression => {
            return match expression(field.as_bytes()) {
                Some(Expr::Var(_)) => vec![(0, variable(field))],
                Some(Expr::Path(x, _)) => {
                    let (x, f) = field.split_at(x.len());
                    let path = Entity::Field(class_of(x), f[1..].to_string());
                    vec![(0, variable(x)), (x.len() + 1, path)]
                }
                _ => Vec::new(),
            }
        }
        Role::Word | Role::AtomWord | Role::ConditionWord | Role::Nothing => return Vec::new(),
    };
    vec![(0, entity)]
}

/// Every name of the text that has the form of one, in order.
pub fn occurrences(text: &str, outline: &Outline) -> Vec<Occurrence> {
    let mut found = Vec::new();
    if text.len() > NAMED_BYTES {
        return found;
    }
    for (at, line) in text.split('\n').enumerate() {
        let fields: Vec<&str> = line.split('\t').collect();
        let starts = form::fields(line.as_bytes());
        for (place, (start, _)) in starts.into_iter().enumerate() {
            let role = role(&fields, place);
            let declares = matches!(
                role,
                Role::NewClass | Role::NewField | Role::NewMethod | Role::NewVariable
            );
            for (inner, entity) in named(outline, at as u32 + 1, &role, fields[place]) {
                if model::text::name(entity.name().as_bytes()).is_none() {
                    continue;
                }
                let from = start + inner;
                found.push(Occurrence {
                    line: at as u32,
                    bytes: from..from + entity.name().len(),
                    entity,
                    declares,
                });
            }
        }
    }
    found
}

/// The name at a place: the cursor may stand before, in or right after it.
pub fn at(text: &str, outline: &Outline, line: u32, column: usize) -> Option<Occurrence> {
    let cursor = byte(line_of(text, line), column);
    let mut all = occurrences(text, outline).into_iter();
    all.rfind(|name| name.line == line && (name.bytes.start..=name.bytes.end).contains(&cursor))
}

/// Where what stands at a place is declared. `this` and `result` are declared by
/// the `method` line.
pub fn definition(text: &str, uri: &str, outline: &Outline, place: (u32, usize)) -> Option<Json> {
    let asked = at(text, outline, place.0, place.1)?;
    let mut all = occurrences(text, outline).into_iter();
    let declared = all.find(|name| name.declares && name.entity == asked.entity);
    let range = match (declared, &asked.entity) {
        (Some(name), _) => range_of(text, name.line, &name.bytes),
        (None, Entity::Variable(Some(block), name)) => {
            let line = outline.blocks[*block].name(name)?.1.line - 1;
            range_of(text, line, &(0..0))
        }
        _ => return None,
    };
    Some(location(uri, range))
}

/// Every place of what stands at a place.
pub fn references(
    text: &str,
    uri: &str,
    outline: &Outline,
    place: (u32, usize),
    declarations: bool,
) -> Option<Json> {
    let asked = at(text, outline, place.0, place.1)?;
    let all = occurrences(text, outline).into_iter();
    let same = all.filter(|name| name.entity == asked.entity);
    let shown = same.filter(|name| declarations || !name.declares);
    let places = shown.map(|name| location(uri, range_of(text, name.line, &name.bytes)));
    Some(Json::List(places.collect()))
}

/// The name at a place, if it can be renamed; else why not.
pub fn renamed(
    text: &str,
    outline: &Outline,
    line: u32,
    column: usize,
) -> Result<Occurrence, String> {
    let asked = at(text, outline, line, column).ok_or("there is no name here")?;
    let name = asked.entity.name();
    if reserved(name.as_bytes()) {
        return Err(format!("`{name}` is reserved and keeps its name"));
    }
    let declared = |other: &Occurrence| other.declares && other.entity == asked.entity;
    match occurrences(text, outline).iter().any(declared) {
        true => Ok(asked),
        false => Err(format!("`{name}` is not declared in this text")),
    }
}

/// Can it have the new name?
fn fits(all: &[Occurrence], entity: &Entity, new: &str) -> Result<(), String> {
    if model::text::name(new.as_bytes()).is_none() {
        let most = nuyardi::limits::NAME_BYTES;
        return Err(format!(
            "a name is a letter and at most {} more letters or digits (ASCII), which \"{}\" is not",
            most - 1,
            new.escape_debug()
        ));
    }
    if reserved(new.as_bytes()) {
        return Err(format!("`{new}` is reserved"));
    }
    let taken = entity.called(new);
    let other = all.iter().find(|name| name.entity == taken);
    match other.filter(|_| taken != *entity) {
        None => Ok(()),
        Some(other) => Err(format!(
            "line {} already has a {} `{new}`",
            other.line + 1,
            entity.title()
        )),
    }
}

/// The text with each of these names replaced.
fn replaced(text: &str, names: &[&Occurrence], new: &str) -> String {
    let mut lines: Vec<String> = text.split('\n').map(str::to_string).collect();
    for name in names.iter().rev() {
        lines[name.line as usize].replace_range(name.bytes.clone(), new);
    }
    lines.join("\n")
}

/// Check's answer: number and line, zeros if it accepts the text.
fn answer(text: &str) -> (u32, u32) {
    let refused = nuyardi::check(text.as_bytes()).err();
    refused.map_or((0, 0), |refusal| (refusal.number(), refusal.line()))
}

/// The edits that give what stands at a place a new name; else why not. Check
/// answers the same of the text afterwards.
pub fn rename(
    text: &str,
    uri: &str,
    outline: &Outline,
    place: (u32, usize),
    new: &str,
) -> Result<Json, String> {
    let asked = renamed(text, outline, place.0, place.1)?;
    let all = occurrences(text, outline);
    fits(&all, &asked.entity, new)?;
    let same = all.iter().filter(|name| name.entity == asked.entity);
    let same: Vec<&Occurrence> = same.collect();
    let (before, after) = (answer(text), answer(&replaced(text, &same, new)));
    if before != after {
        let (number, line) = after;
        return Err(format!(
            "with the name `{new}` check would answer {number} at line {line}"
        ));
    }
    let edits = same.iter().map(|name| {
        Json::object()
            .with("range", range_of(text, name.line, &name.bytes))
            .with("newText", new)
    });
    let edits = Json::object().with(uri, Json::List(edits.collect()));
    Ok(Json::object().with("changes", edits))
}
