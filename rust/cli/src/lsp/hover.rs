//! What is shown of a place: what the name there is, a method with its contract;
//! the form of the line, and what the checker knows around it.

use super::names::{at, Entity, Occurrence};
use super::outline::{Class, Outline, Own};
use super::places::{line_of, range_of};
use explain::all::readable;
use explain::cause::form_of;
use explain::script::Script;
use explain::{known, Json};
use model::form::shape_of;

/// How a hover is written: what the client can show.
#[derive(Clone, Copy)]
pub enum Form {
    Markdown,
    Plain,
}

impl Form {
    fn name(self) -> &'static str {
        match self {
            Form::Markdown => "markdown",
            Form::Plain => "plaintext",
        }
    }

    /// Lines as they are, those of a script if a language is named.
    fn block(self, language: &str, lines: &str) -> String {
        match self {
            Form::Markdown => format!("```{language}\n{lines}\n```"),
            Form::Plain => lines.to_string(),
        }
    }

    /// The form of a line.
    fn code(self, words: &str) -> String {
        match self {
            Form::Markdown => format!("`{words}`"),
            Form::Plain => words.to_string(),
        }
    }

    /// What stands between the parts.
    fn between(self) -> &'static str {
        match self {
            Form::Markdown => "\n\n---\n\n",
            Form::Plain => "\n\n",
        }
    }
}

/// A line of the text, from 1, with blanks for tabs.
fn shown(text: &str, line: u32) -> String {
    line_of(text, line - 1).replace('\t', " ")
}

/// A method's line and its contract.
fn contract(text: &str, line: u32) -> Vec<String> {
    let next = [line + 1, line + 2].map(|line| shown(text, line));
    let contract = next.into_iter().filter(|line| {
        let word = line.split(' ').next();
        matches!(word, Some("requires" | "ensures"))
    });
    [shown(text, line)].into_iter().chain(contract).collect()
}

fn class_lines(text: &str, class: &Class) -> Vec<String> {
    let fields = class.fields.iter().map(|field| field.line);
    let methods = class.methods.iter().map(|method| method.line);
    let lines = [class.line].into_iter().chain(fields).chain(methods);
    lines.map(|line| shown(text, line)).collect()
}

/// The lines that say what a name is, and a word on where they stand.
fn declared(text: &str, outline: &Outline, name: &Occurrence) -> Option<(Vec<String>, String)> {
    let class = |class: &Option<String>| outline.class(class.as_deref()?);
    match &name.entity {
        Entity::Class(name) => {
            let class = outline.class(name)?;
            Some((class_lines(text, class), format!("line {}", class.line)))
        }
        Entity::Field(of, name) => {
            let of = class(of)?;
            let line = of.field(name)?.line;
            let place = format!("field of class {}, line {line}", of.name);
            Some((vec![shown(text, line)], place))
        }
        Entity::Method(of, name) => {
            let of = class(of)?;
            let line = of.method(name)?.line;
            let place = format!("method of class {}, line {line}", of.name);
            Some((contract(text, line), place))
        }
        Entity::Variable(block, name) => {
            let (own, name) = outline.blocks[(*block)?].name(name)?;
            let place = match own {
                Own::This => "the card that the method is called on",
                Own::Param => "the parameter",
                Own::Result => "what the method gives back",
                Own::Local => "a variable",
            };
            let lines = vec![format!("{} {}", name.kind, name.name)];
            Some((lines, format!("{place}, line {}", name.line)))
        }
    }
}

/// The form of the line's kind, and what is known around it.
fn around(text: &str, line: u32, form: Form) -> Option<String> {
    let word = line_of(text, line).split('\t').next().unwrap_or("");
    let words = form.code(&form_of(shape_of(word.as_bytes())?));
    let patched = readable(text.as_bytes());
    let bytes = patched.as_deref().unwrap_or(text.as_bytes());
    let known = Script::of(bytes).and_then(|script| {
        let place = script.statement_at(line + 1)?;
        let line = script.program.statements[place].line;
        let known = known::at(&script, line)?;
        Some(known::full(&script, &known))
    });
    Some(match known {
        Some(known) => format!("{words}\n\n{}", form.block("", known.trim_end())),
        None => words,
    })
}

/// What is shown at a place.
pub fn hover(
    text: &str,
    outline: &Outline,
    (line, column): (u32, usize),
    form: Form,
) -> Option<Json> {
    let name = at(text, outline, line, column);
    let said = name.as_ref().and_then(|name| declared(text, outline, name));
    let said = said.map(|(lines, place)| {
        let lines = form.block("station", &lines.join("\n"));
        format!("{lines}\n{place}")
    });
    let range = name.filter(|_| said.is_some());
    let range = range.map(|name| range_of(text, line, &name.bytes));
    let parts: Vec<String> = said.into_iter().chain(around(text, line, form)).collect();
    if parts.is_empty() {
        return None;
    }
    let contents = Json::object()
        .with("kind", form.name())
        .with("value", parts.join(form.between()));
    Some(
        Json::object()
            .with("contents", contents)
            .with_some("range", range),
    )
}
