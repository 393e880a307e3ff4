//! Warnings: what a text has and does not need. None is a guess. A name that is never
//! used is named by no line; of an atom or a permission that nothing needs the text was
//! checked without it, and accepted; a line that no run reaches is one that no step of
//! any run does, however many steps are allowed.

mod contradiction;
mod unneeded;
mod unreached;
mod unused;

use crate::json::Json;
use crate::objects::line_text;
use crate::script::Script;
use crate::show::{self, Paint};
use crate::Answers;
use std::fmt::Write;
use std::ops::Range;

/// A parameter of this name is meant to have no use: a method always has one.
pub const MEANT: &[u8] = b"none";

/// What a warning is about.
#[derive(Clone, Copy, Debug, PartialEq, Eq)]
#[non_exhaustive]
pub enum Kind {
    /// A variable that no line names.
    UnusedVariable,
    /// A method that no call of main leads to.
    UnusedMethod,
    /// A parameter that no line names.
    UnusedParameter,
    /// A permission of `requires` without which the text is accepted.
    UnusedPermission,
    /// An atom of a `join` or an invariant without which the text is accepted.
    UnneededAtom,
    /// Lines that no run reaches.
    Unreached,
}

impl Kind {
    /// The kind's name in JSON and for editors.
    pub fn name(self) -> &'static str {
        match self {
            Kind::UnusedVariable => "unused-variable",
            Kind::UnusedMethod => "unused-method",
            Kind::UnusedParameter => "unused-parameter",
            Kind::UnusedPermission => "unused-permission",
            Kind::UnneededAtom => "unneeded-atom",
            Kind::Unreached => "unreached",
        }
    }
}

/// One warning.
#[derive(Clone, Debug, PartialEq, Eq)]
pub struct Warning {
    /// What it is about.
    pub kind: Kind,
    /// Its line.
    pub line: u32,
    /// The last of its lines, where it is about more than one.
    pub last: u32,
    /// Bytes of the line.
    pub mark: Option<Range<usize>>,
    /// What it says.
    pub text: String,
}

/// The warnings of a text that the reader takes, in the order of its lines. What
/// nothing needs and what no run reaches is said of accepted texts alone.
pub fn warnings(answers: &mut impl Answers, text: &[u8]) -> Vec<Warning> {
    let Some(script) = Script::of(text) else {
        return Vec::new();
    };
    let mut found = unused::names(&script);
    if model::check(text).0 == model::number::DONE && answers.check(text).is_ok() {
        found.extend(unneeded::permissions(answers, &script));
        found.extend(unneeded::atoms(answers, &script));
        found.extend(unreached::lines(&script));
    }
    found.sort_by_key(|warning| {
        let from = warning.mark.as_ref().map_or(0, |mark| mark.start);
        (warning.line, from)
    });
    found
}

/// The columns of a warning, from 1: the first, and the one after the last.
fn columns(warning: &Warning) -> Option<(usize, usize)> {
    let mark = warning.mark.as_ref()?;
    Some((mark.start + 1, mark.end + 1))
}

/// What a person reads.
pub fn shown(file: &str, text: &[u8], warnings: &[Warning], paint: Paint) -> String {
    let mut out = String::new();
    for warning in warnings {
        let place = show::place(file, warning.line);
        let _ = writeln!(out, "{place}: {}: {}", paint.warn("warning"), warning.text);
        show::snippet(&mut out, paint, text, warning.line, warning.mark.clone());
    }
    out
}

/// One line for each warning, as editors and compilers want it.
pub fn short(file: &str, warnings: &[Warning]) -> String {
    let rows = warnings.iter().map(|warning| {
        let column = columns(warning).map_or(1, |columns| columns.0);
        format!(
            "{file}:{}:{column}: warning: {}\n",
            warning.line, warning.text
        )
    });
    rows.collect()
}

/// The warnings as JSON.
pub fn json(text: &[u8], warnings: &[Warning]) -> Json {
    let rows = warnings.iter().map(|warning| {
        let columns = columns(warning);
        Json::object()
            .with("kind", warning.kind.name())
            .with("line", warning.line)
            .with("last", warning.last)
            .with_some("column", columns.map(|columns| columns.0))
            .with_some("end", columns.map(|columns| columns.1))
            .with("warning", warning.text.as_str())
            .with_some("text", line_text(text, warning.line))
    });
    Json::List(rows.collect())
}
