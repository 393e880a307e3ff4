//! The refusals and warnings of a text as diagnostics, the fixes that were tried
//! as code actions, and what a number means.

use super::places::{column, line_of, position, range};
use crate::library::Library;
use explain::all::further;
use explain::cause::{agreed, explained, Cause};
use explain::fix::{filled_instead, fix, Fix, WHOLE};
use explain::show::{explanation, Paint};
use explain::warn::{warnings, Warning};
use explain::{fmt, Json};
use nuyardi::{Kind, Refusal};

/// What `station explain N` says, as an address.
const GUIDE: &str = "station:explain/";

/// The command that shows what a number means.
pub const EXPLAIN: &str = "station.explain";

/// The kind of the code actions.
const QUICK_FIX: &str = "quickfix";

/// A refusal as the editor is told it.
pub struct Diagnostic {
    number: u32,
    /// From 0.
    line: u32,
    shown: Json,
}

/// The words of a diagnostic.
fn message(number: u32, why: Option<&Cause>) -> String {
    let title = nuyardi::explain(number).map_or("", |known| known.title);
    let mut message = why.map_or(title, Cause::headline).to_string();
    if let Some(said) = why.and_then(Cause::in_full) {
        message.push_str(&format!("\ncause: {said}"));
    }
    for note in why.iter().flat_map(|cause| &cause.notes) {
        message.push_str(&format!("\nnote: {note}"));
    }
    if let Some(fix) = why.and_then(|cause| cause.fix.as_ref()) {
        message.push_str(&format!("\nfix: {}", fix.said()));
    }
    if let Some(help) = why.and_then(|cause| cause.help.as_ref()) {
        message.push_str(&format!("\nhelp: {help}"));
    }
    message
}

/// One refusal as the protocol has it; its line is from 1.
fn diagnostic(text: &str, number: u32, line: u32, why: Option<&Cause>) -> Diagnostic {
    let line = line.saturating_sub(1);
    let marked = line_of(text, line);
    let mark = why.and_then(|cause| cause.mark.clone());
    let mark = mark.unwrap_or(0..marked.len());
    let range = range(line, column(marked, mark.start), column(marked, mark.end));
    let guide = Json::object().with("href", format!("{GUIDE}{number}"));
    let shown = Json::object()
        .with("range", range)
        .with("severity", 1u32)
        .with("code", number)
        .with("codeDescription", guide)
        .with("source", "station")
        .with("message", message(number, why));
    Diagnostic {
        number,
        line,
        shown,
    }
}

/// A warning as the protocol has it: its severity is 2, and its tag says that the
/// place is not needed.
fn warned(text: &str, warning: &Warning) -> Json {
    let line = warning.line - 1;
    let shown = line_of(text, line);
    let mark = warning.mark.clone().unwrap_or(0..shown.len());
    let range = range(line, column(shown, mark.start), column(shown, mark.end));
    Json::object()
        .with("range", range)
        .with("severity", 2u32)
        .with("code", warning.kind.name())
        .with("source", "station")
        .with("message", warning.text.as_str())
        .with("tags", vec![1u32])
}

/// What is found in a text: its refusals, the first that of the library, the
/// fixes of the first that were tried, and its warnings.
#[derive(Default)]
pub struct Found {
    diagnostics: Vec<Diagnostic>,
    fixes: Vec<Fix>,
    warnings: Vec<Json>,
}

/// For a permission that is not shown in a method: its `requires` as fill gives it.
fn filled(text: &[u8], refusal: Refusal) -> Option<Fix> {
    let lacks = refusal.kind() == Kind::NoPermission;
    lacks.then(|| filled_instead(&mut Library::default(), text, refusal.line()))?
}

/// The fix of all refusals, if it takes more than one step.
pub fn whole(text: &str) -> Option<Fix> {
    let text = text.as_bytes();
    let fix = fix(text, WHOLE).filter(|fix| fix.steps.len() > 1)?;
    agreed(&mut Library::default(), &fix).then_some(fix)
}

impl Found {
    pub fn of(text: &str) -> Found {
        let bytes = text.as_bytes();
        let found = warnings(&mut Library::default(), bytes);
        let warnings = found.iter().map(|warning| warned(text, warning)).collect();
        let Err(refusal) = nuyardi::check(bytes) else {
            return Found {
                warnings,
                ..Found::default()
            };
        };
        let why = explained(&mut Library::default(), bytes, refusal);
        let first = diagnostic(text, refusal.number(), refusal.line(), why.as_ref());
        let others = further(bytes).into_iter();
        let others =
            others.map(|other| diagnostic(text, other.number, other.line, other.cause.as_ref()));
        let one = why.and_then(|why| why.fix).into_iter();
        Found {
            diagnostics: [first].into_iter().chain(others).collect(),
            fixes: one.chain(filled(bytes, refusal)).collect(),
            warnings,
        }
    }

    /// All diagnostics of the text: its refusals, then its warnings.
    pub fn diagnostics(&self) -> Json {
        let refusals = self.diagnostics.iter().map(|one| one.shown.clone());
        Json::List(refusals.chain(self.warnings.iter().cloned()).collect())
    }

    /// The fixes of the first refusal where it touches the lines that are asked
    /// about, the fix of all, and what the numbers on these lines mean.
    pub fn actions(&self, text: &str, uri: &str, whole: Option<&Fix>, lines: (u32, u32)) -> Json {
        let near = |line: u32| (lines.0..=lines.1).contains(&line);
        let first = self.diagnostics.first();
        let at_first = first.is_some_and(|first| near(first.line));
        let mut fixes: Vec<&Fix> = Vec::new();
        for fix in self.fixes.iter().filter(|_| at_first).chain(whole) {
            if fixes.iter().all(|known| known.text != fix.text) {
                fixes.push(fix);
            }
        }
        let touched = self.diagnostics.iter().filter(|one| near(one.line));
        let mut numbers: Vec<u32> = touched.map(|one| one.number).collect();
        numbers.sort_unstable();
        numbers.dedup();
        let fixes = fixes.iter().map(|fix| action(text, uri, fix, first));
        let meanings = numbers.into_iter().map(meaning);
        Json::List(fixes.chain(meanings).collect())
    }
}

/// Does a client that wants only some kinds of code actions want fixes?
pub fn wanted(only: Option<&Json>) -> bool {
    match only {
        Some(Json::List(kinds)) => {
            let mut kinds = kinds.iter().filter_map(Json::text);
            kinds.any(|kind| kind.is_empty() || kind == QUICK_FIX)
        }
        _ => true,
    }
}

/// A fix as the protocol has it.
fn action(text: &str, uri: &str, fix: &Fix, refusal: Option<&Diagnostic>) -> Json {
    let changes = fix.changes(text.as_bytes());
    let edits = changes.iter().map(|change| {
        let start = position(change.from.0 - 1, column_in(text, change.from));
        let end = position(change.to.0 - 1, column_in(text, change.to));
        let range = Json::object().with("start", start).with("end", end);
        Json::object()
            .with("range", range)
            .with("newText", change.text.as_str())
    });
    let edits = Json::object().with(uri, Json::List(edits.collect()));
    let title = match fix.steps.len() {
        1 => fix.said(),
        steps => format!("fix everything that can be fixed ({steps} steps)"),
    };
    let fixed: Vec<Json> = refusal.iter().map(|one| one.shown.clone()).collect();
    Json::object()
        .with("title", title)
        .with("kind", QUICK_FIX)
        .with("diagnostics", fixed)
        .with("edit", Json::object().with("changes", edits))
}

/// The action that shows what a number means.
fn meaning(number: u32) -> Json {
    let title = format!("what number {number} means (station explain {number})");
    let command = Json::object()
        .with("title", title.as_str())
        .with("command", EXPLAIN)
        .with("arguments", vec![number]);
    Json::object()
        .with("title", title)
        .with("kind", QUICK_FIX)
        .with("command", command)
}

/// What `station explain` says of a number, if it is one of the table.
pub fn explained_number(number: &Json) -> Option<String> {
    let number = u32::try_from(number.int()?).ok()?;
    nuyardi::explain(number).map(|known| explanation(known, Paint(false)))
}

/// The column of a place in the text, in units of UTF-16.
fn column_in(text: &str, (line, byte): (u32, u32)) -> usize {
    column(line_of(text, line - 1), byte as usize - 1)
}

/// The whole text in its form, as one edit; none if it has it.
pub fn formatting(text: &str) -> Json {
    let better = fmt::formatted(text.as_bytes());
    if better == text.as_bytes() {
        return Json::List(Vec::new());
    }
    let lines = text.split('\n').count() as u32;
    let all = Json::object()
        .with("start", position(0, 0))
        .with("end", position(lines, 0));
    let edit = Json::object()
        .with("range", all)
        .with("newText", String::from_utf8_lossy(&better).into_owned());
    Json::List(vec![edit])
}
