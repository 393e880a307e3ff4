//! The JSON objects of the command: one schema, which the guide lists.

use crate::cause::Cause;
use crate::fix::{edit::Change, Fix};
use crate::json::Json;
use crate::report::{columns, Asked, Ran, Report};
use crate::script::line;
use crate::show::escaped;
use crate::warn;
use nuyardi::{explain, Explanation, Value};

/// A line of the text, its bytes escaped.
pub fn line_text(text: &[u8], number: u32) -> Option<String> {
    let bytes = line(text, number)?;
    Some(bytes.iter().map(|&byte| escaped(byte)).collect())
}

/// The words of a number.
pub fn words(object: Json, number: u32) -> Json {
    match explain(number).filter(|_| number != 0) {
        Some(known) => object
            .with("title", known.title)
            .with("meaning", known.meaning)
            .with("advice", known.advice),
        None => object,
    }
}

/// The cause: what is wrong, where in the line (columns are bytes, from 1, the
/// end is the column after the last), and what else is known.
pub fn with_cause(object: Json, cause: Option<&Cause>) -> Json {
    let Some(cause) = cause else {
        return object;
    };
    let columns = columns(Some(cause));
    object
        .with("headline", cause.headline())
        .with("cause", cause.text.as_str())
        .with_some("column", columns.map(|columns| columns.0))
        .with_some("end", columns.map(|columns| columns.1))
        .with("notes", cause.notes.clone())
        .with("related", cause.related())
        .with_some("help", cause.help.clone())
        .with_some("fix", cause.fix.as_ref().map(Fix::said))
}

fn value(value: Value) -> Json {
    match value {
        Value::Int(number) => number.into(),
        Value::Object(number) => number.into(),
        _ => Json::Null,
    }
}

/// The changes of a fix.
pub fn edits(text: &[u8], fix: &Fix) -> Json {
    let changes = fix.changes(text);
    Json::List(changes.iter().map(Change::json).collect())
}

/// Check's number and line.
fn checked(report: &Report) -> (u32, u32) {
    let refusal = report.refusal;
    refusal.map_or((0, 0), |refusal| (refusal.number(), refusal.line()))
}

/// Check's answer and its cause.
pub fn check(object: Json, report: &Report) -> Json {
    let (number, line) = checked(report);
    let object = object
        .with("accepted", number == 0)
        .with("number", number)
        .with("line", line);
    let object = with_cause(object, report.cause.as_ref());
    let fix = report.cause.as_ref().and_then(|cause| cause.fix.as_ref());
    let object = object.with_some("edits", fix.map(|fix| edits(report.text, fix)));
    let object = object.with_some("note", report.formatted.clone());
    let warnings = report.warnings.as_ref();
    let warnings = warnings.map(|warnings| warn::json(report.text, warnings));
    match report.asked {
        Asked::Check => object
            .with("refusals", refusals(report))
            .with_some("warnings", warnings),
        _ => object,
    }
}

/// All refusals, check's own the first.
fn refusals(report: &Report) -> Json {
    let one = |number: u32, line: u32, cause: Option<&Cause>| {
        let object = Json::object().with("number", number).with("line", line);
        with_cause(words(object, number), cause).with_some("text", line_text(report.text, line))
    };
    let first = report.refusal.iter();
    let first = first.map(|first| one(first.number(), first.line(), report.cause.as_ref()));
    let others = report.further.iter();
    let others = others.map(|other| one(other.number, other.line, other.cause.as_ref()));
    Json::List(first.chain(others).collect())
}

fn variables(ran: &Ran) -> Json {
    let variables = ran.outcome.variables().map(|variable| {
        Json::object()
            .with("name", variable.name)
            .with("type", variable.kind)
            .with("value", value(variable.value))
    });
    Json::List(variables.collect())
}

/// What a run or a trial gives, beside check's answer: the same fields whether the
/// text was run or not.
fn ran(object: Json, report: &Report, allowed: u32) -> Json {
    let ran = report.ran.as_ref();
    let (number, line) = answer(report);
    let none = || Json::List(Vec::new());
    let object = object
        .with("check", check(Json::object(), report))
        .with("finished", ran.is_some_and(|ran| ran.outcome.finished()))
        .with("number", number)
        .with("line", line)
        .with("allowed", allowed)
        .with("steps", ran.map_or(0, |ran| ran.outcome.steps()))
        .with("variables", ran.map_or_else(none, variables))
        .with("open", ran.map_or_else(Vec::new, |ran| ran.open.clone()));
    let cause = ran.map_or(report.cause.as_ref(), |ran| ran.cause.as_ref());
    with_cause(object, cause)
}

/// The number and line of the call that was asked.
fn answer(report: &Report) -> (u32, u32) {
    let ran = report.ran.as_ref().map(|ran| &ran.outcome);
    ran.map_or(checked(report), |ran| (ran.number(), ran.line()))
}

/// Check's answer, or that of check and run.
pub fn report(report: &Report) -> Json {
    let object = Json::object().with("file", report.file);
    let call = |call: &str, machine: &str| {
        let object = object.clone();
        object.with("call", call).with("machine", machine)
    };
    let object = match report.asked {
        Asked::Check => check(object.with("call", "check"), report),
        Asked::Run(allowed) => ran(call("run", "full"), report, allowed),
        Asked::Lean(allowed) => ran(call("run", "lean"), report, allowed),
        Asked::Trial(allowed) => ran(call("trial", "full"), report, allowed),
    };
    worded(object, report)
}

/// A script of a count: what a run gives, and its share.
pub fn counted(report: &Report, rounds: u32, share: u32) -> Json {
    let object = Json::object().with("file", report.file);
    let object = object.with("call", "count").with("share", share);
    worded(ran(object, report, rounds), report)
}

/// The answer's number in words, and its line.
fn worded(object: Json, report: &Report) -> Json {
    let (number, line) = answer(report);
    words(object, number).with_some("text", line_text(report.text, line))
}

/// A file that can't be read or written.
pub fn unread(file: &str, error: &str) -> Json {
    Json::object().with("file", file).with("error", error)
}

/// A number in words.
pub fn explanation(known: &Explanation) -> Json {
    Json::object()
        .with("number", known.number)
        .with("title", known.title)
        .with("meaning", known.meaning)
        .with("advice", known.advice)
        .with_some("example", known.example)
}
