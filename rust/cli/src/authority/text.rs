//! The report as text for a terminal.

use super::answers::{self, Answer, COLUMNS};
use super::claims::ASSUMED;
use super::findings::Findings;
use super::identity::{LEVEL, LIBRARY, LOGIC, VERSION};
use super::index::Entry;
use super::proved;
use super::said::plain;
use super::stops;
use explain::cause::Cause;
use explain::show::{grouped, title, wrapped};
use nuyardi::limits;
use std::fmt::Write;

/// A heading of this width, and what belongs to it.
fn row(out: &mut String, heading: &str, said: &str) {
    let heading = format!("{heading}:");
    wrapped(out, &format!("  {heading:<9} "), said);
}

fn identity(out: &mut String, findings: &Findings) {
    let identity = &findings.identity;
    let _ = writeln!(out, "report: {}", identity.file);
    match &identity.content {
        Some((bytes, sum)) => {
            row(out, "bytes", &grouped(*bytes as u128));
            row(out, "sha256", sum);
        }
        None => {
            let most = grouped(limits::TEXT_BYTES as u128);
            row(out, "bytes", &format!("more than {most}: not all is read"));
        }
    }
    row(out, "library", &format!("nuyardi {VERSION}, level {LEVEL}"));
    row(out, "sha256", LIBRARY);
    row(out, "logic", LOGIC);
    if let Some(time) = &identity.time {
        row(out, "time", time);
    }
}

/// The cause with its notes, its fix and what helps.
fn cause(out: &mut String, cause: Option<&Cause>) {
    let Some(cause) = cause else {
        return;
    };
    row(out, "cause", cause.headline());
    let notes = cause.notes.iter().map(String::as_str);
    for note in cause.in_full().into_iter().chain(notes) {
        row(out, "note", note);
    }
    if let Some(fix) = &cause.fix {
        row(out, "fix", &fix.said());
    }
    if let Some(help) = &cause.help {
        row(out, "help", help);
    }
}

fn answer(out: &mut String, heading: &str, answer: &Answer) {
    let said = match answer.said.is_empty() {
        true => answer.short.clone(),
        false => format!("{}{}{}", answer.short, answer.mark, plain(&answer.said)),
    };
    row(out, heading, &said);
    for theorem in &answer.theorems {
        row(out, "proved", &plain(&answers::theorem_said(theorem)));
    }
}

fn decision(out: &mut String, findings: &Findings) {
    answer(out, "decision", &answers::decision(findings));
    cause(out, findings.answered.cause.as_ref());
    if let Some(formatted) = findings.after_fmt() {
        row(out, "then", formatted);
    }
}

/// Question 1: a part for each method.
fn alters(out: &mut String, findings: &Findings) {
    let _ = writeln!(out, "\n1. Can it alter a card that it was not handed?");
    answer(out, "answer", &answers::alters(findings));
    for method in &findings.methods {
        let (name, line) = (plain(&answers::row_title(method)), method.line);
        let _ = writeln!(out, "  line {line}: {name}");
        for (heading, cell) in COLUMNS.iter().zip(answers::cells(method)) {
            let heading = format!("{heading}:");
            wrapped(out, &format!("    {heading:<15} "), &plain(&cell));
        }
    }
    if findings.methods.is_empty() {
        return;
    }
    let proof = |column: &str| proved::of_column(findings, column);
    for (column, proved) in COLUMNS.iter().filter_map(|one| Some((one, proof(one)?))) {
        let (says, name) = (proved.says, proved.theorem.name);
        row(out, "proved", &format!("`{column}` is {says}: {name}"));
    }
    if let Some(proved) = proved::of_chains(findings) {
        let (says, name) = (proved.says, proved.theorem.name);
        row(out, "proved", &format!("{says}: {name}"));
    }
    let read: Vec<&str> = COLUMNS
        .into_iter()
        .filter(|one| proof(one).is_none())
        .collect();
    row(out, "read off", &format!("the text: {}", read.join(", ")));
}

fn route(out: &mut String, findings: &Findings) {
    for (at, leg) in findings.route.iter().enumerate() {
        let what = plain(&answers::leg_said(findings.text, at, leg));
        let (line, steps, lines) = (leg.line, grouped(leg.bound), answers::leg_lines(leg));
        let verb = if at == 0 { "takes" } else { "adds" };
        row(
            out,
            "route",
            &format!("line {line}: {what} {verb} {steps}: {lines}"),
        );
    }
}

fn reasons(out: &mut String, findings: &Findings) {
    for reason in &findings.reasons {
        let (place, kind) = (plain(&reason.place()), plain(&reason.kind()));
        row(
            out,
            "reason",
            &format!("line {}: {place}: {kind}", reason.line),
        );
        row(out, "a run", &plain(&reason.says()));
        row(out, "this one", &plain(&reason.seen()));
    }
}

fn run(out: &mut String, findings: &Findings) {
    let Some(said) = answers::run(findings) else {
        return;
    };
    let (allowed, said) = (grouped(findings.allowed.into()), plain(&said));
    row(out, "run", &format!("of {allowed} allowed steps: {said}"));
    let ran = findings.answered.ran.as_ref();
    cause(out, ran.and_then(|ran| ran.cause.as_ref()));
    let variables = findings
        .outcome()
        .into_iter()
        .flat_map(|ran| ran.variables());
    for variable in variables {
        let _ = writeln!(out, "    {} = {}", variable.name, variable.value);
    }
}

/// Question 2: the bound with its route, or each line that leaves none.
fn finishes(out: &mut String, findings: &Findings) {
    let question = "2. If it does not finish, which line is the reason?";
    let _ = writeln!(out, "\n{question}");
    answer(out, "answer", &answers::finishes(findings));
    let why = findings.cause.as_ref();
    cause(out, why.filter(|_| findings.reasons.is_empty()));
    route(out, findings);
    reasons(out, findings);
    run(out, findings);
}

/// Question 3.
fn learns(out: &mut String, findings: &Findings) {
    let _ = writeln!(out, "\n3. Can it learn what it was not handed?");
    answer(out, "answer", &answers::learns(findings));
}

fn stop_rows(out: &mut String, findings: &Findings) {
    let _ = writeln!(out, "\nStops of a run");
    for row in stops::rows(findings) {
        let number = row.stop.number();
        let said = format!("{}: {}", title(number), plain(&row.verdict.said()));
        wrapped(out, &format!("  {number} "), &said);
        let basis = plain(&row.basis.said());
        wrapped(out, &format!("     {}: ", row.basis.word()), &basis);
    }
}

fn assumed(out: &mut String) {
    let _ = writeln!(out, "\nWhat is assumed");
    for (at, assumed) in ASSUMED.iter().enumerate() {
        let said = format!("{} ({})", assumed.what, assumed.link());
        wrapped(out, &format!("  {}. ", at + 1), &said);
    }
}

/// The report on one script.
pub fn report(findings: &Findings) -> String {
    let mut out = String::new();
    identity(&mut out, findings);
    decision(&mut out, findings);
    alters(&mut out, findings);
    finishes(&mut out, findings);
    learns(&mut out, findings);
    stop_rows(&mut out, findings);
    assumed(&mut out);
    out
}

/// A line for each script.
pub fn index(entries: &[Entry]) -> String {
    let wide = entries
        .iter()
        .map(|entry| entry.file().chars().count())
        .max();
    let wide = wide.unwrap_or(0);
    let mut out = String::new();
    for entry in entries {
        let (file, said) = (entry.file(), plain(&entry.said()));
        let _ = writeln!(out, "{file:<wide$}  {said}");
    }
    out
}
