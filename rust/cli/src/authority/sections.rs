//! The parts of a script's page: identity, decision, the three questions, the stops
//! and what is assumed.

use super::answers::{self, Answer, COLUMNS};
use super::claims::{Theorem, ASSUMED};
use super::findings::Findings;
use super::html::{cell, escaped, table};
use super::identity::{LEVEL, LIBRARY, LOGIC, VERSION};
use super::proved;
use super::said::{html, Piece};
use super::source::{leg_id, method_id, reason_id, stop_id};
use super::stops;
use explain::cause::Cause;
use explain::show::{grouped, title};
use nuyardi::limits;

fn theorem(theorem: &Theorem) -> String {
    format!(
        "<span class=\"basis\">proved: <code>{}</code>, {}</span>",
        theorem.name, theorem.file
    )
}

/// An answer: its short form under an id, its words, and its theorems.
fn answer(answer: &Answer, id: &str, prefix: &str) -> String {
    let short = escaped(&answer.short);
    let mark = match answer.said.is_empty() {
        true => "",
        false => answer.mark,
    };
    let theorems: String = answer.theorems.iter().map(|one| theorem(one)).collect();
    format!(
        "<p class=\"answer\"><strong id=\"{prefix}{id}\">{short}</strong>{mark}{}</p>\n{theorems}\n",
        html(&answer.said, prefix)
    )
}

fn cause(cause: Option<&Cause>) -> String {
    let Some(cause) = cause else {
        return String::new();
    };
    let said = |word: &str, said: &str| format!("<p>{word}: {}</p>\n", coded(said));
    let notes = cause.notes.iter().map(String::as_str);
    let notes = cause.in_full().into_iter().chain(notes);
    let notes: String = notes.map(|note| said("Note", note)).collect();
    let fix = cause.fix.as_ref().map(|fix| said("Fix", &fix.said()));
    let help = cause.help.as_deref().map(|help| said("Help", help));
    said("Cause", cause.headline()) + &notes + &fix.unwrap_or_default() + &help.unwrap_or_default()
}

/// A message: what it has in backquotes is code.
fn coded(message: &str) -> String {
    html(&super::said::sentence(message), "")
}

fn section(id: &str, heading: &str, inner: &str) -> String {
    format!("<section id=\"{id}\">\n<h2>{heading}</h2>\n{inner}</section>\n")
}

pub fn identity(findings: &Findings, prefix: &str) -> String {
    let identity = &findings.identity;
    let (bytes, sum) = match &identity.content {
        Some((bytes, sum)) => (grouped(*bytes as u128), sum.clone()),
        None => {
            let most = grouped(limits::TEXT_BYTES as u128);
            (format!("more than {most}"), "not all is read".to_string())
        }
    };
    let library = format!("nuyardi {VERSION}");
    let mut rows = vec![
        ("script", "Script", identity.file.as_str()),
        ("bytes", "Bytes", &bytes),
        ("sha256", "SHA-256", &sum),
        ("version", "Library", &library),
        ("level", "Level", LEVEL),
        ("library", "SHA-256 of the library", LIBRARY),
        ("logic", "Logic of the prover", LOGIC),
    ];
    if let Some(time) = &identity.time {
        rows.push(("time", "Time", time));
    }
    let rows: String = rows
        .iter()
        .map(|(id, heading, said)| {
            let said = escaped(said);
            format!("<dt>{heading}</dt><dd id=\"{prefix}{id}\">{said}</dd>\n")
        })
        .collect();
    section(
        &format!("{prefix}identity"),
        "What was looked at",
        &format!("<dl>\n{rows}</dl>\n"),
    )
}

pub fn decision(findings: &Findings, prefix: &str) -> String {
    let mut inner = answer(&answers::decision(findings), "verdict", prefix);
    inner.push_str(&cause(findings.answered.cause.as_ref()));
    if let Some(formatted) = findings.after_fmt() {
        inner.push_str(&format!("<p>Then: {}</p>\n", coded(formatted)));
    }
    section(&format!("{prefix}decision"), "Decision", &inner)
}

/// Question 1, with a row for each method.
pub fn alters(findings: &Findings, prefix: &str) -> String {
    let mut inner = answer(&answers::alters(findings), "alters", prefix);
    let rows = findings.methods.iter().enumerate().map(|(at, row)| {
        let cells = COLUMNS.iter().zip(answers::cells(row));
        let cells: String = cells
            .map(|(heading, said)| cell(heading, &html(&said, prefix)))
            .collect();
        let name = html(&answers::row_title(row), prefix);
        let line = html(&[Piece::Line(row.line)], prefix);
        let id = method_id(at);
        format!("<tr id=\"{prefix}{id}\"><th scope=\"row\">{name}, line {line}</th>{cells}</tr>\n")
    });
    let rows: String = rows.collect();
    let mut headings = vec!["method".to_string()];
    headings.extend(COLUMNS.iter().map(|heading| {
        let basis = match proved::of_column(findings, heading) {
            Some(proved) => format!("proved, {}: {}", proved.says, proved.theorem.name),
            None => "read off the text".to_string(),
        };
        format!("{heading} <span class=\"basis\">{basis}</span>")
    }));
    if !rows.is_empty() {
        inner.push_str(&table("stacked methods", &headings, &rows));
        let note = coded(&proved::of_methods());
        inner.push_str(&format!("<p class=\"note\">{note}</p>\n"));
    }
    let question = "1. Can it alter a card that it was not handed?";
    section(&format!("{prefix}question-1"), question, &inner)
}

fn route(findings: &Findings, prefix: &str) -> String {
    let rows = findings.route.iter().enumerate().map(|(at, leg)| {
        let id = leg_id(at);
        let what = html(&answers::leg_said(findings.text, at, leg), prefix);
        let line = html(&[Piece::Line(leg.line)], prefix);
        let cells = [
            cell("line", &line),
            cell("block or call", &what),
            cell("steps it adds", &grouped(leg.bound)),
            cell("its own lines", &answers::leg_lines(leg)),
        ];
        format!("<tr id=\"{prefix}{id}\">{}</tr>\n", cells.concat())
    });
    let rows: String = rows.collect();
    let headings = ["line", "block or call", "steps it adds", "its own lines"].map(str::to_string);
    match rows.is_empty() {
        true => String::new(),
        false => {
            "<h3>Where the bound comes from</h3>\n".to_string()
                + &table("stacked", &headings, &rows)
        }
    }
}

fn reasons(findings: &Findings, prefix: &str) -> String {
    let headings = [
        "line",
        "what it is",
        "a run that does not finish says",
        "this run",
    ];
    let rows = findings.reasons.iter().enumerate().map(|(at, reason)| {
        let id = reason_id(at);
        let mut what = reason.place();
        what.push(Piece::Text(": ".to_string()));
        what.extend(reason.kind());
        let cells = [
            vec![Piece::Line(reason.line)],
            what,
            reason.says(),
            reason.seen(),
        ];
        let cells = headings.iter().zip(cells);
        let cells: String = cells
            .map(|(heading, said)| cell(heading, &html(&said, prefix)))
            .collect();
        format!("<tr id=\"{prefix}{id}\">{cells}</tr>\n")
    });
    let rows: String = rows.collect();
    match rows.is_empty() {
        true => cause(findings.cause.as_ref()),
        false => {
            let headings = headings.map(str::to_string);
            "<h3>Every line that is a reason</h3>\n".to_string()
                + &table("stacked", &headings, &rows)
        }
    }
}

fn run(findings: &Findings, prefix: &str) -> String {
    let Some(said) = answers::run(findings) else {
        return String::new();
    };
    let ran = findings.answered.ran.as_ref();
    let variables = findings
        .outcome()
        .into_iter()
        .flat_map(|ran| ran.variables());
    let variables: Vec<String> = variables
        .map(|variable| format!("{} = {}", variable.name, variable.value))
        .collect();
    let variables = match variables.is_empty() {
        true => String::new(),
        false => format!(
            "<p>Main's variables: <code id=\"{prefix}variables\">{}</code></p>\n",
            escaped(&variables.join(", "))
        ),
    };
    format!(
        "<h3>The run</h3>\n<p>Of <span id=\"{prefix}allowed\">{}</span> allowed steps: \
         <span id=\"{prefix}run\">{}</span></p>\n{}{variables}",
        grouped(findings.allowed.into()),
        html(&said, prefix),
        cause(ran.and_then(|ran| ran.cause.as_ref()))
    )
}

/// Question 2: the bound and its route, or each line that leaves none; the run.
pub fn finishes(findings: &Findings, prefix: &str) -> String {
    let inner = answer(&answers::finishes(findings), "bound", prefix)
        + &route(findings, prefix)
        + &reasons(findings, prefix)
        + &run(findings, prefix);
    let question = "2. If it does not finish, which line is the reason?";
    section(&format!("{prefix}question-2"), question, &inner)
}

/// Question 3.
pub fn learns(findings: &Findings, prefix: &str) -> String {
    let inner = answer(&answers::learns(findings), "learns", prefix);
    let question = "3. Can it learn what it was not handed?";
    section(&format!("{prefix}question-3"), question, &inner)
}

pub fn stops(findings: &Findings, prefix: &str) -> String {
    let headings = ["stop", "can it come", "on what that rests"];
    let rows = stops::rows(findings).into_iter().map(|row| {
        let (number, id) = (row.stop.number(), stop_id(row.stop));
        let basis = format!("{}: {}", row.basis.word(), html(&row.basis.said(), prefix));
        let cells = [
            cell(headings[0], &format!("{number}: {}", coded(title(number)))),
            cell(headings[1], &html(&row.verdict.said(), prefix)),
            cell(headings[2], &basis),
        ];
        format!("<tr id=\"{prefix}{id}\">{}</tr>\n", cells.concat())
    });
    let rows: String = rows.collect();
    let inner = table("stacked", &headings.map(str::to_string), &rows);
    section(&format!("{prefix}stops"), "Stops of a run", &inner)
}

pub fn assumed(prefix: &str) -> String {
    let rows: String = ASSUMED
        .iter()
        .map(|assumed| {
            let (what, link) = (escaped(assumed.what), assumed.link());
            format!("<li>{what} <a href=\"{link}\">{link}</a></li>\n")
        })
        .collect();
    let inner = format!("<ol>\n{rows}</ol>\n");
    section(&format!("{prefix}assumed"), "What is assumed", &inner)
}
