//! The commands that look into a text: trace, known and bound.

use crate::files::{complain, is_folder};
use crate::session::{status, Session, Status, Summary};
use crate::table::Flag;
use explain::known::{self, Known};
use explain::script::{quoted, Script};
use explain::show::{self, file_name};
use explain::{cards, trace, Asked, Bounded, Report};
use std::ffi::{OsStr, OsString};

/// `station trace`, one file.
pub fn trace_one(session: &mut Session, name: &OsStr, text: &[u8]) -> Status {
    let shown = file_name(name);
    let asked = session.shown_run();
    let report = session.report(&shown, text, asked);
    let cards = report
        .ran
        .as_ref()
        .filter(|_| session.words.has(Flag::Cards));
    let cards = cards.and_then(|ran| cards::after(text, ran.outcome.steps()));
    if session.json() {
        let object = trace::json(&report);
        session.print_json(&object.with_some("cards", cards.map(|cards| cards.json())));
        return status(&report);
    }
    session.print(&show::head(&report, session.paint));
    if let (Some(script), Some(ran)) = (Script::of(text), &report.ran) {
        trace::each(&script, ran.outcome.steps(), |row| {
            session.print(&trace::shown_row(row));
            true
        });
    }
    session.print(&show::ending(&report, session.paint));
    session.print(&cards.map_or(String::new(), |cards| cards.table()));
    status(&report)
}

/// `station bound`, one file.
pub fn bound_one(session: &mut Session, name: &OsStr, text: &[u8]) -> Status {
    let shown = file_name(name);
    let why = session.words.has(Flag::Why);
    let bounded = Bounded::of(&mut session.library, &shown, text, why);
    match session.json() {
        true => session.print_json(&bounded.json()),
        false => session.print(&bounded.shown(session.paint)),
    }
    match bounded.found {
        Ok(_) => Status::Done,
        Err(_) => Status::Refused,
    }
}

/// The name and line of `FILE:LINE`; a file of the whole name comes first.
fn file_and_line(word: &OsStr) -> (OsString, Option<u32>) {
    let whole = (word.to_os_string(), None);
    if std::path::Path::new(word).exists() {
        return whole;
    }
    let Some((name, line)) = word.to_str().and_then(|word| word.rsplit_once(':')) else {
        return whole;
    };
    match line.parse() {
        Ok(line) => (name.into(), Some(line)),
        Err(_) => whole,
    }
}

/// What is found, printed.
fn print_known(
    session: &mut Session,
    script: &Script,
    report: &Report,
    found: &[Known],
    one: bool,
) {
    if session.json() {
        session.print_json(&known::json(script, report, found));
    } else if let (true, [known]) = (one, found) {
        let line = quoted(script.text, known.line);
        let head = format!("{}:{}: {line}\n", report.file, known.line);
        session.print(&(head + &known::full(script, known)));
    } else {
        session.print(&known::changes(script, found, report, session.paint));
    }
}

/// `station known`, each file.
pub fn known(session: &mut Session) -> Status {
    let mut tally = session.tally(Summary::new("accepted", "refused"));
    for word in session.scripts() {
        let (name, line) = file_and_line(&word);
        let status = if line.is_some() && is_folder(&name) {
            let shown = file_name(&name);
            complain(&format!("{shown} is a folder; a line is one of a file"));
            Status::Failed
        } else {
            match session.text(&name) {
                Some(text) => known_one(session, &name, &text, line),
                None => Status::Failed,
            }
        };
        tally.note(status);
    }
    session.summed_up(&tally)
}

fn known_one(session: &mut Session, name: &OsStr, text: &[u8], line: Option<u32>) -> Status {
    let shown = file_name(name);
    let report = session.report(&shown, text, Asked::Check);
    // What is known around a line that is not finished.
    let patched = explain::all::readable(text);
    let Some(script) = Script::of(patched.as_deref().unwrap_or(text)) else {
        session.print_report(&report);
        return Status::Refused;
    };
    let found = match line {
        Some(line) => known::at(&script, line).into_iter().collect(),
        None => known::all(&script),
    };
    if found.is_empty() && known::all(&script).is_empty() {
        session.print_report(&report);
        return Status::Refused;
    }
    if found.is_empty() {
        let line = line.unwrap_or(0);
        complain(&format!(
            "{shown} has no statement at line {line} or after it"
        ));
        return Status::Failed;
    }
    print_known(session, &script, &report, &found, line.is_some());
    status(&report)
}
