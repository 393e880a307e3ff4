//! `station fmt`: a text in its form, printed, written or only told.

use crate::files::{self, Unread};
use crate::session::{Session, Status, Summary};
use crate::table::Flag;
use explain::{fmt, show, Json};
use std::ffi::OsStr;

/// `station fmt`.
pub fn fmt(session: &mut Session) -> Status {
    let told = session.words.has(Flag::Check) || session.words.has(Flag::Write);
    let summary = match session.words.has(Flag::Check) {
        true => Summary::new("in form", "not in form"),
        false => Summary::new("formatted", "not formatted"),
    };
    session.each(summary.aside(!told), fmt_one)
}

/// `1 line`, `2 lines`.
fn counted(count: usize, what: &str) -> String {
    let end = if count == 1 { "" } else { "s" };
    format!("{count} {what}{end}")
}

/// What the form changes in a text, in these words.
fn changes(text: &[u8], change: &str, drop: &str) -> String {
    let fmt::Changes { lines, dropped } = fmt::changes(text);
    let lines = (lines > 0).then(|| format!("{} {change}", counted(lines, "line")));
    let dropped = (dropped > 0).then(|| format!("{} {drop}", counted(dropped, "empty line")));
    let all: Vec<String> = lines.into_iter().chain(dropped).collect();
    match all.is_empty() {
        true => format!("a byte order mark {drop}"),
        false => all.join(", "),
    }
}

/// What is said of a file that is checked or written.
fn said(session: &Session, file: &str, text: &[u8], same: bool) -> String {
    let writes = session.words.has(Flag::Write);
    match (writes, same) {
        (true, true) => format!("{file}: not changed\n"),
        (true, false) => {
            let changes = changes(text, "changed", "dropped");
            format!("{file}: written: {changes}\n")
        }
        (false, true) => String::new(),
        (false, false) => {
            let changes = changes(text, "to change", "to drop");
            format!("{file}: not in its form: {changes}\n")
        }
    }
}

/// One file.
fn fmt_one(session: &mut Session, name: &OsStr, text: &[u8]) -> Status {
    let shown = show::file_name(name);
    if text.len() > nuyardi::limits::TEXT_BYTES {
        session.unread(name, &Unread::TooLong);
        return Status::Refused;
    }
    let better = fmt::formatted(text);
    let same = better == text;
    let checks = session.words.has(Flag::Check);
    let writes = session.words.has(Flag::Write) && name != "-";
    if writes && !same {
        if let Err(error) = files::replace(name.as_ref(), &better) {
            session.unread(name, &error);
            return Status::Failed;
        }
    }
    if session.json() {
        let text = String::from_utf8_lossy(&better).into_owned();
        let output = !checks && !session.words.has(Flag::Write);
        let object = Json::object()
            .with("file", shown)
            .with("call", "fmt")
            .with("changed", !same)
            .with_some("output", output.then_some(text));
        session.print_json(&object);
    } else if checks || writes {
        let said = said(session, &shown, text, same);
        session.print(&said);
    } else {
        session.out.write(&better);
    }
    Status::of(!checks || same)
}
