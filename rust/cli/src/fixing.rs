//! `station fix`: the text with every fix that was found, printed, written or only
//! told.

use crate::files;
use crate::session::{Session, Status, Summary};
use crate::table::Flag;
use explain::cause::agreed;
use explain::fix::{fix, Fix, WHOLE};
use explain::{objects, show, Answers, Json};
use std::ffi::OsStr;

/// What a person reads of a fix.
fn told(file: &str, fix: &Fix) -> String {
    let mut out = String::new();
    for step in &fix.steps {
        show::wrapped(&mut out, &format!("{file}: "), step);
    }
    let end = match fix.answer {
        (0, _) => "accepted after this".to_string(),
        (number, 0) => format!("refused after this, number {number}"),
        (number, line) => format!("refused after this, number {number} at line {line}"),
    };
    out + &format!("{file}: {end}\n")
}

fn object(file: &str, text: &[u8], accepted: bool, fix: Option<&Fix>, output: bool) -> Json {
    let answer = fix.map(|fix| fix.answer);
    let fixed = fix.filter(|_| output);
    let fixed = fixed.map(|fix| String::from_utf8_lossy(&fix.text).into_owned());
    Json::object()
        .with("file", file)
        .with("call", "fix")
        .with(
            "accepted",
            accepted || answer.is_some_and(|answer| answer.0 == 0),
        )
        .with("changed", fix.is_some())
        .with_some("number", answer.map(|answer| answer.0))
        .with_some("line", answer.map(|answer| answer.1))
        .with("steps", fix.map_or_else(Vec::new, |fix| fix.steps.clone()))
        .with(
            "edits",
            fix.map_or(Json::List(Vec::new()), |fix| objects::edits(text, fix)),
        )
        .with_some("output", fixed)
}

/// `station fix`.
pub fn fix_all(session: &mut Session) -> Status {
    let told = session.words.has(Flag::Check) || session.words.has(Flag::Write);
    let summary = match session.words.has(Flag::Check) {
        true => Summary::new("need no fix", "need one"),
        false => Summary::new("accepted", "still refused"),
    };
    session.each(summary.aside(!told), fix_one)
}

/// One file.
fn fix_one(session: &mut Session, name: &OsStr, text: &[u8]) -> Status {
    let shown = show::file_name(name);
    let accepted = session.library.check(text).is_ok();
    let found = fix(text, WHOLE).filter(|_| !accepted);
    let found = found.filter(|fix| agreed(&mut session.library, fix));
    let (checks, writes) = (
        session.words.has(Flag::Check),
        session.words.has(Flag::Write),
    );
    if let Some(fix) = found.as_ref().filter(|_| writes && name != "-") {
        if let Err(error) = files::replace(name.as_ref(), &fix.text) {
            session.unread(name, &error);
            return Status::Failed;
        }
    }
    let prints = !checks && (!writes || name == "-");
    if session.json() {
        session.print_json(&object(&shown, text, accepted, found.as_ref(), prints));
    } else if prints {
        let better = found.as_ref().map_or(text, |fix| &fix.text);
        session.out.write(better);
        tell(&shown, accepted, found.as_ref());
    } else {
        let said = said(&shown, accepted, found.as_ref());
        session.print(&said);
    }
    let good = accepted || found.as_ref().is_some_and(Fix::accepted);
    match good && !(checks && found.is_some()) {
        true => Status::Done,
        false => Status::Refused,
    }
}

fn said(file: &str, accepted: bool, fix: Option<&Fix>) -> String {
    match fix {
        Some(fix) => told(file, fix),
        None if accepted => format!("{file}: accepted, nothing to fix\n"),
        None => format!("{file}: refused, and no fix was found; `station check` says why\n"),
    }
}

/// What was done, beside a text on standard output.
fn tell(file: &str, accepted: bool, fix: Option<&Fix>) {
    if !accepted {
        eprint!("{}", said(file, accepted, fix));
    }
}
