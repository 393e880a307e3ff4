//! The commands that check, run and explain.

use crate::args::number_of;
use crate::authority::identity::build;
use crate::completions::{self, Shell};
use crate::files::complain;
use crate::misuse::Misuse;
use crate::session::{status, Session, Status};
use crate::table::Flag;
use explain::{cards, cause, objects, show, Asked, Json};
use std::ffi::OsStr;

/// `station check`, one file.
pub fn check_one(session: &mut Session, name: &OsStr, text: &[u8]) -> Status {
    let shown = show::file_name(name);
    let mut report = session.report(&shown, text, Asked::Check);
    if session.words.has(Flag::First) {
        report.further.clear();
    }
    if session.words.has(Flag::Warn) {
        report = report.warned(&mut session.library);
    }
    if session.json() {
        session.print_json(&objects::report(&report));
    } else if session.words.has(Flag::Short) {
        session.print(&show::short(&report));
    } else if !(report.good() && session.quiet()) {
        session.print(&show::report(&report, session.paint));
    } else {
        session.print(&show::warnings(&report, session.paint));
    }
    status(&report)
}

/// `station run` and `station trial`, one file.
pub fn run_one(session: &mut Session, name: &OsStr, text: &[u8], asked: Asked) -> Status {
    let shown = show::file_name(name);
    let report = session.report(&shown, text, asked);
    let cards = report
        .ran
        .as_ref()
        .filter(|_| session.words.has(Flag::Cards));
    let cards = cards.and_then(|ran| cards::after(text, ran.outcome.steps()));
    if cards.is_none() && session.words.has(Flag::Cards) && report.ran.is_some() {
        let most = cause::AGAIN;
        complain(&format!("cards are shown after at most {most} steps"));
    }
    if session.json() {
        let object = objects::report(&report);
        let object = object.with_some("cards", cards.map(|cards| cards.json()));
        session.print_json(&object);
    } else {
        session.print(&show::report(&report, session.paint));
        if let Some(cards) = cards {
            session.print(&cards.table());
        }
    }
    status(&report)
}

/// `station explain`.
pub fn explain(session: &mut Session) -> Status {
    let word = session.words.operand();
    let Some(known) = number_of(word).and_then(nuyardi::explain) else {
        return session.misused(&Misuse::Number(word.to_os_string()));
    };
    match session.json() {
        true => session.print_json(&objects::explanation(known)),
        false => session.print(&show::explanation(known, session.paint)),
    }
    Status::Done
}

/// `station completions`.
pub fn completions(session: &mut Session) -> Status {
    let word = session.words.operand();
    let Some(shell) = Shell::of(word) else {
        return session.misused(&Misuse::Shell(word.to_os_string()));
    };
    session.print(&completions::completions(shell));
    Status::Done
}

/// `station --version`: which command this is; as JSON also which library it was
/// linked with, and by which logic that was proved.
pub fn version(session: &mut Session) -> Status {
    match session.json() {
        true => session.print_json(&build(Json::object())),
        false => session.print(concat!("station ", env!("CARGO_PKG_VERSION"), "\n")),
    }
    Status::Done
}
