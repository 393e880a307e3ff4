//! `station fill`: the line `requires *` of a text with the permissions that it
//! stands for, printed, or written in the star's place.

use crate::files::{self, complain};
use crate::session::{status, Session, Status, Summary};
use crate::table::Flag;
use explain::{objects, show, Asked, Filling, Json};
use nuyardi::limits::TEXT_BYTES;
use nuyardi::Filled;
use std::ffi::OsStr;

/// `station fill`.
pub fn fill(session: &mut Session) -> Status {
    session.each(Summary::new("filled in", "not filled in"), fill_one)
}

/// One file.
fn fill_one(session: &mut Session, name: &OsStr, text: &[u8]) -> Status {
    let shown = show::file_name(name);
    let filling = Filling::of(&mut session.library, &shown, text);
    match filling.found {
        Ok(filled) if session.words.has(Flag::Write) => write(session, name, &filling, &filled),
        found => {
            told(session, &filling, true);
            if let Some(note) = filling.note() {
                complain(&format!("{shown}: {note}"));
            }
            Status::of(found.is_ok())
        }
    }
}

/// The line, or why there is none.
fn told(session: &mut Session, filling: &Filling, output: bool) {
    match session.json() {
        true => session.print_json(&filling.json(output)),
        false => session.print(&filling.shown(session.paint)),
    }
}

/// `--write`: the file again, whole or not at all; standard input is printed whole. A
/// text that is then too long is refused as check refuses it.
fn write(session: &mut Session, name: &OsStr, filling: &Filling, filled: &Filled) -> Status {
    let whole = filled.text();
    if whole.len() > TEXT_BYTES {
        return refused(session, name, &whole);
    }
    if name == "-" {
        match session.json() {
            true => told(session, filling, true),
            false => session.out.write(&whole),
        }
        return Status::Done;
    }
    if let Err(error) = files::replace(name.as_ref(), &whole) {
        session.unread(name, &error);
        return Status::Failed;
    }
    told(session, filling, false);
    Status::Done
}

/// Check's answer to the text that is filled in, which is not written.
fn refused(session: &mut Session, name: &OsStr, whole: &[u8]) -> Status {
    let shown = show::file_name(name);
    let report = session.report(&shown, whole, Asked::Check);
    let number = report.refusal.map_or(0, |refusal| refusal.number());
    match session.json() {
        true => {
            let object = Json::object().with("file", &*shown).with("call", "fill");
            let object = objects::check(object.with("filled", false), &report);
            session.print_json(&objects::words(object, number));
        }
        false => session.print(&show::report(&report, session.paint)),
    }
    status(&report)
}
