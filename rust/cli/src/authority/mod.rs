//! `station report`: what the licensing authority asks of a script, in one report.
//! Can it alter a card that it was not handed; if it does not finish, which line
//! is the reason; can it learn what it was not handed? As text, as JSON, and as a
//! page.

mod answers;
mod claims;
mod counts;
mod film;
mod findings;
mod handed;
mod html;
pub mod identity;
mod index;
mod methods;
mod object;
mod page;
mod proved;
mod reasons;
mod said;
mod sections;
mod sha256;
mod slides;
mod source;
mod stops;
#[cfg(test)]
mod tests;
mod text;
pub mod write;

use crate::files::{self, complain, complain_of, Unread};
use crate::misuse::Misuse;
use crate::progress::Progress;
use crate::session::{Session, Status};
use crate::table::Flag;
use explain::objects;
use explain::show::file_name;
use findings::Findings;
use index::{total, Entry};
use std::ffi::{OsStr, OsString};
use std::path::Path;

/// A file by its name for messages, and its text.
type File = (String, Result<Vec<u8>, Unread>);

/// Is the page one of the scripts?
fn takes_place_of_a_script(page: &OsStr, scripts: &[OsString]) -> bool {
    let same = |path: &OsStr| std::fs::canonicalize(path).ok();
    let page = same(page);
    page.is_some() && scripts.iter().any(|script| same(script) == page)
}

/// May the page stand there?
fn fits(session: &Session, page: &OsStr, scripts: &[OsString]) -> Result<(), Misuse> {
    if page == "-" && session.json() {
        return Err(Misuse::OnePlace);
    }
    match takes_place_of_a_script(page, scripts) {
        true => Err(Misuse::PageOverScript(page.to_os_string())),
        false => Ok(()),
    }
}

/// Reads each file; what can't be read is told.
fn read(names: &[OsString]) -> Vec<File> {
    let one = |name: &OsString| {
        let text = files::read(name);
        if let Err(error) = &text {
            complain_of(name, error);
        }
        (file_name(name), text)
    };
    names.iter().map(one).collect()
}

/// Looks into each text.
fn entries<'a>(session: &mut Session, files: &'a [File]) -> Vec<Entry<'a>> {
    let steps = session
        .words
        .has(Flag::Steps)
        .then_some(session.words.steps);
    let time = (!session.words.has(Flag::NoTime)).then(identity::now);
    let library = &mut session.library;
    let one = |(file, text): &'a File| match text {
        Ok(text) => {
            let _progress = Progress::start(steps.unwrap_or_default());
            let findings = Findings::of(library, file, text, steps, time.clone());
            Entry::Found(Box::new(findings))
        }
        Err(error) => Entry::Unread {
            file: file.clone(),
            error: error.to_string(),
        },
    };
    files.iter().map(one).collect()
}

/// The worst of all: a file that can't be read, a text that is refused.
fn status(entries: &[Entry]) -> Status {
    let one = |entry: &Entry| match entry {
        Entry::Found(findings) if findings.refusal().is_none() => Status::Done,
        Entry::Found(_) => Status::Refused,
        Entry::Unread { .. } => Status::Failed,
    };
    entries.iter().map(one).max().unwrap_or(Status::Done)
}

fn print(session: &mut Session, entries: &[Entry], indexed: bool) {
    if indexed && !session.json() {
        let index = text::index(entries);
        session.print(&format!("{index}{}\n", total(entries)));
    }
    for entry in entries {
        match (entry, session.json()) {
            (Entry::Found(findings), true) => session.print_json(&object::report(findings)),
            (Entry::Unread { file, error }, true) => {
                session.print_json(&objects::unread(file, error));
            }
            (Entry::Found(findings), false) => {
                let space = if indexed { "\n" } else { "" };
                session.print(&format!("{space}{}", text::report(findings)));
            }
            (Entry::Unread { .. }, false) => {}
        }
    }
}

/// Writes the page, whole or not at all.
fn write_page(session: &mut Session, page: &OsStr, entries: &[Entry], indexed: bool) -> Status {
    if !entries.iter().any(|entry| matches!(entry, Entry::Found(_))) {
        complain("no script was read, and no page is written");
        return Status::Failed;
    }
    let made = page::page(entries, indexed);
    if page == "-" {
        session.print(&made);
        return Status::Done;
    }
    if let Err(error) = write::write(Path::new(page), made.as_bytes()) {
        complain(&format!("{}: {error}; no page is written", file_name(page)));
        return Status::Failed;
    }
    if !session.json() {
        session.print(&format!("{}: {}\n", file_name(page), total(entries)));
    }
    Status::Done
}

/// The command.
pub fn report(session: &mut Session) -> Status {
    let operands = std::mem::take(&mut session.words.operands);
    let names = files::expanded(&operands);
    let indexed = names.len() > 1 || operands.iter().any(|name| Path::new(name).is_dir());
    let page = session.words.html.take();
    if let Some(Err(misuse)) = page.as_deref().map(|page| fits(session, page, &names)) {
        return session.misused(&misuse);
    }
    let files = read(&names);
    let entries = entries(session, &files);
    let worst = status(&entries);
    if page.is_none() || session.json() {
        print(session, &entries, indexed);
    }
    let written = page.map(|page| write_page(session, &page, &entries, indexed));
    worst.max(written.unwrap_or(Status::Done))
}
