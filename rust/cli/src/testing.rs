//! `station test`: does each script get the answers that stand in the file
//! NAME.expected beside it? For courses.

mod expected;

use crate::authority::write;
use crate::files::{complain, Unread};
use crate::misuse::Misuse;
use crate::session::{Session, Status, Summary};
use crate::table::Flag;
use expected::{answers, differences, lines, Difference};
use explain::show::file_name;
use explain::{objects, Json};
use std::ffi::OsStr;
use std::io::Read;
use std::path::{Path, PathBuf};

/// The end of the names of files with expected answers.
const END: &str = "expected";

/// More than any answer has.
const READ_BYTES: u64 = 65_536;

/// The command.
pub fn test(session: &mut Session) -> Status {
    if session.words.operands.iter().any(|name| name == "-") {
        return session.misused(&Misuse::NoCompanion);
    }
    match session.words.has(Flag::Write) {
        true => session.each(Summary::new("written", "not written"), write_one),
        false => session.each(Summary::new("as expected", "not as expected"), test_one),
    }
}

/// The file beside a script.
fn beside(script: &OsStr) -> PathBuf {
    Path::new(script).with_extension(END)
}

/// The text of the file; else why there is none.
fn read(file: &Path) -> Result<String, String> {
    let mut text = String::new();
    let opened = std::fs::File::open(file);
    let read = opened.and_then(|opened| opened.take(READ_BYTES).read_to_string(&mut text));
    match read {
        Ok(_) => Ok(text),
        Err(error) if error.kind() == std::io::ErrorKind::NotFound => Err(format!(
            "{error}; `station test --write` writes the answers that the script gets now"
        )),
        Err(error) => Err(error.to_string()),
    }
}

/// A file with expected answers that can't be used.
fn unusable(session: &mut Session, script: &str, why: &str) -> Status {
    if session.json() {
        session.print_json(&objects::unread(script, why));
    }
    complain(why);
    Status::Failed
}

fn object(script: &str, found: &[Difference]) -> Json {
    let found = found.iter().map(|one| {
        Json::object()
            .with("expected", one.expected.as_str())
            .with("answered", one.answered.clone())
    });
    Json::object()
        .with("file", script)
        .with("call", "test")
        .with("passed", found.len() == 0)
        .with("differences", Json::List(found.collect()))
}

fn told(script: &str, found: &[Difference]) -> String {
    if found.is_empty() {
        return format!("{script}: as expected\n");
    }
    let rows = found.iter().map(|one| {
        let answered = one.answered.as_deref().unwrap_or("nothing of it");
        format!("  expected: {}\n  answered: {answered}\n", one.expected)
    });
    let rows: String = rows.collect();
    format!("{script}: not as expected\n{rows}")
}

/// One script.
fn test_one(session: &mut Session, name: &OsStr, text: &[u8]) -> Status {
    let (script, file) = (file_name(name), beside(name));
    let shown = file_name(file.as_os_str());
    let wanted = read(&file).and_then(|text| lines(&text));
    let wanted = match wanted {
        Ok(wanted) => wanted,
        Err(why) => return unusable(session, &script, &format!("{shown}: {why}")),
    };
    let steps = session.words.steps;
    let found = differences(&wanted, &answers(&mut session.library, text, steps));
    let good = found.is_empty();
    if session.json() {
        session.print_json(&object(&script, &found));
    } else if !(good && session.quiet()) {
        session.print(&told(&script, &found));
    }
    Status::of(good)
}

/// `--write`: the answers that the script gets now.
fn write_one(session: &mut Session, name: &OsStr, text: &[u8]) -> Status {
    let file = beside(name);
    if file == Path::new(name) {
        let why = "its own name ends in .expected";
        return unusable(
            session,
            &file_name(name),
            &format!("{}: {why}", file_name(name)),
        );
    }
    let steps = session.words.steps;
    let lines = answers(&mut session.library, text, steps);
    let text: String = lines.iter().map(|line| format!("{line}\n")).collect();
    let same = std::fs::read(&file).is_ok_and(|old| old == text.as_bytes());
    let written = match same {
        true => Ok(()),
        false => write::write(&file, text.as_bytes()),
    };
    if let Err(error) = written {
        session.unread(file.as_os_str(), &Unread::System(error));
        return Status::Failed;
    }
    let shown = file_name(file.as_os_str());
    if session.json() {
        let object = Json::object().with("file", shown).with("call", "test");
        session.print_json(&object.with("changed", !same).with("output", text));
    } else if same {
        session.print(&format!("{shown}: not changed\n"));
    } else {
        session.print(&format!("{shown}: written\n"));
    }
    Status::Done
}
