//! `station new`: a first script, in a file that is not there yet.

use crate::files::{complain, complain_of, Unread};
use crate::session::{Session, Status};
use explain::show::file_name;
use std::ffi::OsStr;
use std::fs::OpenOptions;
use std::io::{Error, ErrorKind, Result, Write};
use std::path::Path;

/// The guide's script with a class, a method and its contract.
const FIRST: &[u8] = include_bytes!("../../../examples/tag.script");

/// The end of the names of scripts, by which folders and editors know them.
const END: &str = "script";

/// Writes the script; nothing is left where that fails.
fn written(file: &Path) -> Result<()> {
    let mut options = OpenOptions::new();
    let mut out = options.write(true).create_new(true).open(file)?;
    let done = out.write_all(FIRST).and_then(|()| out.sync_all());
    if done.is_err() {
        let _ = std::fs::remove_file(file);
    }
    done
}

/// Why the file was not written.
fn refused(file: &OsStr, error: Error) -> Status {
    match error.kind() {
        ErrorKind::AlreadyExists => {
            let shown = file_name(file);
            complain(&format!("{shown} is there already; name another file"));
        }
        _ => complain_of(file, &Unread::System(error)),
    }
    Status::Failed
}

/// The command.
pub fn new(session: &mut Session) -> Status {
    let file = session.words.operand().to_os_string();
    if file == "-" {
        session.out.write(FIRST);
        return Status::Done;
    }
    if let Err(error) = written(Path::new(&file)) {
        return refused(&file, error);
    }
    let shown = file_name(&file);
    session.print(&format!(
        "{shown}: written; `station run {shown}` runs it\n"
    ));
    if Path::new(&file).extension() != Some(OsStr::new(END)) {
        let note = "folders and editors know scripts by names that end in .script";
        complain(&format!("{shown}: {note}"));
    }
    Status::Done
}
