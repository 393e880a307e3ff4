//! Files: their bytes, the scripts of a folder, and where output goes.

use explain::show::file_name;
use std::ffi::{OsStr, OsString};
use std::fmt;
use std::io::{ErrorKind, IsTerminal, Read, Write};
use std::path::{Path, PathBuf};

/// A text, or one byte more than a text may have.
const READ_BYTES: u64 = nuyardi::limits::TEXT_BYTES as u64 + 1;

/// Why a file can't be read or written.
#[derive(Debug)]
pub enum Unread {
    System(std::io::Error),
    /// A folder without a script.
    Folder,
    /// More bytes than a text may have, where the rest would be lost.
    TooLong,
}

impl From<std::io::Error> for Unread {
    fn from(error: std::io::Error) -> Unread {
        Unread::System(error)
    }
}

impl fmt::Display for Unread {
    fn fmt(&self, f: &mut fmt::Formatter<'_>) -> fmt::Result {
        match self {
            Unread::System(error) => write!(f, "{error}"),
            Unread::Folder => {
                write!(f, "a folder with no file that ends in .script")
            }
            Unread::TooLong => {
                let most = nuyardi::limits::TEXT_BYTES;
                write!(f, "more than {most} bytes; nothing is changed")
            }
        }
    }
}

/// The bytes of a file, or of standard input for `-`; at most one more than a
/// text may have.
pub fn read(name: &OsStr) -> Result<Vec<u8>, Unread> {
    let mut text = Vec::new();
    if name == "-" {
        std::io::stdin()
            .lock()
            .take(READ_BYTES)
            .read_to_end(&mut text)?;
    } else if Path::new(name).is_dir() {
        return Err(Unread::Folder);
    } else {
        std::fs::File::open(name)?
            .take(READ_BYTES)
            .read_to_end(&mut text)?;
    }
    Ok(text)
}

/// Folders below a folder are looked into this deep.
const DEPTH: usize = 32;

/// The files that end in `.script` below a folder, in order. Links to folders
/// are not followed.
fn scripts(folder: &Path, depth: usize, found: &mut Vec<PathBuf>) -> std::io::Result<()> {
    let mut entries: Vec<_> = std::fs::read_dir(folder)?.collect::<Result<_, _>>()?;
    entries.sort_by_key(std::fs::DirEntry::file_name);
    for entry in entries {
        let path = entry.path();
        if entry.file_type()?.is_dir() {
            if depth > 0 {
                scripts(&path, depth - 1, found)?;
            }
        } else if path.extension().is_some_and(|end| end == "script") {
            found.push(path);
        }
    }
    Ok(())
}

/// Is it the name of a folder?
pub fn is_folder(name: &OsStr) -> bool {
    name != "-" && Path::new(name).is_dir()
}

/// Each folder replaced by its scripts; what can't be read stays, and fails
/// when it is read.
pub fn expanded(names: &[OsString]) -> Vec<OsString> {
    let mut all = Vec::new();
    for name in names {
        let mut found = Vec::new();
        let path = Path::new(name);
        if is_folder(name) && scripts(path, DEPTH, &mut found).is_ok() && !found.is_empty() {
            all.extend(found.into_iter().map(PathBuf::into_os_string));
        } else {
            all.push(name.clone());
        }
    }
    all
}

/// A name beside the file for its new text.
fn beside(file: &Path) -> PathBuf {
    let mut name = file.file_name().unwrap_or_default().to_os_string();
    name.push(format!(".station-{}", std::process::id()));
    file.with_file_name(name)
}

/// Writes the file again: the new text stands whole beside it before it takes
/// its place, so that at no time the file is lost. A link is followed, and the
/// file keeps its permissions.
pub fn replace(file: &Path, text: &[u8]) -> Result<(), Unread> {
    let file = std::fs::canonicalize(file)?;
    let fresh = beside(&file);
    let written = std::fs::OpenOptions::new()
        .write(true)
        .create_new(true)
        .open(&fresh)
        .and_then(|mut out| {
            out.write_all(text)?;
            out.set_permissions(std::fs::metadata(&file)?.permissions())?;
            out.sync_all()
        })
        .and_then(|()| std::fs::rename(&fresh, &file));
    if written.is_err() {
        let _ = std::fs::remove_file(&fresh);
    }
    Ok(written?)
}

/// Standard output. When its reader has gone away, nothing more is written, and
/// the status stays what it would be.
#[derive(Default)]
pub struct Out {
    closed: bool,
    /// Another error, which is told once.
    pub failed: bool,
}

impl Out {
    pub fn write(&mut self, bytes: &[u8]) {
        if self.closed || self.failed {
            return;
        }
        let mut out = std::io::stdout().lock();
        match out.write_all(bytes).and_then(|()| out.flush()) {
            Ok(()) => {}
            Err(error) if error.kind() == ErrorKind::BrokenPipe => self.closed = true,
            Err(error) => {
                self.failed = true;
                complain(&format!("standard output: {error}"));
            }
        }
    }
}

/// A message for the person on standard error; nothing is done if that fails.
pub fn complain(message: &str) {
    let _ = writeln!(std::io::stderr(), "station: {message}");
}

/// A file that can't be read or written.
pub fn complain_of(name: &OsStr, error: &Unread) {
    complain(&format!("{}: {error}", file_name(name)));
}

/// Is colour wanted, if the words of the command leave it open?
pub fn colour_wanted() -> bool {
    std::io::stdout().is_terminal()
        && std::env::var_os("NO_COLOR").is_none_or(|value| value.is_empty())
        && std::env::var_os("TERM").is_none_or(|value| value != "dumb")
}
