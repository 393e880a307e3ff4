//! A file written whole or not at all.

use std::fs::{self, OpenOptions};
use std::io::{Error, ErrorKind, Result, Write};
use std::path::{Path, PathBuf};

/// The folder that a file is in.
fn folder(file: &Path) -> &Path {
    let parent = file
        .parent()
        .filter(|parent| !parent.as_os_str().is_empty());
    parent.unwrap_or(Path::new("."))
}

/// The file that a name stands for; links are followed.
fn target(file: &Path) -> Result<PathBuf> {
    match fs::canonicalize(file) {
        Ok(there) => Ok(there),
        Err(_) if folder(file).is_dir() => Ok(file.to_path_buf()),
        Err(error) if error.kind() == ErrorKind::NotFound => {
            let folder = folder(file).display();
            Err(Error::other(format!(
                "there is no folder {folder}; make it first"
            )))
        }
        Err(error) => Err(error),
    }
}

/// Writes the text to a new file, which then takes the place of the other. A pipe
/// or a device is written to.
pub fn write(file: &Path, text: &[u8]) -> Result<()> {
    let file = &target(file)?;
    let old = fs::metadata(file).ok();
    if file.is_dir() {
        return Err(Error::other("a folder; name a file"));
    }
    if old.as_ref().is_some_and(|old| !old.is_file()) {
        return OpenOptions::new().write(true).open(file)?.write_all(text);
    }
    let fresh = folder(file).join(format!(".station-{}", std::process::id()));
    let written = OpenOptions::new()
        .write(true)
        .create_new(true)
        .open(&fresh)
        .and_then(|mut out| {
            out.write_all(text)?;
            if let Some(old) = old {
                out.set_permissions(old.permissions())?;
            }
            out.sync_all()
        })
        .and_then(|()| fs::rename(&fresh, file));
    if written.is_err() {
        let _ = fs::remove_file(&fresh);
    }
    written
}
