//! The command, started as people and programs start it.
#![allow(dead_code)]

use std::io::Write;
use std::path::{Path, PathBuf};
use std::process::{Command, Output, Stdio};

pub fn root() -> PathBuf {
    Path::new(env!("CARGO_MANIFEST_DIR")).join("../..")
}

/// The command with these words, in the repository's root.
pub fn command(words: &[&str]) -> Command {
    let mut command = Command::new(env!("CARGO_BIN_EXE_station"));
    command
        .args(words)
        .current_dir(root())
        .env_remove("NO_COLOR")
        .stdin(Stdio::piped())
        .stdout(Stdio::piped())
        .stderr(Stdio::piped());
    command
}

pub fn station(words: &[&str], input: &[u8]) -> Output {
    let mut child = command(words).spawn().expect("station starts");
    // A program that reads nothing may be gone before all is written.
    let _ = child.stdin.take().expect("its input").write_all(input);
    child.wait_with_output().expect("station ends")
}

/// Standard output, standard error and status.
pub fn said(words: &[&str], input: &[u8]) -> (String, String, i32) {
    let output = station(words, input);
    let text = |bytes| String::from_utf8(bytes).expect("UTF-8");
    let status = output.status.code().expect("a status");
    (text(output.stdout), text(output.stderr), status)
}

pub fn status(words: &[&str], input: &[u8]) -> i32 {
    said(words, input).2
}

/// A folder of its own for a test.
pub fn folder(name: &str) -> PathBuf {
    let folder = Path::new(env!("CARGO_TARGET_TMPDIR")).join(name);
    let _ = std::fs::remove_dir_all(&folder);
    std::fs::create_dir_all(&folder).expect("a folder");
    folder
}

/// Is the program on this machine?
pub fn is_here(program: &str) -> bool {
    let tried = Command::new(program)
        .arg("--version")
        .stdout(Stdio::null())
        .stderr(Stdio::null())
        .status();
    if tried.is_err() {
        println!("no {program} here");
    }
    tried.is_ok()
}

/// The path with the command's folder first.
pub fn path() -> std::ffi::OsString {
    let station = Path::new(env!("CARGO_BIN_EXE_station"));
    let mut path = station.parent().expect("a folder").as_os_str().to_owned();
    path.push(":");
    path.push(std::env::var_os("PATH").unwrap_or_default());
    path
}
