//! C programs over the library, and what they are to print.
#![allow(dead_code)]

use nuyardi::limits;
use std::path::{Path, PathBuf};
use std::process::Command;

/// Compiles a program of `tests/c` with the library, in a folder of its own and by a compiler that may not be there, or may not
/// have what the words ask for.
pub fn compiled_by(compiler: &str, name: &str, words: &[&str]) -> Result<PathBuf, String> {
    let host = Path::new(env!("CARGO_MANIFEST_DIR"));
    let told: String = words
        .concat()
        .replace(|letter: char| !letter.is_alphanumeric(), "");
    let program = Path::new(env!("CARGO_TARGET_TMPDIR")).join(format!("{name}-{compiler}{told}"));
    let output = Command::new(compiler)
        .args([
            "-std=c11", "-O2", "-Wall", "-Wextra", "-Werror", "-pthread", "-I",
        ])
        .arg(host.join("../../include"))
        .args(words)
        .arg(host.join(format!("tests/c/{name}.c")))
        .arg(concat!(env!("OUT_DIR"), "/libnuyardi.a"))
        .arg("-o")
        .arg(&program)
        .output()
        .map_err(|error| error.to_string())?;
    match output.status.success() {
        true => Ok(program),
        false => Err(String::from_utf8_lossy(&output.stderr).into_owned()),
    }
}

pub fn compiled(name: &str) -> PathBuf {
    compiled_by("gcc", name, &[]).unwrap_or_else(|error| panic!("{name}.c: {error}"))
}

/// Texts as files in a folder of this name.
pub fn files(folder: &str, texts: impl IntoIterator<Item = Vec<u8>>) -> Vec<PathBuf> {
    let folder = Path::new(env!("CARGO_TARGET_TMPDIR")).join(folder);
    std::fs::create_dir_all(&folder).expect("a folder");
    let written = texts.into_iter().enumerate().map(|(at, text)| {
        let name = folder.join(at.to_string());
        std::fs::write(&name, text).expect("a text");
        name
    });
    written.collect()
}

/// What `replay` and `guard` print of a text, by the model: what check, run, trial, bound, lean and fill return, what count returns of the text twice, with shares of 3 and 200 objects, and a sum of the results, bounds and places.
pub fn expected(text: &[u8], steps: u32) -> String {
    let mut work = vec![0; limits::WORK_BYTES];
    let mut results = [0; limits::RESULTS_BYTES];
    let checked = model::check_call(text, &mut work);
    let add = |sum: u32, &byte: &u8| sum.wrapping_mul(31).wrapping_add(u32::from(byte));
    let ran = model::run_call(text, &mut work, steps, &mut results);
    let sum = results.iter().fold(0, add);
    let tried = model::trial_call(text, &mut work, steps, &mut results);
    let mut bounds = [0; limits::BOUNDS_BYTES];
    let bounded = model::bound_call(text, &mut work, &mut bounds);
    let sum = results.iter().chain(&bounds).fold(sum, add);
    let leaned = model::lean_call(text, &mut work, steps, &mut results);
    let mut places = [0; limits::PLACES_BYTES];
    let filled = model::fill_call(text, &mut work, &mut places);
    let sum = results.iter().chain(&places).fold(sum, add);
    let mut counts = [0; limits::COUNT_BYTES];
    let texts = [text, text, b"", b""];
    let counted = model::count_call(2, steps, texts, &mut work, [3, 200, 0, 0], &mut counts);
    let sum = counts.iter().fold(sum, add);
    format!("{checked} {ran} {tried} {bounded} {leaned} {filled} {counted} {sum}\n")
}

/// Runs a program that prints a line for each text; each is the model's.
pub fn as_expected(mut program: Command, folder: &str, texts: &[Vec<u8>], steps: u32) {
    let names = files(folder, texts.iter().cloned());
    let output = program.arg(steps.to_string()).args(&names).output();
    let output = output.expect("the program");
    let errors = String::from_utf8_lossy(&output.stderr);
    assert_eq!((output.status.code(), errors.as_ref()), (Some(0), ""));
    let printed = String::from_utf8_lossy(&output.stdout);
    let mut lines = printed.split_inclusive('\n');
    for text in texts {
        assert_eq!(
            lines.next(),
            Some(expected(text, steps).as_str()),
            "{}",
            text.escape_ascii()
        );
    }
    assert_eq!(lines.next(), None);
}
