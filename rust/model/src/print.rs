//! What the program of document 01 prints for a text.

use crate::limits;
use crate::names::Declared;
use crate::{check, read, trial};
use std::io::Write;

/// "prints fields parted by tabs: `check` number line; then, unless the number
/// is 1 to 9, `run` number line steps, and `var` name value for each". Every
/// line is ended by LF. W7: "The program of document 01 ... relied on the old
/// way"; it moves to trial.
pub fn printed(text: &[u8]) -> Vec<u8> {
    let (number, line) = check(text);
    let mut out = format!("check\t{number}\t{line}\n").into_bytes();
    let Ok(program) = read(text) else {
        return out;
    };
    let run = trial(text, limits::PROGRAM_STEPS);
    let (number, line, steps) = (run.number, run.line, run.steps);
    out.extend(format!("run\t{number}\t{line}\t{steps}\n").bytes());
    for (Declared { name, .. }, value) in program.main().locals.iter().zip(run.values) {
        out.extend_from_slice(b"var\t");
        out.extend_from_slice(name);
        writeln!(out, "\t{value}").expect("a vector takes every byte");
    }
    out
}
