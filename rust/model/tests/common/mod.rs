//! Small helpers for the tests: scripts written with spaces for tabs.
#![allow(dead_code)]

use model::{check, trial};

/// The text of a script: each line trimmed, a tab for each space, LF at its end.
pub fn script(source: &str) -> Vec<u8> {
    let lines: Vec<&str> = source.trim().lines().map(str::trim).collect();
    text(&lines)
}

/// The text of a list of lines.
pub fn text<S: AsRef<str>>(lines: &[S]) -> Vec<u8> {
    let mut text = String::new();
    for line in lines {
        text.push_str(&line.as_ref().replace(' ', "\t"));
        text.push('\n');
    }
    text.into_bytes()
}

/// The lines of document 01's example, line n at place n - 1.
pub fn example() -> Vec<&'static str> {
    vec![
        "class S",
        "field S prev",
        "field int n",
        "method int tag int k",
        "requires acc this n",
        "ensures acc this n eq this.n k",
        "set this n k",
        "return k",
        "end",
        "main",
        "var S s",
        "var int a",
        "var int b",
        "new s S",
        "let a 7",
        "call b s tag a",
        "assert eq s.n 7",
        "assert eq s.prev null",
        "end",
    ]
}

/// The example with one line changed.
pub fn example_with(line: usize, new: &str) -> Vec<u8> {
    let mut lines: Vec<String> = example().iter().map(|line| line.to_string()).collect();
    lines[line - 1] = new.to_string();
    text(&lines)
}

/// Number, line and steps of a trial; an accepted text gets the same from run.
pub fn ran(text: &[u8], allowed: u32) -> (u32, u32, u32) {
    let run = trial(text, allowed);
    (run.number, run.line, run.steps)
}

/// The checks of a list of scripts: source, number, line.
pub fn checks(cases: &[(&str, u32, u32)]) {
    for &(source, number, line) in cases {
        assert_eq!(check(&script(source)), (number, line), "{source}");
    }
}

/// A class `S` with a field `S prev`, a field `int n`, and no methods.
pub const S: &str = "class S\nfield S prev\nfield int n\n";

/// A main with variables `S s`, `S t`, `int a`, `int b` after the class `S`;
/// the first statement is on line 9.
pub fn main_with(statements: &str) -> String {
    format!("{S}main\nvar S s\nvar S t\nvar int a\nvar int b\n{statements}\nend")
}
