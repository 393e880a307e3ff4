//! The help and the man page, from the table of commands and options.

use crate::table::{Command, CommandSpec, OptionSpec, COMMANDS, OPTIONS};
use std::fmt::Write;

const HEAD: &str = "station: check and run catalogue scripts";

const FOOT: &str = "\
FILE may be - for standard input, or a folder for its files that end in .script;
a summary then comes last. run, trace and draw refuse what check refuses.
trial, and --trial, also run a text that check refuses with one of the numbers
10 to 14, after saying so. run tests every permission; run --lean says the same
without these tests, which an accepted script never fails. count answers of each
script what run answers of it alone, with its share for the heap.

Exit status: 0 accepted, bounded, filled in, finished or as expected; 1 refused,
without a bound, not filled in, stopped or not as expected; 2 wrong use, or a file
that can't be read or written (the other files are still done).
";

/// The commands that stand in the help.
pub fn shown() -> impl Iterator<Item = &'static CommandSpec> {
    COMMANDS.iter().filter(|spec| !spec.hidden)
}

/// The options that a command takes.
pub fn taken_by(command: Command) -> impl Iterator<Item = &'static OptionSpec> {
    OPTIONS.iter().filter(move |spec| spec.taken_by(command))
}

/// The names of the commands that take an option and stand in the help.
fn takers(option: &OptionSpec) -> Vec<&'static str> {
    let takes = |spec: &&CommandSpec| option.commands.contains(&spec.command);
    shown().filter(takes).map(|spec| spec.name).collect()
}

/// `-q, --quiet` or `--steps N`.
fn written(spec: &OptionSpec) -> String {
    let short = spec
        .short
        .map_or(String::new(), |short| format!("-{short}, "));
    let value = spec
        .value
        .map_or(String::new(), |value| format!(" {value}"));
    format!("{short}--{}{value}", spec.name)
}

fn row(out: &mut String, left: &str, right: &str) {
    let _ = writeln!(out, "  {left:<22} {right}");
}

/// The help of a command, or of all.
pub fn help(command: Option<Command>) -> String {
    let spec = shown().find(|spec| Some(spec.command) == command);
    let mut out = String::new();
    match spec {
        Some(spec) => {
            let _ = writeln!(out, "station {} [OPTION..] {}", spec.name, spec.operands);
            let _ = writeln!(out, "  {}\n", spec.about);
            for option in taken_by(spec.command) {
                row(&mut out, &written(option), option.about);
            }
        }
        None => {
            let _ = writeln!(out, "{HEAD}\n");
            for spec in shown() {
                row(
                    &mut out,
                    &format!("{} {}", spec.name, spec.operands),
                    spec.about,
                );
            }
            let _ = writeln!(out);
            for option in OPTIONS {
                row(&mut out, &written(option), option.about);
            }
            let _ = write!(out, "\n{FOOT}");
        }
    }
    out
}

/// A man page in roff.
pub fn man() -> String {
    let safe = |text: &str| text.replace('\\', "\\e").replace('-', "\\-");
    let mut out = format!(
        ".TH STATION 1 \"\" \"nuyardi {}\"\n.SH NAME\n",
        env!("CARGO_PKG_VERSION")
    );
    let _ = writeln!(out, "{}", safe(HEAD).replacen(": ", " \\- ", 1));
    let _ = writeln!(
        out,
        ".SH SYNOPSIS\n.B station\nCOMMAND [OPTION..] [OPERAND..]\n.SH COMMANDS"
    );
    for spec in shown() {
        let name = safe(&format!("{} {}", spec.name, spec.operands));
        let _ = writeln!(out, ".TP\n.B {}\n{}", name.trim_end(), safe(spec.about));
    }
    let _ = writeln!(out, ".SH OPTIONS");
    for option in OPTIONS {
        let with = match &takers(option)[..] {
            [] => String::new(),
            names => format!(" ({})", names.join(", ")),
        };
        let about = safe(&format!("{}{with}", option.about));
        let _ = writeln!(out, ".TP\n.B {}\n{about}", safe(&written(option)));
    }
    let _ = writeln!(out, ".SH NOTES");
    for line in FOOT.lines() {
        let _ = writeln!(
            out,
            "{}",
            if line.is_empty() {
                ".PP".into()
            } else {
                safe(line)
            }
        );
    }
    out
}
