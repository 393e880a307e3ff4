//! What is wrong with the words of a command line: one line each, with what is
//! taken instead.

use crate::table::{Command, CommandSpec, Flag, OptionSpec, COMMANDS, OPTIONS};
use explain::nearest::did_you_mean;
use explain::show::file_name;
use std::ffi::{OsStr, OsString};
use std::fmt;

/// Why a command line is not understood, or can't be done.
#[derive(Clone, Debug)]
pub enum Misuse {
    NoCommand,
    UnknownCommand(OsString),
    UnknownOption(String),
    /// An option that another command takes.
    Elsewhere(&'static OptionSpec, &'static CommandSpec),
    /// So many operands, and the command takes more or fewer.
    Operands(&'static CommandSpec, usize),
    /// A value for an option that has none.
    Valued(&'static OptionSpec),
    /// No value for an option that needs one.
    Unvalued(&'static OptionSpec),
    Steps(OsString),
    Rounds(OsString),
    Shares(OsString),
    /// So many shares, and so many scripts.
    SharesEach(usize, usize),
    /// So many scripts of a count, folders replaced by theirs.
    Scripts(usize),
    Colour(OsString),
    /// What explain is asked.
    Number(OsString),
    /// `test -`.
    NoCompanion,
    /// What completions is asked.
    Shell(OsString),
    /// `--html` twice.
    TwoPages,
    /// `--check` and `--write`.
    CheckAndWrite,
    /// `--json` and `--html -`.
    OnePlace,
    /// The page would take the place of a script.
    PageOverScript(OsString),
}

/// Why an option that someone may well try does not go with a command.
fn reason(option: Flag, command: Command) -> &'static str {
    match (option, command) {
        (Flag::Lean, Command::Trial) => {
            ": a trial tests every permission, and the lean machine keeps none; \
             `station run --lean` runs a script that check accepts"
        }
        (Flag::Lean, Command::Trace | Command::Draw) => {
            ": who holds what is shown, and the lean machine does not know; leave --lean out"
        }
        _ => "",
    }
}

fn commands_of(option: &OptionSpec) -> String {
    let shown = option.commands.iter().filter(|command| {
        let mut rows = COMMANDS.iter().filter(|row| row.command == **command);
        rows.any(|row| !row.hidden)
    });
    let names: Vec<&str> = shown.map(|command| command.name()).collect();
    names.join(", ")
}

fn near_command(word: &OsString) -> String {
    let shown = COMMANDS.iter().filter(|spec| !spec.hidden);
    did_you_mean(word.to_str().unwrap_or(""), shown.map(|spec| spec.name))
}

fn near_option(word: &str) -> String {
    let name = word.trim_start_matches('-');
    let near = did_you_mean(name, OPTIONS.iter().map(|spec| spec.name));
    near.replacen('`', "`--", 1)
}

/// A word as it is shown: control characters escaped, and no more than its start.
fn shown(word: &OsStr) -> String {
    const MOST: usize = 60;
    let word = file_name(word);
    match word.char_indices().nth(MOST) {
        Some((end, _)) => format!("{}..", &word[..end]),
        None => word,
    }
}

fn numbers() -> String {
    let known = nuyardi::EXPLANATIONS.iter();
    let numbers: Vec<String> = known.map(|known| known.number.to_string()).collect();
    numbers.join(", ")
}

impl fmt::Display for Misuse {
    fn fmt(&self, f: &mut fmt::Formatter<'_>) -> fmt::Result {
        match self {
            Misuse::NoCommand => write!(f, "no command"),
            Misuse::UnknownCommand(word) => {
                write!(f, "no command {}{}", shown(word), near_command(word))
            }
            Misuse::UnknownOption(word) => {
                write!(f, "no option {}{}", shown(word.as_ref()), near_option(word))
            }
            Misuse::Elsewhere(option, command) => write!(
                f,
                "--{} goes with {}, not with {}{}",
                option.name,
                commands_of(option),
                command.name,
                reason(option.flag, command.command)
            ),
            Misuse::Operands(command, given) => match command.operands {
                "" => write!(f, "{} takes no operand", command.name),
                operands => {
                    let most = match command.most {
                        1 | usize::MAX => String::new(),
                        most => format!(", at most {most}"),
                    };
                    write!(
                        f,
                        "{} takes {operands}{most}, and {given} were given",
                        command.name
                    )
                }
            },
            Misuse::Valued(option) => write!(f, "--{} takes no value", option.name),
            Misuse::Unvalued(option) => {
                write!(f, "--{} needs {}", option.name, option.value.unwrap_or(""))
            }
            Misuse::Steps(word) => {
                write!(
                    f,
                    "--steps takes 0 to {}, not \"{}\"",
                    u32::MAX,
                    shown(word)
                )
            }
            Misuse::Rounds(word) => {
                write!(
                    f,
                    "--rounds takes 0 to {}, not \"{}\"",
                    u32::MAX,
                    shown(word)
                )
            }
            Misuse::Shares(word) => {
                write!(
                    f,
                    "--shares takes a number for each script, separated by commas, not \"{}\"",
                    shown(word)
                )
            }
            Misuse::SharesEach(shares, scripts) => {
                write!(
                    f,
                    "--shares takes a number for each script: scripts {scripts}, shares {shares}"
                )
            }
            Misuse::Scripts(given) => {
                let most = nuyardi::limits::SCRIPTS;
                write!(
                    f,
                    "count takes at most {most} scripts, and {given} were given"
                )
            }
            Misuse::NoCompanion => write!(
                f,
                "test needs a file, for the file NAME.expected beside it, not standard input"
            ),
            Misuse::Colour(word) => {
                write!(
                    f,
                    "--color takes auto, always or never, not \"{}\"",
                    shown(word)
                )
            }
            Misuse::Number(word) => {
                let (numbers, word) = (numbers(), shown(word));
                write!(
                    f,
                    "explain takes one of the numbers {numbers}, not \"{word}\""
                )
            }
            Misuse::Shell(word) => {
                write!(
                    f,
                    "completions takes bash, zsh or fish, not \"{}\"",
                    shown(word)
                )
            }
            Misuse::TwoPages => write!(f, "--html goes once: all reports stand on one page"),
            Misuse::CheckAndWrite => write!(f, "--check and --write do not go together"),
            Misuse::OnePlace => write!(f, "--json and --html - would print both to one place"),
            Misuse::PageOverScript(page) => write!(
                f,
                "{} is one of the scripts; name another file for the page",
                file_name(page)
            ),
        }
    }
}
