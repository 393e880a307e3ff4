//! The words of the command line, by the table of commands and options.

use crate::misuse::Misuse;
use crate::table::{Command, CommandSpec, Flag, OptionSpec, COMMANDS, OPTIONS};
use std::ffi::{OsStr, OsString};

/// When to use colour.
#[derive(Clone, Copy, Debug, PartialEq, Eq)]
pub enum Colour {
    Auto,
    Always,
    Never,
}

/// A command line that is understood.
#[derive(Debug)]
pub struct Parsed {
    pub command: Command,
    pub operands: Vec<OsString>,
    pub steps: u32,
    /// The rounds of a count.
    pub rounds: u32,
    /// The shares of its scripts, if they are given.
    pub shares: Option<Vec<u32>>,
    pub colour: Colour,
    /// The file for the page of a report.
    pub html: Option<OsString>,
    flags: Vec<Flag>,
}

impl Parsed {
    pub fn has(&self, flag: Flag) -> bool {
        self.flags.contains(&flag)
    }

    /// The first operand, of a command that has one.
    pub fn operand(&self) -> &OsStr {
        self.operands.first().map_or(OsStr::new(""), |word| word)
    }
}

/// An option as it was given: its row, and its value.
struct Given {
    spec: &'static OptionSpec,
    value: Option<OsString>,
}

/// What stands after `--name=`, or the next word.
fn value(
    spec: &'static OptionSpec,
    joined: Option<&str>,
    words: &mut impl Iterator<Item = OsString>,
) -> Result<Option<OsString>, Misuse> {
    if spec.value.is_none() {
        return match joined {
            Some(_) => Err(Misuse::Valued(spec)),
            None => Ok(None),
        };
    }
    let value = joined.map(OsString::from).or_else(|| words.next());
    value.map(Some).ok_or(Misuse::Unvalued(spec))
}

fn option_named(word: &str) -> Result<&'static OptionSpec, Misuse> {
    let found = OPTIONS.iter().find(|spec| match word.strip_prefix("--") {
        Some(name) => spec.name == name,
        None => spec.short.is_some_and(|short| word == format!("-{short}")),
    });
    found.ok_or_else(|| Misuse::UnknownOption(word.to_string()))
}

fn command_named(word: &OsStr) -> Result<&'static CommandSpec, Misuse> {
    let found = COMMANDS.iter().find(|spec| word == spec.name);
    found.ok_or_else(|| Misuse::UnknownCommand(word.to_os_string()))
}

/// The command of a word, if it is one.
pub fn command_of(word: &OsStr) -> Option<Command> {
    command_named(word).ok().map(|spec| spec.command)
}

/// A number of 32 bits, in digits alone.
pub fn number_of(word: &OsStr) -> Option<u32> {
    let word = word.to_str()?;
    let digits = word.bytes().all(|byte| byte.is_ascii_digit());
    word.parse().ok().filter(|_| digits)
}

fn colour_of(word: &OsStr) -> Option<Colour> {
    match word.to_str()? {
        "auto" => Some(Colour::Auto),
        "always" => Some(Colour::Always),
        "never" => Some(Colour::Never),
        _ => None,
    }
}

/// Numbers separated by commas.
fn numbers_of(word: &OsStr) -> Option<Vec<u32>> {
    let numbers = word.to_str()?.split(',');
    numbers.map(|number| number_of(number.as_ref())).collect()
}

/// The options that have a value, the file of a page apart.
struct Values {
    steps: u32,
    rounds: u32,
    shares: Option<Vec<u32>>,
    colour: Colour,
}

/// Of two values the last counts.
fn parsed_values(given: &[Given]) -> Result<Values, Misuse> {
    let usual = nuyardi::limits::PROGRAM_STEPS as u32;
    let mut values = Values {
        steps: usual,
        rounds: usual,
        shares: None,
        colour: Colour::Auto,
    };
    for Given { spec, value } in given {
        let word = value.clone().unwrap_or_default();
        match spec.flag {
            Flag::Steps => values.steps = number_of(&word).ok_or(Misuse::Steps(word))?,
            Flag::Rounds => values.rounds = number_of(&word).ok_or(Misuse::Rounds(word))?,
            Flag::Shares => values.shares = Some(numbers_of(&word).ok_or(Misuse::Shares(word))?),
            Flag::Color => values.colour = colour_of(&word).ok_or(Misuse::Colour(word))?,
            _ => {}
        }
    }
    Ok(values)
}

/// The operands, the command among them, and the options.
fn split(words: impl Iterator<Item = OsString>) -> Result<(Vec<OsString>, Vec<Given>), Misuse> {
    let mut words = words;
    let (mut names, mut given) = (Vec::new(), Vec::new());
    let mut only_names = false;
    while let Some(word) = words.next() {
        let text = word.to_str().filter(|_| !only_names).unwrap_or("");
        if text == "--" {
            only_names = true;
        } else if text.len() > 1 && text.starts_with('-') {
            let (name, joined) = match text.split_once('=') {
                Some((name, value)) => (name, Some(value)),
                None => (text, None),
            };
            let spec = option_named(name)?;
            let value = value(spec, joined, &mut words)?;
            given.push(Given { spec, value });
        } else {
            names.push(word);
        }
    }
    Ok((names, given))
}

/// Are the options those of the command, and its operands as many as it takes?
fn fits(command: &'static CommandSpec, given: &[Given], count: usize) -> Result<(), Misuse> {
    for Given { spec, .. } in given {
        if !spec.taken_by(command.command) {
            return Err(Misuse::Elsewhere(spec, command));
        }
    }
    match (command.least..=command.most).contains(&count) {
        true => Ok(()),
        false => Err(Misuse::Operands(command, count)),
    }
}

/// The file for a page, if one is asked for.
fn page_file(given: &[Given]) -> Result<Option<OsString>, Misuse> {
    let mut pages = given.iter().filter(|given| given.spec.flag == Flag::Html);
    match (pages.next(), pages.next()) {
        (_, Some(_)) => Err(Misuse::TwoPages),
        (Some(Given { spec, value }), None) => match value {
            Some(page) if !page.is_empty() => Ok(Some(page.clone())),
            _ => Err(Misuse::Unvalued(spec)),
        },
        (None, None) => Ok(None),
    }
}

/// Reads the command line.
pub fn parse(words: impl Iterator<Item = OsString>) -> Result<Parsed, Misuse> {
    let (mut names, given) = split(words)?;
    let values = parsed_values(&given)?;
    let html = page_file(&given)?;
    let flags: Vec<Flag> = given.iter().map(|given| given.spec.flag).collect();
    let parsed = |command, operands| Parsed {
        command,
        operands,
        steps: values.steps,
        rounds: values.rounds,
        shares: values.shares.clone(),
        colour: values.colour,
        html: html.clone(),
        flags: flags.clone(),
    };
    if flags.contains(&Flag::Version) {
        return Ok(parsed(Command::Version, Vec::new()));
    }
    if flags.contains(&Flag::Help) {
        names.truncate(1);
        let known = names.iter().all(|name| command_of(name).is_some());
        return Ok(parsed(
            Command::Help,
            if known { names } else { Vec::new() },
        ));
    }
    if names.is_empty() {
        return Err(Misuse::NoCommand);
    }
    let command = command_named(&names.remove(0))?;
    fits(command, &given, names.len())?;
    if flags.contains(&Flag::Check) && flags.contains(&Flag::Write) {
        return Err(Misuse::CheckAndWrite);
    }
    Ok(parsed(command.command, names))
}

#[cfg(test)]
#[path = "args/tests.rs"]
mod tests;
