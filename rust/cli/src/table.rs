//! The one table of commands and options, by which the parser, the help, the
//! man page and the shells' completions go.

/// What `station` is asked to do.
#[derive(Clone, Copy, Debug, PartialEq, Eq)]
pub enum Command {
    Check,
    Run,
    Trial,
    Count,
    Bound,
    Report,
    Trace,
    Known,
    Draw,
    Fmt,
    Fix,
    Fill,
    New,
    Test,
    Explain,
    Lsp,
    Completions,
    Man,
    Help,
    Version,
}

/// An option, whatever its value.
#[derive(Clone, Copy, Debug, PartialEq, Eq)]
pub enum Flag {
    Steps,
    Rounds,
    Shares,
    Lean,
    Cards,
    Trial,
    Why,
    Short,
    Warn,
    First,
    Quiet,
    Check,
    Write,
    Html,
    NoTime,
    Json,
    Color,
    Help,
    Version,
}

/// A command of `station`, by a name.
#[derive(Debug)]
pub struct CommandSpec {
    pub command: Command,
    pub name: &'static str,
    /// Its operands, as the help shows them.
    pub operands: &'static str,
    pub about: &'static str,
    /// How many operands it takes.
    pub least: usize,
    pub most: usize,
    /// Left out of the help.
    pub hidden: bool,
}

/// An option: `--name`, or `--name VALUE`.
#[derive(Debug)]
pub struct OptionSpec {
    pub flag: Flag,
    pub name: &'static str,
    pub short: Option<char>,
    pub value: Option<&'static str>,
    pub about: &'static str,
    /// The commands that take it; none for all.
    pub commands: &'static [Command],
}

impl Command {
    /// The first name of the command.
    pub fn name(self) -> &'static str {
        let mut rows = COMMANDS.iter();
        rows.find(|row| row.command == self)
            .map_or("", |row| row.name)
    }
}

impl OptionSpec {
    pub fn taken_by(&self, command: Command) -> bool {
        self.commands.is_empty() || self.commands.contains(&command)
    }
}

const MANY: usize = usize::MAX;

const fn command(
    command: Command,
    name: &'static str,
    operands: &'static str,
    about: &'static str,
    least: usize,
    most: usize,
) -> CommandSpec {
    CommandSpec {
        command,
        name,
        operands,
        about,
        least,
        most,
        hidden: false,
    }
}

pub const COMMANDS: &[CommandSpec] = &[
    command(
        Command::Check,
        "check",
        "FILE..",
        "is each script accepted?",
        1,
        MANY,
    ),
    command(
        Command::Run,
        "run",
        "FILE..",
        "run a script that check accepts",
        1,
        MANY,
    ),
    command(
        Command::Trial,
        "trial",
        "FILE..",
        "run a script, also one that check refuses, to try it out",
        1,
        MANY,
    ),
    command(
        Command::Count,
        "count",
        "FILE..",
        "run 1 to 4 scripts over one heap, a step of each a round",
        1,
        nuyardi::limits::SCRIPTS,
    ),
    command(
        Command::Bound,
        "bound",
        "FILE..",
        "the most steps that a run can take, known before it",
        1,
        MANY,
    ),
    command(
        Command::Report,
        "report",
        "FILE..",
        "what the licensing authority asks, for each script",
        1,
        MANY,
    ),
    command(
        Command::Trace,
        "trace",
        "FILE..",
        "run a script, and show each step with what it changed",
        1,
        MANY,
    ),
    command(
        Command::Known,
        "known",
        "FILE[:LINE]..",
        "what the checker knows before and after a line",
        1,
        MANY,
    ),
    command(
        Command::Draw,
        "draw",
        "FILE..",
        "the cards and their links after a run, as an SVG picture",
        1,
        MANY,
    ),
    command(
        Command::Fmt,
        "fmt",
        "FILE..",
        "print a text with blanks, empty lines, line ends and signs put right",
        1,
        MANY,
    ),
    command(
        Command::Fix,
        "fix",
        "FILE..",
        "print a text with the fixes that were found, each tried before",
        1,
        MANY,
    ),
    command(
        Command::Fill,
        "fill",
        "FILE..",
        "find the permissions that a line requires * stands for",
        1,
        MANY,
    ),
    command(
        Command::New,
        "new",
        "FILE",
        "write a first script to a file that is not there yet",
        1,
        1,
    ),
    command(
        Command::Test,
        "test",
        "FILE..",
        "does each script get the answers of the file NAME.expected beside it?",
        1,
        MANY,
    ),
    command(
        Command::Explain,
        "explain",
        "NUMBER",
        "what a number means, and what usually helps",
        1,
        1,
    ),
    command(
        Command::Lsp,
        "lsp",
        "",
        "serve an editor over standard input and output",
        0,
        0,
    ),
    command(
        Command::Completions,
        "completions",
        "SHELL",
        "completions for bash, zsh or fish",
        1,
        1,
    ),
    command(Command::Man, "man", "", "this help as a man page", 0, 0),
    command(
        Command::Help,
        "help",
        "[COMMAND]",
        "this help, or that of a command",
        0,
        1,
    ),
    CommandSpec {
        hidden: true,
        ..command(Command::Version, "version", "", "as --version", 0, 0)
    },
    CommandSpec {
        hidden: true,
        ..command(Command::Fmt, "tabs", "FILE", "as fmt", 1, 1)
    },
];

const fn option(
    flag: Flag,
    name: &'static str,
    value: Option<&'static str>,
    about: &'static str,
    commands: &'static [Command],
) -> OptionSpec {
    OptionSpec {
        flag,
        name,
        short: None,
        value,
        about,
        commands,
    }
}

pub const OPTIONS: &[OptionSpec] = &[
    option(
        Flag::Steps,
        "steps",
        Some("N"),
        "allow N steps in place of 1,000",
        &[
            Command::Run,
            Command::Trial,
            Command::Trace,
            Command::Draw,
            Command::Report,
            Command::Test,
        ],
    ),
    option(
        Flag::Rounds,
        "rounds",
        Some("N"),
        "do N rounds in place of 1,000",
        &[Command::Count],
    ),
    option(
        Flag::Shares,
        "shares",
        Some("K,K.."),
        "objects of each script in place of equal parts of 256",
        &[Command::Count],
    ),
    option(
        Flag::Lean,
        "lean",
        None,
        "take the lean machine: the same answer, sooner in a long run",
        &[Command::Run],
    ),
    option(
        Flag::Cards,
        "cards",
        None,
        "show the cards at the end, or at a stop",
        &[Command::Run, Command::Trial, Command::Trace],
    ),
    option(
        Flag::Trial,
        "trial",
        None,
        "show a trial, also of a script that check refuses",
        &[Command::Trace, Command::Draw],
    ),
    option(
        Flag::Why,
        "why",
        None,
        "show the calls that a bound comes from",
        &[Command::Bound],
    ),
    option(
        Flag::Short,
        "short",
        None,
        "one line for each refusal: FILE:LINE:COLUMN: what is wrong",
        &[Command::Check],
    ),
    option(
        Flag::Warn,
        "warn",
        None,
        "also say what is never used, not needed or never reached",
        &[Command::Check],
    ),
    option(
        Flag::First,
        "first",
        None,
        "only the first refusal of each file",
        &[Command::Check],
    ),
    OptionSpec {
        short: Some('q'),
        ..option(
            Flag::Quiet,
            "quiet",
            None,
            "say nothing of files that are accepted or as expected",
            &[Command::Check, Command::Test],
        )
    },
    option(
        Flag::Check,
        "check",
        None,
        "change nothing; status 1 if a file would be changed",
        &[Command::Fmt, Command::Fix],
    ),
    option(
        Flag::Write,
        "write",
        None,
        "write the files again, each whole or not at all",
        &[Command::Fmt, Command::Fix, Command::Fill, Command::Test],
    ),
    option(
        Flag::Html,
        "html",
        Some("FILE"),
        "write a page with all in it, whole or not at all",
        &[Command::Report],
    ),
    option(
        Flag::NoTime,
        "no-time",
        None,
        "leave out the time: the same bytes each time",
        &[Command::Report],
    ),
    option(
        Flag::Json,
        "json",
        None,
        "JSON, an object for each file",
        &[
            Command::Check,
            Command::Run,
            Command::Trial,
            Command::Count,
            Command::Bound,
            Command::Report,
            Command::Trace,
            Command::Known,
            Command::Draw,
            Command::Fmt,
            Command::Fix,
            Command::Fill,
            Command::Test,
            Command::Explain,
            Command::Version,
        ],
    ),
    option(
        Flag::Color,
        "color",
        Some("WHEN"),
        "auto, always or never; NO_COLOR is respected",
        &[],
    ),
    OptionSpec {
        short: Some('h'),
        ..option(Flag::Help, "help", None, "the help", &[])
    },
    OptionSpec {
        short: Some('V'),
        ..option(
            Flag::Version,
            "version",
            None,
            "the version; with --json also the sums of library and logic",
            &[],
        )
    },
];
