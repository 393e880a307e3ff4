//! The shells' completions, from the table of commands and options: the words of
//! each command, numbers for `explain`, scripts and folders where a script is wanted.

use crate::table::{Command, CommandSpec, Flag, OptionSpec, OPTIONS};
use crate::usage::{shown, taken_by};
use std::ffi::OsStr;
use std::fmt::Write;

/// A shell that has completions.
#[derive(Clone, Copy, Debug, PartialEq, Eq)]
pub enum Shell {
    Bash,
    Zsh,
    Fish,
}

impl Shell {
    /// The shell of a name.
    pub fn of(name: &OsStr) -> Option<Shell> {
        match name.to_str()? {
            "bash" => Some(Shell::Bash),
            "zsh" => Some(Shell::Zsh),
            "fish" => Some(Shell::Fish),
            _ => None,
        }
    }
}

/// What stands in the place of an operand or a value.
enum Offer {
    Nothing,
    /// Files that end in .script, and folders.
    Scripts,
    Files,
    /// Words, each with what it says.
    Words(Vec<(String, &'static str)>),
}

/// Words that need no explanation.
fn plain(words: &[&str]) -> Offer {
    Offer::Words(words.iter().map(|word| (word.to_string(), "")).collect())
}

/// The operands of a command.
fn operands(command: Command) -> Offer {
    match command {
        Command::Explain => {
            let known = nuyardi::EXPLANATIONS.iter();
            Offer::Words(
                known
                    .map(|known| (known.number.to_string(), known.title))
                    .collect(),
            )
        }
        Command::Completions => plain(&["bash", "zsh", "fish"]),
        Command::Help => {
            let commands = shown().map(|spec| (spec.name.to_string(), spec.about));
            Offer::Words(commands.collect())
        }
        Command::Lsp | Command::Man | Command::Version => Offer::Nothing,
        Command::New => Offer::Files,
        _ => Offer::Scripts,
    }
}

/// The value of an option.
fn values(option: &OptionSpec) -> Offer {
    match option.flag {
        Flag::Color => plain(&["auto", "always", "never"]),
        Flag::Html => Offer::Files,
        _ => Offer::Nothing,
    }
}

fn joined(words: &[(String, &str)]) -> String {
    let words: Vec<&str> = words.iter().map(|(word, _)| word.as_str()).collect();
    words.join(" ")
}

/// The call that fills in the answer for an offer.
fn bash_offer(offer: &Offer) -> String {
    match offer {
        Offer::Nothing => ":".to_string(),
        Offer::Scripts => "_station_scripts".to_string(),
        Offer::Files => "_station_files".to_string(),
        Offer::Words(words) => format!("_station_words \"{}\"", joined(words)),
    }
}

/// How the functions of bash's completions begin: what they have in common.
const BASH: &str = "\
_station_words() {
  COMPREPLY=($(compgen -W \"$1\" -- \"$word\"))
}
_station_files() {
  local IFS=$'\\n'
  COMPREPLY=($(compgen -f -- \"$word\"))
}
_station_scripts() {
  local IFS=$'\\n'
  COMPREPLY=($(compgen -f -X '!*.script' -- \"$word\") $(compgen -d -- \"$word\"))
}
";

fn bash() -> String {
    let commands: Vec<&str> = shown().map(|spec| spec.name).collect();
    let commands = commands.join(" ");
    let mut out = format!(
        "{BASH}_station() {{\n  local word=${{COMP_WORDS[COMP_CWORD]}} before=${{COMP_WORDS[COMP_CWORD-1]}}\n  \
         COMPREPLY=()\n  [ \"$word\" = = ] && word=\n  \
         [ \"$before\" = = ] && before=${{COMP_WORDS[COMP_CWORD-2]}}\n  \
         if [ \"$COMP_CWORD\" -eq 1 ]; then\n    _station_words \"{commands}\"\n    return\n  fi\n  \
         case $before in\n"
    );
    for option in OPTIONS.iter().filter(|option| option.value.is_some()) {
        let offer = bash_offer(&values(option));
        let _ = writeln!(out, "    --{}) {offer}; return ;;", option.name);
    }
    out.push_str("  esac\n  case ${COMP_WORDS[1]} in\n");
    for spec in shown() {
        let options: Vec<String> = taken_by(spec.command)
            .map(|option| format!("--{}", option.name))
            .collect();
        let (options, offer) = (options.join(" "), bash_offer(&operands(spec.command)));
        let _ = writeln!(
            out,
            "    {}) case $word in -*) _station_words \"{options}\" ;; *) {offer} ;; esac ;;",
            spec.name
        );
    }
    out.push_str("  esac\n}\ncomplete -o filenames -F _station station\n");
    out
}

/// The action of an offer.
fn zsh_offer(offer: &Offer) -> String {
    match offer {
        Offer::Nothing => " ".to_string(),
        Offer::Scripts => "_files -g \"*.script\"".to_string(),
        Offer::Files => "_files".to_string(),
        Offer::Words(words) => format!("({})", joined(words)),
    }
}

fn zsh() -> String {
    let quoted = |text: &str| text.replace('\'', "'\\''");
    let described = |text: &str| quoted(text).replace('[', "\\[").replace(']', "\\]");
    let mut out = String::from("#compdef station\nlocal -a commands\ncommands=(\n");
    for spec in shown() {
        let about = quoted(spec.about).replace(':', "\\:");
        let _ = writeln!(out, "  '{}:{about}'", spec.name);
    }
    out.push_str(
        ")\nif (( CURRENT == 2 )); then\n  _describe command commands\n  return\nfi\ncase $words[2] in\n",
    );
    for spec in shown() {
        let _ = write!(out, "  {}) _arguments", spec.name);
        for option in taken_by(spec.command) {
            let value = option.value.map_or(String::new(), |value| {
                format!(":{value}:{}", zsh_offer(&values(option)))
            });
            let about = described(option.about);
            let _ = write!(out, " '--{}[{about}]{value}'", option.name);
        }
        let offer = operands(spec.command);
        if !matches!(offer, Offer::Nothing) {
            let what = spec.operands.to_lowercase().replace(':', "\\:");
            let _ = write!(out, " '*:{what}:{}'", zsh_offer(&offer));
        }
        out.push_str(" ;;\n");
    }
    out.push_str("esac\n");
    out
}

/// The lines that offer the operands of a command.
fn fish_operands(out: &mut String, spec: &CommandSpec) {
    let start = format!(
        "complete -c station -n '__fish_seen_subcommand_from {}' -f",
        spec.name
    );
    match operands(spec.command) {
        Offer::Nothing => {
            let _ = writeln!(out, "{start}");
        }
        Offer::Files => {}
        Offer::Scripts => {
            let _ = writeln!(out, "{start} -a '(__fish_complete_suffix .script)'");
        }
        Offer::Words(words) => {
            for (word, about) in words {
                let about = fish_quoted(about);
                let _ = writeln!(out, "{start} -a {word} -d '{about}'");
            }
        }
    }
}

fn fish_quoted(text: &str) -> String {
    text.replace('\\', "\\\\").replace('\'', "\\'")
}

fn fish() -> String {
    let mut out = String::from("complete -c station -n __fish_use_subcommand -f\n");
    for spec in shown() {
        let about = fish_quoted(spec.about);
        let _ = writeln!(
            out,
            "complete -c station -n __fish_use_subcommand -a {} -d '{about}'",
            spec.name
        );
        fish_operands(&mut out, spec);
        for option in taken_by(spec.command) {
            let (name, about) = (option.name, fish_quoted(option.about));
            let value = match (option.value, values(option)) {
                (None, _) => String::new(),
                (_, Offer::Words(words)) => format!(" -x -a '{}'", joined(&words)),
                (_, Offer::Files) => " -r -F".to_string(),
                _ => " -x".to_string(),
            };
            let seen = format!("'__fish_seen_subcommand_from {}'", spec.name);
            let _ = writeln!(
                out,
                "complete -c station -n {seen} -l {name}{value} -d '{about}'"
            );
        }
    }
    out
}

/// The completions of a shell.
pub fn completions(shell: Shell) -> String {
    match shell {
        Shell::Bash => bash(),
        Shell::Zsh => zsh(),
        Shell::Fish => fish(),
    }
}
