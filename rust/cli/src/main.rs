//! `station`: check, bound, run, explain and look into catalogue scripts. What is
//! said of them is the crate `explain`'s.

mod args;
mod authority;
mod commands;
mod completions;
mod counting;
mod creating;
mod drawing;
mod files;
mod filling;
mod fixing;
mod formatting;
mod library;
mod looking;
mod lsp;
mod misuse;
mod progress;
mod session;
mod table;
mod testing;
mod usage;

use args::Colour;
use explain::show::Paint;
use explain::Asked;
use files::{complain, Out};
use library::Library;
use session::{Session, Status, Summary};
use std::process::ExitCode;
use table::{Command, Flag};

const ACCEPTED: Summary = Summary::new("accepted", "refused");
const FINISHED: Summary = Summary::new("finished", "not finished");
const BOUNDED: Summary = Summary::new("bounded", "without a bound");

fn dispatch(session: &mut Session) -> Status {
    let steps = session.words.steps;
    match session.words.command {
        Command::Check => session.each(ACCEPTED, commands::check_one),
        Command::Run => {
            let asked = match session.words.has(Flag::Lean) {
                true => Asked::Lean(steps),
                false => Asked::Run(steps),
            };
            session.each(FINISHED, |session, name, text| {
                commands::run_one(session, name, text, asked)
            })
        }
        Command::Trial => session.each(FINISHED, |session, name, text| {
            commands::run_one(session, name, text, Asked::Trial(steps))
        }),
        Command::Count => counting::count(session),
        Command::Trace => session.each(FINISHED, looking::trace_one),
        Command::Known => looking::known(session),
        Command::Draw => drawing::draw(session),
        Command::Bound => session.each(BOUNDED, looking::bound_one),
        Command::Report => authority::report(session),
        Command::Fmt => formatting::fmt(session),
        Command::Fix => fixing::fix_all(session),
        Command::Fill => filling::fill(session),
        Command::New => creating::new(session),
        Command::Test => testing::test(session),
        Command::Explain => commands::explain(session),
        Command::Completions => commands::completions(session),
        Command::Lsp => lsp::serve(),
        Command::Man => session.shown(&usage::man()),
        Command::Help => {
            let of = args::command_of(session.words.operand());
            session.shown(&usage::help(of))
        }
        Command::Version => commands::version(session),
    }
}

fn main() -> ExitCode {
    let words = std::env::args_os().skip(1);
    let words = match args::parse(words) {
        Ok(words) => words,
        Err(misuse) => {
            complain(&format!("{misuse}\nstation help shows every command"));
            return Status::Failed.into();
        }
    };
    let colour = match words.colour {
        Colour::Auto => files::colour_wanted(),
        Colour::Always => true,
        Colour::Never => false,
    };
    let mut session = Session {
        words,
        out: Out::default(),
        paint: Paint(colour),
        library: Library::default(),
    };
    let status = dispatch(&mut session);
    match session.out.failed {
        true => Status::Failed.into(),
        false => status.into(),
    }
}
