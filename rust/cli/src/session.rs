//! One call of the command: its words, the library, and where it writes.

use crate::args::Parsed;
use crate::files::{self, complain, complain_of, Out, Unread};
use crate::library::Library;
use crate::misuse::Misuse;
use crate::progress::Progress;
use crate::table::Flag;
use explain::show::{self, Paint};
use explain::{objects, Asked, Json, Report};
use std::ffi::{OsStr, OsString};
use std::fmt;
use std::process::ExitCode;

/// How a call of the command ends; the worse, the higher.
#[derive(Clone, Copy, Debug, PartialEq, Eq, PartialOrd, Ord)]
pub enum Status {
    /// Accepted, bounded, filled in or finished.
    Done = 0,
    /// Refused, without a bound, not filled in or stopped.
    Refused = 1,
    /// Wrong use, or a file that can't be read.
    Failed = 2,
}

impl Status {
    /// Done, if what was asked came out well.
    pub fn of(good: bool) -> Status {
        match good {
            true => Status::Done,
            false => Status::Refused,
        }
    }
}

impl From<Status> for ExitCode {
    fn from(status: Status) -> ExitCode {
        ExitCode::from(status as u8)
    }
}

/// Done if the text is accepted, or finished where it was run.
pub fn status(report: &Report) -> Status {
    Status::of(report.good())
}

/// How a command calls files that came out well, and those that did not.
#[derive(Clone, Copy, Debug)]
pub struct Summary {
    good: &'static str,
    bad: &'static str,
    /// Told on standard error, beside a text or a picture on standard output.
    aside: bool,
}

impl Summary {
    pub const fn new(good: &'static str, bad: &'static str) -> Summary {
        Summary {
            good,
            bad,
            aside: false,
        }
    }

    pub fn aside(self, aside: bool) -> Summary {
        Summary { aside, ..self }
    }
}

/// What came of the files.
#[derive(Debug)]
pub struct Tally {
    summary: Summary,
    told: bool,
    /// By their statuses.
    counts: [usize; 3],
}

impl Tally {
    pub fn note(&mut self, status: Status) {
        self.counts[status as usize] += 1;
    }

    fn worst(&self) -> Status {
        match self.counts {
            [_, 0, 0] => Status::Done,
            [_, _, 0] => Status::Refused,
            _ => Status::Failed,
        }
    }
}

impl fmt::Display for Tally {
    fn fmt(&self, f: &mut fmt::Formatter<'_>) -> fmt::Result {
        let ([good, bad, failed], summary) = (self.counts, self.summary);
        write!(f, "{good} {}, {bad} {}", summary.good, summary.bad)?;
        match failed {
            0 => Ok(()),
            _ => write!(f, ", {failed} failed"),
        }
    }
}

/// One call of the command: its words, and where it writes.
pub struct Session {
    pub words: Parsed,
    pub out: Out,
    pub paint: Paint,
    pub library: Library,
}

impl Session {
    pub fn json(&self) -> bool {
        self.words.has(Flag::Json)
    }

    /// The words can't be done.
    pub fn misused(&self, misuse: &Misuse) -> Status {
        complain(&misuse.to_string());
        Status::Failed
    }

    /// What there is to say of a text, with a sign of life until all of it is found.
    pub fn report<'a>(&mut self, file: &'a str, text: &'a [u8], asked: Asked) -> Report<'a> {
        let _progress = Progress::start(asked.steps());
        Report::of(&mut self.library, file, text, asked)
    }

    /// The run that trace and draw show; with `--trial` a trial.
    pub fn shown_run(&self) -> Asked {
        match self.words.has(Flag::Trial) {
            true => Asked::Trial(self.words.steps),
            false => Asked::Run(self.words.steps),
        }
    }

    pub fn print(&mut self, text: &str) {
        self.out.write(text.as_bytes());
    }

    /// A text that is all there is to say.
    pub fn shown(&mut self, text: &str) -> Status {
        self.print(text);
        Status::Done
    }

    pub fn print_json(&mut self, value: &Json) {
        self.print(&format!("{value}\n"));
    }

    /// Check's answer, or that of check and run.
    pub fn print_report(&mut self, report: &Report) {
        match self.json() {
            true => self.print_json(&objects::report(report)),
            false => self.print(&show::report(report, self.paint)),
        }
    }

    /// The text of a file; none, and a complaint, if it can't be read.
    pub fn text(&mut self, name: &OsStr) -> Option<Vec<u8>> {
        match files::read(name) {
            Ok(text) => Some(text),
            Err(error) => {
                self.unread(name, &error);
                None
            }
        }
    }

    pub fn unread(&mut self, name: &OsStr, error: &Unread) {
        if self.json() {
            let object = objects::unread(&show::file_name(name), &error.to_string());
            self.print_json(&object);
        }
        complain_of(name, error);
    }

    /// Each script by one function, folders replaced by their scripts, and then a
    /// summary where there are more; the worst status.
    pub fn each(
        &mut self,
        summary: Summary,
        one: impl Fn(&mut Session, &OsStr, &[u8]) -> Status,
    ) -> Status {
        let mut tally = self.tally(summary);
        for name in self.scripts() {
            let status = match self.text(&name) {
                Some(text) => one(self, &name, &text),
                None => Status::Failed,
            };
            tally.note(status);
        }
        self.summed_up(&tally)
    }

    /// The operands, each folder replaced by its scripts.
    pub fn scripts(&mut self) -> Vec<OsString> {
        files::expanded(&std::mem::take(&mut self.words.operands))
    }

    /// A tally of no files yet, for these operands.
    pub fn tally(&self, summary: Summary) -> Tally {
        let operands = &self.words.operands;
        let many = operands.len() > 1 || operands.iter().any(|name| files::is_folder(name));
        Tally {
            summary,
            told: many && !self.json() && !self.words.has(Flag::Short) && !self.quiet(),
            counts: [0; 3],
        }
    }

    pub fn quiet(&self) -> bool {
        self.words.has(Flag::Quiet)
    }

    /// Tells the summary: the worst status.
    pub fn summed_up(&mut self, tally: &Tally) -> Status {
        if tally.told {
            match tally.summary.aside {
                true => complain(&tally.to_string()),
                false => self.print(&format!("{tally}\n")),
            }
        }
        tally.worst()
    }
}
