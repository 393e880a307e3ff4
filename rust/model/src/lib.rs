//! A model of catalogue scripts, written from document 01 and the requests of
//! document 02 alone (W1 and so on, as far as they landed): the text, the
//! permission check, the machine and the bound, in the papers' order. It is clear before
//! it is fast, and it shares nothing with the code that it is compared with.

#![forbid(unsafe_code)]

pub mod bounds;
pub mod call;
mod chains;
pub mod checker;
pub mod count;
pub mod faults;
pub mod fill;
pub mod form;
mod formula;
pub mod framing;
mod lean;
pub mod limits;
pub mod locations;
pub mod machine;
pub mod names;
pub mod number;
pub mod print;
pub mod program;
pub mod reader;
pub mod scope;
mod shapes;
pub mod share;
pub mod showing;
pub mod small;
pub mod state;
pub mod text;
pub mod watch;

pub use call::{bound_call, check_call, count_call, fill_call, lean_call, run_call, trial_call};
pub use count::{count, Counted};
pub use fill::{fill, Filled};
pub use machine::Run;
pub use number::Refusal;
pub use print::printed;
pub use small::small;

/// The reader: the program if the text has none of the numbers 2 to 9.
pub fn read(text: &[u8]) -> Result<names::Program<'_>, Refusal> {
    names::resolve(&text::lines(text)?)
}

/// What bound returns and what it leaves in its area.
#[derive(Clone, Copy, Debug, PartialEq, Eq)]
pub struct Bounds {
    pub number: u32,
    pub line: u32,
    /// "main's bound"
    pub bound: u32,
    /// "the most frames on a route of calls, main's counted"
    pub frames: u32,
}

/// A text that is read and checked once, for any number of answers.
pub struct Judged<'a> {
    read: Result<names::Program<'a>, Refusal>,
    /// What the tests after 9 say of a text that is read.
    tested: Result<(), Refusal>,
}

impl<'a> Judged<'a> {
    /// All tests in their order: "1, 2; then line by line 3, 4, 5; then 8; then
    /// line by line 6, 7, 9 ...; then line by line 10; then the rules".
    pub fn new(text: &'a [u8]) -> Judged<'a> {
        let lines = match text::lines(text) {
            Ok(lines) => lines,
            Err(refusal) => {
                return Judged {
                    read: Err(refusal),
                    tested: Ok(()),
                }
            }
        };
        let read = names::resolve(&lines);
        let tested = match &read {
            Ok(program) => framing::frame(&lines).and_then(|()| checker::check(program)),
            Err(_) => Ok(()),
        };
        Judged { read, tested }
    }

    /// The program of an accepted text.
    pub fn accepted(&self) -> Result<&names::Program<'a>, Refusal> {
        let program = self.read()?;
        self.tested?;
        Ok(program)
    }

    /// The program of a text that has none of the numbers 2 to 9.
    fn read(&self) -> Result<&names::Program<'a>, Refusal> {
        self.read.as_ref().map_err(|&refusal| refusal)
    }

    /// Number and line of check.
    pub fn check(&self) -> (u32, u32) {
        match self.accepted() {
            Ok(_) => (number::DONE, 0),
            Err(refusal) => (refusal.number(), refusal.line),
        }
    }

    /// W6: main's bound and frames; "zeros for a refused text". "It refuses, after
    /// every check of document 01".
    pub fn bound(&self) -> Bounds {
        match self.accepted().and_then(bounds::bounds) {
            Ok(most) => Bounds {
                number: number::DONE,
                line: 0,
                bound: most.steps,
                frames: most.frames,
            },
            Err(refusal) => Bounds {
                number: refusal.number(),
                line: refusal.line,
                bound: 0,
                frames: 0,
            },
        }
    }

    /// W7: "By default run now checks first, and a text that the check refuses gets
    /// the check's number and line, with zeros in results."
    pub fn run(&self, steps: u32) -> Run {
        run_or_refused(machine::run, self.accepted(), steps)
    }

    /// W7: "trial, which is the old run", of document 01: it "works on each text
    /// that the reader takes, accepted or not".
    pub fn trial(&self, steps: u32) -> Run {
        run_or_refused(machine::run, self.read(), steps)
    }

    /// W10: "It checks first, as run does, and gives a refused text the same number,
    /// line and results"; an accepted one "the number, line, steps and values of
    /// run".
    pub fn lean(&self, steps: u32) -> Run {
        run_or_refused(lean::run, self.accepted(), steps)
    }
}

/// Checks the text: number and line.
pub fn check(text: &[u8]) -> (u32, u32) {
    Judged::new(text).check()
}

/// Its bound (W6).
pub fn bound(text: &[u8]) -> Bounds {
    Judged::new(text).bound()
}

/// Its run, which checks first (W7).
pub fn run(text: &[u8], steps: u32) -> Run {
    Judged::new(text).run(steps)
}

/// Its run without the tests after 9 (W7).
pub fn trial(text: &[u8], steps: u32) -> Run {
    let program = read(text);
    let program = program.as_ref().map_err(|&refusal| refusal);
    run_or_refused(machine::run, program, steps)
}

/// Its run on the lean machine (W10).
pub fn lean(text: &[u8], steps: u32) -> Run {
    Judged::new(text).lean(steps)
}

/// The run of a program by a machine; for a refused text steps and values are zeros.
fn run_or_refused(
    machine: fn(&names::Program, u32) -> Run,
    program: Result<&names::Program, Refusal>,
    steps: u32,
) -> Run {
    match program {
        Ok(program) => machine(program, steps),
        Err(refusal) => Run::refused(refusal),
    }
}
