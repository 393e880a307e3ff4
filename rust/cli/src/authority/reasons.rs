//! Question 2: the lines for which a text has no bound, each with what a run says
//! there.

use super::answers;
use super::methods::block_name;
use super::said::{self, code, text, Piece, Said};
use explain::cause::AGAIN;
use explain::routes::{unbounded, Routes, Why};
use explain::script::{quoted, Script};
use explain::show::{counted, title};
use model::machine::{Machine, Step};
use nuyardi::{limits, Outcome, Stop};

/// A line that leaves no bound.
pub struct Reason {
    pub line: u32,
    pub text: String,
    /// The method that it is in, or main.
    pub block: String,
    pub why: Why,
    /// Does a call of main lead there?
    pub called: bool,
    /// How often the run did the line; none if it was not done again to count.
    pub times: Option<u64>,
    /// The stop of the run, if it is at this line or in this loop.
    pub stop: Option<(u32, u32)>,
}

impl Reason {
    /// What kind of line it is.
    pub fn kind(&self) -> Said {
        match &self.why {
            Why::Loop(again) => vec![text("a loop, up to line "), Piece::Line(*again)],
            Why::Ring(calls) if calls.is_empty() => vec![text("a method that calls itself")],
            Why::Ring(calls) => {
                let mut said = vec![text("a ring of calls, by way of ")];
                said.extend(said::lines(calls));
                said
            }
        }
    }

    /// What a run that does not finish for this line says.
    pub fn says(&self) -> Said {
        let steps = Stop::OutOfSteps.number();
        match &self.why {
            Why::Loop(again) => {
                let mut said = vec![text(format!("number {steps} at a line from "))];
                said.extend([Piece::Line(self.line), text(" to "), Piece::Line(*again)]);
                said.push(text(", or of a method called there"));
                said
            }
            Why::Ring(_) => vec![
                text(format!("number {} at line ", Stop::FramesFull.number())),
                Piece::Line(self.line),
                text(format!(
                    " or another of the ring with {} open; {steps} where the steps are taken before",
                    counted(limits::FRAMES as u128, "frame")
                )),
            ],
        }
    }

    /// What the run of this report did there.
    pub fn seen(&self) -> Said {
        let mut said = match (self.called, self.times) {
            (false, _) => vec![text("never: no call of main leads there")],
            (true, None) => vec![text("not counted: the run is too long")],
            (true, Some(times)) => vec![text(format!("done {}", counted(times.into(), "time")))],
        };
        if let Some((number, line)) = self.stop {
            said.push(text(format!("; number {number} at line ")));
            said.push(Piece::Line(line));
            said.push(text(format!(": {}", title(number))));
        }
        said
    }

    /// The line itself, and where it is.
    pub fn place(&self) -> Said {
        let mut said = vec![code(self.text.clone()), text(" in ")];
        said.extend(answers::block(&self.block));
        said
    }
}

/// Is the line the reason's own, or one of its loop?
fn covers(why: &Why, own: u32, line: u32) -> bool {
    match why {
        Why::Loop(again) => (own..=*again).contains(&line),
        Why::Ring(_) => own == line,
    }
}

/// How often each statement is done in so many steps.
pub fn times(script: &Script, steps: u32) -> Option<Vec<u64>> {
    let mut times = vec![0; script.program.statements.len()];
    let mut machine = Machine::new(&script.program);
    while machine.steps < steps.min(AGAIN) {
        let place = machine.frame().next;
        let done = machine.step().ok()?;
        times[place] += 1;
        if done == Step::Done {
            break;
        }
    }
    (machine.steps == steps).then_some(times)
}

/// Every line that leaves no bound, in the order of the text.
pub fn reasons(script: &Script, outcome: Option<&Outcome>) -> Vec<Reason> {
    let routes = Routes::of(script);
    let times = outcome.and_then(|outcome| times(script, outcome.steps()));
    let stop = outcome.filter(|outcome| !outcome.finished());
    let stop = stop.map(|outcome| (outcome.number(), outcome.line()));
    let found = unbounded(script, &routes).into_iter().map(|(place, why)| {
        let line = script.program.statements[place].line;
        let block = script.block_of(place);
        let called = routes.is_called(block);
        Reason {
            line,
            text: quoted(script.text, line),
            block: block_name(script, block),
            stop: stop.filter(|(_, at)| called && covers(&why, line, *at)),
            why,
            called,
            times: times.as_ref().map(|times| times[place]),
        }
    });
    found.collect()
}
