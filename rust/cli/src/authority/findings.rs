//! All that a report tells of one script. Numbers, lines, steps and bounds are
//! asked of the library; the tables come from the plain model, and are left out
//! where it answers otherwise.

use super::identity::Identity;
use super::methods::{self, Row};
use super::reasons::{self, Reason};
use explain::cause::{bound_cause, Cause};
use explain::report::{Asked, Report};
use explain::routes::{Leg, Routes};
use explain::script::Script;
use explain::Answers;
use model::Judged;
use nuyardi::{limits, Bound, Excess, NoBound, Outcome, Refusal};

pub struct Findings<'a> {
    pub identity: Identity,
    pub text: &'a [u8],
    /// The steps that the run is allowed.
    pub allowed: u32,
    /// What check and run answered.
    pub answered: Report<'a>,
    pub bound: Result<Bound, NoBound>,
    /// The text as the model reads it, if it answers as the library does.
    pub script: Option<Script<'a>>,
    pub methods: Vec<Row>,
    /// The calls from which most of the bound comes.
    pub route: Vec<Leg>,
    /// The lines that leave no bound.
    pub reasons: Vec<Reason>,
    /// Why there is no bound.
    pub cause: Option<Cause>,
}

/// The text as the model reads it, if check and bound answer as the library does.
fn agreed<'a>(text: &'a [u8], bound: Result<Bound, NoBound>) -> Option<Script<'a>> {
    let found = Judged::new(text).bound();
    let same = match bound {
        Ok(bound) => (found.number, found.bound, found.frames) == (0, bound.steps, bound.frames),
        Err(none) => (found.number, found.line) == (none.number(), none.line()),
    };
    Script::of(text).filter(|_| same)
}

/// The most expensive route, where no call leads back.
fn route(script: &Script, bound: Result<Bound, NoBound>) -> Vec<Leg> {
    match bound {
        Ok(_)
        | Err(NoBound::Accepted {
            excess: Excess::BoundPassed,
            ..
        }) => Routes::of(script).costliest(),
        Err(_) => Vec::new(),
    }
}

/// The reasons of an accepted text, of which the first must be the library's.
fn reasons(script: &Script, bound: Result<Bound, NoBound>, ran: Option<&Outcome>) -> Vec<Reason> {
    let Err(NoBound::Accepted { line, .. }) = bound else {
        return Vec::new();
    };
    let found = reasons::reasons(script, ran);
    match found.first().map(|first| first.line) == Some(line) {
        true => found,
        false => Vec::new(),
    }
}

impl<'a> Findings<'a> {
    /// Asks who answers, with so many steps allowed, else as many as the bound
    /// says, else as many as the program allows.
    pub fn of(
        answers: &mut impl Answers,
        file: &'a str,
        text: &'a [u8],
        steps: Option<u32>,
        time: Option<String>,
    ) -> Findings<'a> {
        let bound = answers.bound(text);
        let usual = bound.map_or(limits::PROGRAM_STEPS as u32, |bound| bound.steps);
        let allowed = steps.unwrap_or(usual);
        let answered = Report::of(answers, file, text, Asked::Run(allowed));
        let script = agreed(text, bound);
        let ran = answered.ran.as_ref().map(|ran| &ran.outcome);
        let cause = match bound {
            Err(NoBound::Accepted { excess, line }) => bound_cause(text, excess, line),
            _ => None,
        };
        Findings {
            identity: Identity::of(file, text, time),
            text,
            allowed,
            bound,
            methods: script.as_ref().map(methods::rows).unwrap_or_default(),
            route: script
                .as_ref()
                .map(|script| route(script, bound))
                .unwrap_or_default(),
            reasons: script
                .as_ref()
                .map(|script| reasons(script, bound, ran))
                .unwrap_or_default(),
            cause,
            answered,
            script,
        }
    }

    /// The run, if the text was run.
    pub fn outcome(&self) -> Option<&Outcome<'a>> {
        self.answered.ran.as_ref().map(|ran| &ran.outcome)
    }

    pub fn refusal(&self) -> Option<Refusal> {
        self.answered.refusal
    }

    /// What check says of the text as `fmt` gives it, where no fix is told.
    pub fn after_fmt(&self) -> Option<&str> {
        let cause = self.answered.cause.as_ref();
        let fixed = cause.is_some_and(|cause| cause.fix.is_some());
        self.answered.formatted.as_deref().filter(|_| !fixed)
    }
}
