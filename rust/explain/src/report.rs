//! What is said of one file: check's answer with its cause, and the run or the
//! trial if there was one.

use crate::all::{further, Further};
use crate::cause::{cause, explained, open_calls, stop_cause, Cause};
use crate::fmt::formatted;
use crate::warn::{warnings, Warning};
use crate::Answers;
use model::machine::Room;
use nuyardi::{Ending, Kind, Outcome, Refusal, Share};

/// What is asked of a text; the steps that are allowed.
#[derive(Clone, Copy, Debug, PartialEq, Eq)]
pub enum Asked {
    /// Whether it is accepted.
    Check,
    /// A run: of a text that check accepts.
    Run(u32),
    /// The same on the lean machine.
    Lean(u32),
    /// A trial: of each text that the reader takes.
    Trial(u32),
}

impl Asked {
    /// The steps that are allowed.
    pub fn steps(self) -> u32 {
        match self {
            Asked::Check => 0,
            Asked::Run(steps) | Asked::Lean(steps) | Asked::Trial(steps) => steps,
        }
    }
}

/// What is said of one text.
#[derive(Clone, Debug)]
pub struct Report<'a> {
    /// What messages call it.
    pub file: &'a str,
    /// The text.
    pub text: &'a [u8],
    /// What was asked of it.
    pub asked: Asked,
    /// Check's refusal; none if it accepts the text.
    pub refusal: Option<Refusal>,
    /// The cause of the refusal, where one is seen.
    pub cause: Option<Cause>,
    /// The other refusals of a text that was only checked.
    pub further: Vec<Further>,
    /// What check says of the text as `fmt` gives it, where that may help.
    pub formatted: Option<String>,
    /// The warnings, if they were asked for.
    pub warnings: Option<Vec<Warning>>,
    /// None if the text was not run.
    pub ran: Option<Ran<'a>>,
}

/// A run or a trial.
#[derive(Clone, Debug)]
pub struct Ran<'a> {
    /// How it ended.
    pub outcome: Outcome<'a>,
    /// The cause of a stop, where one is seen.
    pub cause: Option<Cause>,
    /// The calls that are open where the run stopped.
    pub open: Vec<String>,
}

impl<'a> Ran<'a> {
    /// A run with so much of the heap.
    fn of(text: &[u8], room: Room, outcome: Outcome<'a>) -> Ran<'a> {
        let stopped = matches!(outcome.ending(), Ending::Stopped(_));
        let (number, steps) = (outcome.number(), outcome.steps());
        // The model takes the steps again, which a run that finished need not wait for.
        let open = stopped.then(|| open_calls(text, steps)).flatten();
        Ran {
            cause: stopped
                .then(|| stop_cause(text, room, steps, number))
                .flatten(),
            open: open.unwrap_or_default(),
            outcome,
        }
    }
}

/// Check's refusal, or the run.
fn ran(answered: Result<Outcome, Refusal>) -> (Option<Refusal>, Option<Outcome>) {
    match answered {
        Ok(outcome) => (None, Some(outcome)),
        Err(refusal) => (Some(refusal), None),
    }
}

/// Check's refusal, and the run or the trial unless the call refused the text.
fn answered<'t>(
    answers: &mut impl Answers,
    text: &'t [u8],
    asked: Asked,
) -> (Option<Refusal>, Option<Outcome<'t>>) {
    match asked {
        Asked::Check => (answers.check(text).err(), None),
        Asked::Run(steps) => ran(answers.run(text, steps)),
        Asked::Lean(steps) => ran(answers.lean(text, steps)),
        Asked::Trial(steps) => {
            let refusal = answers.check(text).err();
            let outcome = answers.trial(text, steps);
            let ran = !matches!(outcome.ending(), Ending::Refused(_));
            (refusal, ran.then_some(outcome))
        }
    }
}

/// What the text as `fmt` gives it would get.
fn after_fmt(answers: &mut impl Answers, text: &[u8], refusal: Refusal) -> Option<String> {
    if !matches!(refusal.kind(), Kind::Byte | Kind::Form) {
        return None;
    }
    let better = formatted(text);
    if better == text || better.len() > nuyardi::limits::TEXT_BYTES {
        return None;
    }
    let Err(next) = answers.check(&better) else {
        return Some("after `station fmt` the text is accepted".to_string());
    };
    if next == refusal {
        return None;
    }
    let why = cause(&better, next).map_or(String::new(), |cause| format!(": {}", cause.text));
    Some(format!(
        "after `station fmt` line {} gets number {}{why}",
        next.line(),
        next.number()
    ))
}

impl<'a> Report<'a> {
    /// Checks the text, and runs it or tries it out if that is asked.
    pub fn of(
        answers: &mut impl Answers,
        file: &'a str,
        text: &'a [u8],
        asked: Asked,
    ) -> Report<'a> {
        let (refusal, outcome) = answered(answers, text, asked);
        let ran = outcome.map(|outcome| Ran::of(text, Room::WHOLE, outcome));
        Report::with(answers, file, text, asked, (refusal, ran))
    }

    /// What a count of so many rounds says of one of its scripts.
    pub fn counted(
        answers: &mut impl Answers,
        file: &'a str,
        script: Share<'a>,
        rounds: u32,
        found: Result<Outcome<'a>, Refusal>,
    ) -> Report<'a> {
        let (text, room) = (script.text, Room::share(script.objects as usize));
        let (refusal, outcome) = ran(found);
        let ran = outcome.map(|outcome| Ran::of(text, room, outcome));
        Report::with(answers, file, text, Asked::Run(rounds), (refusal, ran))
    }

    /// The answer with its cause.
    fn with(
        answers: &mut impl Answers,
        file: &'a str,
        text: &'a [u8],
        asked: Asked,
        (refusal, ran): (Option<Refusal>, Option<Ran<'a>>),
    ) -> Report<'a> {
        let cause = refusal.and_then(|refusal| explained(answers, text, refusal));
        Report {
            file,
            text,
            asked,
            refusal,
            cause,
            further: match (asked, refusal) {
                (Asked::Check, Some(_)) => further(text),
                _ => Vec::new(),
            },
            formatted: refusal.and_then(|refusal| after_fmt(answers, text, refusal)),
            warnings: None,
            ran,
        }
    }

    /// The same with the warnings of the text.
    pub fn warned(self, answers: &mut impl Answers) -> Report<'a> {
        Report {
            warnings: Some(warnings(answers, self.text)),
            ..self
        }
    }

    /// Accepted, or finished where the text was run.
    pub fn good(&self) -> bool {
        match &self.ran {
            Some(ran) => ran.outcome.finished(),
            None => self.refusal.is_none(),
        }
    }
}

/// The columns of a mark, from 1: the first, and the one after the last.
pub fn columns(cause: Option<&Cause>) -> Option<(usize, usize)> {
    let mark = cause?.mark.as_ref()?;
    Some((mark.start + 1, mark.end.max(mark.start + 1) + 1))
}
