//! A bound: the most steps and frames of a run, known before it, and
//! where they come from.

use crate::cause::{bound_cause, Cause};
use crate::json::Json;
use crate::objects;
use crate::report::{Asked, Report};
use crate::routes::{Leg, Routes};
use crate::script::{quoted, Script};
use crate::show::{self, counted, grouped, wrapped, Paint, Shown};
use crate::Answers;
use nuyardi::{limits, Bound, Excess, NoBound};
use std::fmt::Write;

/// What bound answers of one file.
pub struct Bounded<'a> {
    file: &'a str,
    text: &'a [u8],
    /// The bound, or why there is none.
    pub found: Result<Bound, NoBound>,
    cause: Option<Cause>,
    /// What check says of a text that it refuses.
    refused: Option<Report<'a>>,
    /// The most expensive route of calls, if it is asked for and the model agrees.
    route: Vec<Leg>,
}

impl<'a> Bounded<'a> {
    /// The bound of a text, and if that is asked the calls that it comes from.
    pub fn of(answers: &mut impl Answers, file: &'a str, text: &'a [u8], why: bool) -> Bounded<'a> {
        let found = answers.bound(text);
        let (cause, refused) = match found {
            Err(NoBound::Accepted { excess, line }) => (bound_cause(text, excess, line), None),
            Err(_) => (None, Some(Report::of(answers, file, text, Asked::Check))),
            Ok(_) => (None, None),
        };
        let route = why.then(|| route(text, found)).flatten();
        Bounded {
            file,
            text,
            found,
            cause,
            refused,
            route: route.unwrap_or_default(),
        }
    }

    /// What a person reads.
    pub fn shown(&self, paint: Paint) -> String {
        if let Some(refused) = &self.refused {
            return show::report(refused, paint);
        }
        let mut out = String::new();
        match self.found {
            Ok(bound) => given(&mut out, self.file, bound, paint),
            Err(NoBound::Accepted { excess, line }) => {
                let (place, number) = (show::place(self.file, line), excess.number());
                let cause = self.cause.as_ref();
                let (said, why) = (paint.bad("no bound"), show::headline(number, cause));
                let _ = writeln!(out, "{place}: {said}, number {number}: {why}");
                show::snippet(&mut out, paint, self.text, line, None);
                let mut shown = Shown::at(self.text, line, paint);
                show::reasons(&mut out, &mut shown, number, cause);
            }
            Err(_) => {}
        }
        for (at, leg) in self.route.iter().enumerate() {
            wrapped(&mut out, "  route: ", &route_row(self.text, at, leg));
        }
        out
    }

    /// The same as JSON.
    pub fn json(&self) -> Json {
        let object = Json::object().with("file", self.file).with("call", "bound");
        let (number, line) = self
            .found
            .map_or_else(|none| (none.number(), none.line()), |_| (0, 0));
        let object = match &self.refused {
            Some(refused) => objects::check(object, refused),
            None => {
                let object = object.with("accepted", true).with("number", number);
                objects::with_cause(object.with("line", line), self.cause.as_ref())
            }
        };
        let object = object
            .with_some("bound", self.found.ok().map(|bound| bound.steps))
            .with_some("frames", self.found.ok().map(|bound| bound.frames));
        let legs: Vec<Json> = self
            .route
            .iter()
            .map(|leg| leg_json(self.text, leg))
            .collect();
        let object = object.with_some("route", (!legs.is_empty()).then_some(legs));
        objects::words(object, number).with_some("text", objects::line_text(self.text, line))
    }
}

/// The most expensive route of an accepted text whose calls lead nowhere back.
fn route(text: &[u8], found: Result<Bound, NoBound>) -> Option<Vec<Leg>> {
    let model = model::bound(text);
    let (number, steps) = match found {
        Ok(bound) => (0, bound.steps),
        Err(NoBound::Accepted {
            excess: Excess::BoundPassed,
            ..
        }) => (Excess::BoundPassed.number(), 0),
        Err(_) => return None,
    };
    let script = Script::of(text).filter(|_| (model.number, model.bound) == (number, steps))?;
    Some(Routes::of(&script).costliest())
}

/// The bound, and a word on frames that no run has.
fn given(out: &mut String, file: &str, bound: Bound, paint: Paint) {
    let steps = paint.good(&counted(bound.steps.into(), "step"));
    let frames = counted(bound.frames.into(), "frame");
    let _ = writeln!(out, "{file}: at most {steps}, {frames}");
    if bound.frames as usize > limits::FRAMES {
        let said = format!(
            "a run has {}, and stops with number 23 where it needs one more",
            counted(limits::FRAMES as u128, "frame")
        );
        wrapped(out, "   note: ", &said);
    }
}

/// A row for main, then one for each call.
fn route_row(text: &[u8], at: usize, leg: &Leg) -> String {
    let steps = grouped(leg.bound);
    let start = match at {
        0 => format!("main takes {steps}"),
        _ => format!(
            "line {}: `{}` adds {steps}",
            leg.line,
            quoted(text, leg.line)
        ),
    };
    let calls = match leg.calls {
        0 => String::new(),
        1 => ", 1 of them a call".to_string(),
        calls => format!(", {calls} of them calls"),
    };
    format!("{start}: {}{calls}", counted(leg.own, "line"))
}

fn leg_json(text: &[u8], leg: &Leg) -> Json {
    let number = |count: u128| Json::from(usize::try_from(count).unwrap_or(usize::MAX));
    Json::object()
        .with("line", leg.line)
        .with_some("text", objects::line_text(text, leg.line))
        .with("adds", number(leg.bound))
        .with("own", number(leg.own))
        .with("calls", leg.calls)
}
