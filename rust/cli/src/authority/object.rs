//! The report as a JSON object.

use super::answers;
use super::claims::{Theorem, ASSUMED};
use super::findings::Findings;
use super::identity::build;
use super::methods::Row;
use super::reasons::Reason;
use super::said::plain;
use super::stops::{self, Basis, StopRow, Verdict};
use explain::json::Json;
use explain::objects;
use explain::routes::Leg;
use explain::routes::Why;
use nuyardi::NoBound;

fn theorem(theorem: &Theorem) -> Json {
    Json::object()
        .with("theorem", theorem.name)
        .with("source", theorem.file)
}

fn method(row: &Row) -> Json {
    let handed = row.handed.iter().map(|handed| {
        Json::object()
            .with("path", handed.path.as_str())
            .with("share", handed.share.word())
            .with_some("other", handed.share.other().cloned())
            .with("written", handed.written)
            .with("back", handed.back)
    });
    let written = row.written.iter().map(|write| {
        Json::object()
            .with("path", write.path.as_str())
            .with("line", write.line)
            .with_some("by", write.by.clone())
    });
    let places = |places: &[(String, u32)], name: &str| {
        let places = places.iter();
        let places =
            places.map(|(what, line)| Json::object().with(name, what.as_str()).with("line", *line));
        Json::List(places.collect())
    };
    let (name, class) = row.method.clone().unzip();
    Json::object()
        .with("method", name)
        .with("class", class)
        .with("line", row.line)
        .with("handed", Json::List(handed.collect()))
        .with("writes", Json::List(written.collect()))
        .with("makes", places(&row.makes, "class"))
        .with("callers", places(&row.callers, "method"))
}

fn leg(text: &[u8], leg: &Leg) -> Json {
    let number = |count: u128| Json::from(usize::try_from(count).unwrap_or(usize::MAX));
    Json::object()
        .with("line", leg.line)
        .with_some("text", objects::line_text(text, leg.line))
        .with("adds", number(leg.bound))
        .with("own", number(leg.own))
        .with("calls", leg.calls)
}

fn reason(text: &[u8], reason: &Reason) -> Json {
    let (kind, way) = match &reason.why {
        Why::Loop(again) => ("loop", vec![*again]),
        Why::Ring(calls) => ("ring", calls.clone()),
    };
    let times = reason.times.and_then(|times| usize::try_from(times).ok());
    Json::object()
        .with("line", reason.line)
        .with_some("text", objects::line_text(text, reason.line))
        .with("kind", kind)
        .with("way", way)
        .with("called", reason.called)
        .with("times", times)
        .with("says", plain(&reason.says()))
}

fn stop(row: &StopRow) -> Json {
    let steps = match row.verdict {
        Verdict::NotWith(steps) | Verdict::Comes { steps, .. } => Some(steps),
        Verdict::Never | Verdict::Possible(_) => None,
    };
    let object = Json::object()
        .with("number", row.stop.number())
        .with("verdict", row.verdict.word())
        .with_some("steps", steps)
        .with("lines", row.verdict.lines())
        .with("basis", row.basis.word());
    match &row.basis {
        Basis::Theorem(by, _) => object.with("proof", theorem(by)),
        Basis::Count(_) | Basis::Run(_) => object,
    }
    .with("says", plain(&row.basis.said()))
}

fn identity(findings: &Findings) -> Json {
    let identity = &findings.identity;
    let content = identity.content.as_ref();
    let object = Json::object()
        .with("file", identity.file.as_str())
        .with("call", "report")
        .with("bytes", content.map(|content| content.0))
        .with("sha256", content.map(|content| content.1.as_str()));
    build(object).with_some("time", identity.time.as_deref())
}

/// The bound, or why there is none.
fn bounds(object: Json, findings: &Findings) -> Json {
    let bound = findings.bound.ok();
    let none = match findings.bound {
        Err(none @ NoBound::Accepted { .. }) => {
            let object = Json::object()
                .with("number", none.number())
                .with("line", none.line());
            Some(objects::with_cause(object, findings.cause.as_ref()))
        }
        _ => None,
    };
    let legs: Vec<Json> = findings
        .route
        .iter()
        .map(|one| leg(findings.text, one))
        .collect();
    let reasons = findings
        .reasons
        .iter()
        .map(|one| reason(findings.text, one));
    object
        .with_some("bound", bound.map(|bound| bound.steps))
        .with_some("frames", bound.map(|bound| bound.frames))
        .with_some("excess", none)
        .with("route", legs)
        .with("reasons", Json::List(reasons.collect()))
}

pub fn report(findings: &Findings) -> Json {
    let proofs = |answer: answers::Answer| {
        let theorems = answer.theorems.into_iter().map(theorem);
        Json::List(theorems.collect())
    };
    let methods = findings.methods.iter().map(method);
    let object = identity(findings)
        .with("check", objects::check(Json::object(), &findings.answered))
        .with("proofs", proofs(answers::alters(findings)))
        .with("unseen", proofs(answers::learns(findings)))
        .with("methods", Json::List(methods.collect()));
    let ran = findings.answered.ran.as_ref();
    let ran = ran.map(|_| objects::report(&findings.answered));
    let assumed = ASSUMED.iter().map(|assumed| {
        Json::object()
            .with("says", assumed.what)
            .with("link", assumed.link())
    });
    let stops = stops::rows(findings);
    bounds(object, findings)
        .with_some("run", ran)
        .with("stops", Json::List(stops.iter().map(stop).collect()))
        .with("assumed", Json::List(assumed.collect()))
}
