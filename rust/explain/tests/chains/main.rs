//! What is said of chains: which link is missing, where one was opened and not shut,
//! rings with their cards, the fixes that are tried, and how lists, traces, cards
//! and drawings show chains.

mod refused;
mod shown;
mod stopped;

use explain::cause::cause;
use explain::{Asked, Cause, Model, Report};

const WALK: &[u8] = include_bytes!("../../../../examples/walk.script");
const KNOT: &[u8] = include_bytes!("../../../../examples/knot.script");
const UNSHUT: &[u8] = include_bytes!("../../../../examples/unshut.script");

/// A text with tabs for blanks: classes and methods, then main with three cards,
/// whose first statement is on line 9 if there are no methods.
fn script(methods: &str, statements: &str) -> Vec<u8> {
    let main = "main|var S s|var S t|var S u|var int a";
    let lines = format!("class S|field S p|field int n{methods}|{main}{statements}|end|");
    lines.replace('|', "\n").replace(' ', "\t").into_bytes()
}

/// Three cards, s before t before u.
const THREE: &str = "|new s S|new t S|new u S|set s p t|set t p u";

fn refused(text: &[u8], number: u32) -> Cause {
    let report = Report::of(&mut Model, "a", text, Asked::Check);
    let refusal = report.refusal.expect("a refusal");
    assert_eq!(refusal.number(), number);
    cause(text, refusal).expect("a cause")
}

fn fixed(text: &[u8]) -> Option<String> {
    let report = Report::of(&mut Model, "a", text, Asked::Check);
    let fix = report.cause.expect("a cause").fix;
    fix.map(|fix| fix.said())
}

fn stopped(text: &[u8], number: u32) -> Cause {
    let report = Report::of(&mut Model, "a", text, Asked::Trial(1_000));
    let ran = report.ran.expect("a trial");
    assert_eq!(ran.outcome.number(), number);
    ran.cause.expect("a cause")
}
