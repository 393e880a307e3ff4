//! The stops 21 to 27: which of them can come in a run, and on what that rests.

use super::claims::{Theorem, BOUND, EVERY_RUN, FRAMES_FIT, NEVER_STUCK};
use super::counts::{cards_said, room_for, Counts};
use super::findings::Findings;
use super::said::{self, text, Piece, Said};
use explain::show::counted;
use model::names::Action;
use nuyardi::{limits, NoBound, Stop};

/// Whether a stop can come.
#[derive(Clone, Debug, PartialEq, Eq)]
pub enum Verdict {
    Never,
    /// Not in a run that is allowed so many steps.
    NotWith(u32),
    /// The run of this report ends so.
    Comes {
        line: u32,
        steps: u32,
    },
    /// It is not ruled out, and comes at one of these lines, if any are told.
    Possible(Vec<u32>),
}

/// On what a verdict rests.
pub enum Basis {
    Theorem(&'static Theorem, Said),
    /// A count over the text, by the plain model.
    Count(Said),
    /// What the library's run answered. A run has no input: each does the same.
    Run(Said),
}

pub struct StopRow {
    pub stop: Stop,
    pub verdict: Verdict,
    pub basis: Basis,
}

impl Verdict {
    /// One word for programs.
    pub fn word(&self) -> &'static str {
        match self {
            Verdict::Never => "never",
            Verdict::NotWith(_) => "bounded",
            Verdict::Comes { .. } => "comes",
            Verdict::Possible(_) => "possible",
        }
    }

    /// The lines at which it comes or can come.
    pub fn lines(&self) -> Vec<u32> {
        match self {
            Verdict::Comes { line, .. } => vec![*line],
            Verdict::Possible(lines) => lines.clone(),
            _ => Vec::new(),
        }
    }

    pub fn said(&self) -> Said {
        match self {
            Verdict::Never => vec![text("never")],
            Verdict::NotWith(steps) => {
                vec![text(format!(
                    "not with {}",
                    counted((*steps).into(), "step")
                ))]
            }
            Verdict::Comes { line, steps } => vec![
                text("it comes: line "),
                Piece::Line(*line),
                text(format!(", after {}", counted((*steps).into(), "step"))),
            ],
            Verdict::Possible(lines) if lines.is_empty() => vec![text("possible")],
            Verdict::Possible(lines) => {
                let mut said = vec![text("possible: ")];
                said.extend(said::lines(lines));
                said
            }
        }
    }
}

impl Basis {
    pub fn word(&self) -> &'static str {
        match self {
            Basis::Theorem(..) => "theorem",
            Basis::Count(_) => "count",
            Basis::Run(_) => "run",
        }
    }

    /// The words after the kind of basis.
    pub fn said(&self) -> Said {
        let (mut start, rest) = match self {
            Basis::Theorem(theorem, said) => {
                let named = format!("{}, {}", theorem.name, theorem.file);
                let colon = if said.is_empty() { "" } else { ": " };
                (vec![text(named), text(colon)], said)
            }
            Basis::Count(said) | Basis::Run(said) => (Vec::new(), said),
        };
        start.extend(rest.iter().cloned());
        start
    }
}

/// What the run answered, as a reason.
fn by_run(findings: &Findings) -> Option<Basis> {
    let outcome = findings.outcome()?;
    let steps = counted(outcome.steps().into(), "step");
    let said = match outcome.number() {
        0 => format!("it finishes after {steps}; a run has no input, so each does the same"),
        number => {
            format!("it stops after {steps} with number {number}; a run has no input, so each does the same")
        }
    };
    Some(Basis::Run(vec![text(said)]))
}

/// The run of this report ends with the stop.
fn comes(findings: &Findings, stop: Stop) -> Option<StopRow> {
    let outcome = findings.outcome()?;
    (outcome.number() == stop.number()).then(|| StopRow {
        stop,
        verdict: Verdict::Comes {
            line: outcome.line(),
            steps: outcome.steps(),
        },
        basis: Basis::Run(vec![text(format!(
            "with {} allowed",
            counted(findings.allowed.into(), "step")
        ))]),
    })
}

/// Has the run of this report come to its end, so that no further step is done in
/// any other?
fn ended(findings: &Findings) -> bool {
    let outcome = findings.outcome();
    outcome.is_some_and(|outcome| outcome.number() != Stop::OutOfSteps.number())
}

/// A stop for which the text's lines were looked at: by the count, then by the run.
fn counted_row(findings: &Findings, stop: Stop, lines: Vec<u32>, count: Said) -> StopRow {
    if let Some(row) = comes(findings, stop) {
        return row;
    }
    let by_run = by_run(findings).filter(|_| ended(findings));
    let (verdict, basis) = match (lines.is_empty(), by_run) {
        (true, _) => (Verdict::Never, Basis::Count(count)),
        (false, Some(run)) => (Verdict::Never, run),
        (false, None) => (Verdict::Possible(lines), Basis::Count(count)),
    };
    StopRow {
        stop,
        verdict,
        basis,
    }
}

/// 21: the bound, else the run.
fn out_of_steps(findings: &Findings) -> StopRow {
    let stop = Stop::OutOfSteps;
    let row = |verdict, basis| StopRow {
        stop,
        verdict,
        basis,
    };
    if let Ok(bound) = findings.bound {
        let basis = Basis::Theorem(&BOUND, Vec::new());
        return row(Verdict::NotWith(bound.steps), basis);
    }
    if let Some(row) = comes(findings, stop) {
        return row;
    }
    // The step that stops needs one more to be tried.
    let steps = findings.outcome().map(|outcome| match outcome.number() {
        0 => outcome.steps(),
        _ => outcome.steps().saturating_add(1),
    });
    match steps.zip(by_run(findings)) {
        Some((steps, run)) => row(Verdict::NotWith(steps), run),
        None => row(Verdict::Possible(Vec::new()), Basis::Count(Vec::new())),
    }
}

fn heap_full(findings: &Findings, counts: &Counts) -> StopRow {
    let cards = counts.cards();
    let lines = match cards.is_some_and(room_for) {
        true => Vec::new(),
        false => counts.lines(|statement| matches!(statement.action, Action::New(..))),
    };
    counted_row(findings, Stop::HeapFull, lines, cards_said(cards))
}

fn frames_full(findings: &Findings, counts: &Counts) -> StopRow {
    let bound = findings.bound.ok();
    let fit = bound.filter(|bound| bound.frames as usize <= limits::FRAMES);
    if let Some(bound) = fit {
        let frames = counted(bound.frames.into(), "frame");
        let said = format!("at most {frames} of {}", limits::FRAMES);
        return StopRow {
            stop: Stop::FramesFull,
            verdict: Verdict::Never,
            basis: Basis::Theorem(&FRAMES_FIT, vec![text(said)]),
        };
    }
    let lines = counts.too_deep();
    let said = match lines.is_empty() {
        true => format!("no call can be done with {} frames open", limits::FRAMES),
        false => format!("calls lead on with {} frames open", limits::FRAMES),
    };
    counted_row(findings, Stop::FramesFull, lines, vec![text(said)])
}

fn overflow(findings: &Findings, counts: &Counts) -> StopRow {
    let lines = counts.lines(|statement| matches!(statement.action, Action::Compute(_)));
    let said = match lines.is_empty() {
        true => said::sentence("no line that main comes to is an `add` or a `sub`"),
        false => said::sentence("each `add` and `sub` that main comes to"),
    };
    counted_row(findings, Stop::Overflow, lines, said)
}

/// A row for each stop.
pub fn rows(findings: &Findings) -> Vec<StopRow> {
    if let Err(NoBound::Refused(refusal)) = findings.bound {
        let said = format!("run refuses the text with number {}", refusal.number());
        let row = |&stop| StopRow {
            stop,
            verdict: Verdict::Never,
            basis: Basis::Theorem(&EVERY_RUN, vec![text(said.clone())]),
        };
        return Stop::ALL.iter().map(row).collect();
    }
    let counts = findings.script.as_ref().map(Counts::of);
    let row = |&stop| match (stop, &counts) {
        (Stop::OutOfSteps, _) => out_of_steps(findings),
        (Stop::HeapFull, Some(counts)) => heap_full(findings, counts),
        (Stop::FramesFull, Some(counts)) => frames_full(findings, counts),
        (Stop::Overflow, Some(counts)) => overflow(findings, counts),
        (Stop::PermissionMissing | Stop::NullFollowed | Stop::FormulaFalse, _) => StopRow {
            stop,
            verdict: Verdict::Never,
            basis: Basis::Theorem(&NEVER_STUCK, Vec::new()),
        },
        _ => comes(findings, stop).unwrap_or(StopRow {
            stop,
            verdict: Verdict::Possible(Vec::new()),
            basis: Basis::Count(vec![text("nothing was counted")]),
        }),
    };
    Stop::ALL.iter().map(row).collect()
}
