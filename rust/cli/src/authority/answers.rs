//! The answers in sentences, for the text and the page.

use super::claims::{Theorem, AT_A_LINE, BOUND, EVERY_RUN, FRAMES, FUNCTION, TRIAL, UNSEEN};
use super::findings::Findings;
use super::handed::Share;
use super::methods::{Handed, Row};
use super::said::{self, code, joined, sentence, text, Piece, Said};
use explain::routes::Leg;
use explain::script::quoted;
use explain::show::{counted, grouped, title};
use nuyardi::{Kind, NoBound, Refusal};

/// An answer, and the theorems that it rests on.
pub struct Answer {
    /// One word or a few.
    pub short: String,
    /// What stands after it, before the rest.
    pub mark: &'static str,
    pub said: Said,
    pub theorems: Vec<&'static Theorem>,
}

fn answer(short: &str, words: &str, theorems: &[&'static Theorem]) -> Answer {
    Answer {
        short: short.to_string(),
        mark: ". ",
        said: sentence(words),
        theorems: theorems.to_vec(),
    }
}

/// Does the reader take a text that is refused so? Such a text can be tried out.
fn is_read(refusal: Refusal) -> bool {
    refusal.number() >= Kind::Unframed.number()
}

/// `number 12 at line 6: a permission that is not shown`.
pub fn number_at(number: u32, line: u32) -> Said {
    let mut said = vec![text(format!("number {number}"))];
    if line != 0 {
        said.extend([text(" at line "), Piece::Line(line)]);
    }
    said.push(text(format!(": {}", title(number))));
    said
}

/// Accepted, or refused with number and line.
pub fn decision(findings: &Findings) -> Answer {
    let Some(refusal) = findings.refusal() else {
        return answer("accepted", "", &[]);
    };
    Answer {
        short: "refused".to_string(),
        mark: ": ",
        said: number_at(refusal.number(), refusal.line()),
        theorems: is_read(refusal).then_some(&AT_A_LINE).into_iter().collect(),
    }
}

/// Can it alter a card that it was not handed?
pub fn alters(findings: &Findings) -> Answer {
    match findings.refusal() {
        None => answer(
            "No",
            "From a `call` to its end, each field of a card that was there at the call keeps its \
             value, unless the method's `requires` hands it over whole.",
            &[&EVERY_RUN],
        ),
        Some(refusal) if is_read(refusal) => answer(
            "No, it does not run",
            "A run refuses it and does no step. In a trial, too, each field of a card that was \
             there at a call keeps its value, unless `requires` hands it over whole.",
            &[&EVERY_RUN, &TRIAL],
        ),
        Some(_) => answer(
            "No, it does not run",
            "A run refuses it and does no step.",
            &[&EVERY_RUN],
        ),
    }
}

/// If it does not finish, which line is the reason?
pub fn finishes(findings: &Findings) -> Answer {
    match findings.bound {
        Ok(bound) => Answer {
            short: format!(
                "At most {}, {}",
                counted(bound.steps.into(), "step"),
                counted(bound.frames.into(), "frame")
            ),
            mark: ". ",
            said: sentence(
                "No run takes more, and none that is allowed so many ends for want of steps.",
            ),
            theorems: vec![&BOUND, &FRAMES],
        },
        Err(NoBound::Accepted { excess, line }) => Answer {
            short: "No bound".to_string(),
            mark: ": ",
            said: number_at(excess.number(), line),
            theorems: Vec::new(),
        },
        Err(none) => Answer {
            short: "It does not run".to_string(),
            mark: ": ",
            said: number_at(none.number(), none.line()),
            theorems: vec![&EVERY_RUN],
        },
    }
}

/// Can it learn what it was not handed?
pub fn learns(findings: &Findings) -> Answer {
    match findings.refusal() {
        None => answer(
            "No",
            "From a method's first line to its end, its lines, its count of steps, its result and \
             its stop are the same, whatever stands in fields of which its `requires` hands over \
             nothing.",
            &[&UNSEEN, &FUNCTION],
        ),
        Some(refusal) if is_read(refusal) => answer(
            "No, it does not run",
            "A run refuses it and does no step. In a trial, too, a method's lines, count of steps, \
             result and stop are the same, whatever stands in fields of which its `requires` hands \
             over nothing.",
            &[&EVERY_RUN, &UNSEEN],
        ),
        Some(_) => answer(
            "No, it does not run",
            "A run refuses it and does no step.",
            &[&EVERY_RUN],
        ),
    }
}

/// How the run ended; none if the text was not run.
pub fn run(findings: &Findings) -> Option<Said> {
    let outcome = findings.outcome()?;
    let steps = counted(outcome.steps().into(), "step");
    let mut said = vec![text(match outcome.finished() {
        true => "finished at line ",
        false => "stopped at line ",
    })];
    said.push(Piece::Line(outcome.line()));
    said.push(text(match outcome.number() {
        0 => format!(" after {steps}"),
        number => format!(" after {steps}, number {number}: {}", title(number)),
    }));
    Some(said)
}

/// What a leg of the route is: main, or a call.
pub fn leg_said(source: &[u8], at: usize, leg: &Leg) -> Said {
    match at {
        0 => vec![text("main")],
        _ => vec![code(quoted(source, leg.line))],
    }
}

/// `5 lines, 3 of them calls`.
pub fn leg_lines(leg: &Leg) -> String {
    let calls = match leg.calls {
        0 => String::new(),
        1 => ", 1 of them a call".to_string(),
        calls => format!(", {} of them calls", grouped(calls as u128)),
    };
    format!("{}{calls}", counted(leg.own, "line"))
}

/// The columns of question 1. Of the first two it is proved what a call can do,
/// the others are read off the text.
pub const COLUMNS: [&str; 7] = [
    "handed over",
    "for reading",
    "written",
    "only read",
    "not given back",
    "cards it makes",
    "called from",
];

fn at_line(mut said: Said, line: u32) -> Said {
    said.extend([text(" (line "), Piece::Line(line), text(")")]);
    said
}

/// A method by its name, or main.
pub fn block(name: &str) -> Said {
    match name {
        "main" => vec![text("main")],
        name => vec![code(name)],
    }
}

/// A path that is handed over, with what that hangs on, if it does.
fn handed_if(handed: &Handed, is: &str) -> Said {
    let mut said = vec![code(handed.path.clone())];
    if let Share::Either(other) = &handed.share {
        said.extend([
            text(" (if "),
            code(other.clone()),
            text(format!(" is {is})")),
        ]);
    }
    said
}

/// What is handed over whole.
fn whole(row: &Row) -> Said {
    let handed = row.handed.iter();
    let whole = handed.filter(|handed| handed.share != Share::Half);
    joined(whole.map(|handed| handed_if(handed, "the same")), "nothing")
}

/// What is handed over for reading.
fn for_reading(row: &Row) -> Said {
    let handed = row.handed.iter();
    let half = handed.filter(|handed| !matches!(handed.share, Share::Whole | Share::Chain));
    joined(half.map(|handed| handed_if(handed, "another")), "nothing")
}

/// What is not given back, and of which chains perhaps not all is.
fn kept(row: &Row) -> Said {
    let kept = row.handed.iter().filter(|handed| !handed.back);
    let said = kept.map(|handed| match handed.perhaps {
        true => vec![text("perhaps a part of "), code(handed.path.clone())],
        false => vec![code(handed.path.clone())],
    });
    joined(said, "nothing")
}

/// What stands in the columns for a method or main.
pub fn cells(row: &Row) -> [Said; 7] {
    let paths = |wanted: &dyn Fn(&Handed) -> bool| {
        let wanted = row.handed.iter().filter(|handed| wanted(handed));
        joined(
            wanted.map(|handed| vec![code(handed.path.clone())]),
            "nothing",
        )
    };
    let written = row.written.iter().map(|write| {
        let mut said = vec![code(write.path.clone())];
        if let Some(by) = &write.by {
            said.extend([text(" by "), code(by.clone())]);
        }
        at_line(said, write.line)
    });
    let makes = row.makes.iter();
    let makes = makes.map(|(class, line)| at_line(vec![code(class.clone())], *line));
    let callers = row.callers.iter();
    let callers = callers.map(|(name, line)| at_line(block(name), *line));
    let never = if row.method.is_some() {
        "nowhere"
    } else {
        "the host"
    };
    [
        whole(row),
        for_reading(row),
        joined(written, "nothing"),
        paths(&|handed| !handed.written),
        kept(row),
        joined(makes, "none"),
        joined(callers, never),
    ]
}

/// How a row is called: `mark` of class Card, or main.
pub fn row_title(row: &Row) -> Said {
    match &row.method {
        Some((name, class)) => vec![code(name.clone()), text(format!(" of class {class}"))],
        None => vec![text("main")],
    }
}

/// `theorem every-run-returned, crates/..`.
pub fn theorem_said(theorem: &Theorem) -> Said {
    said::sentence(&format!("{}, {}", theorem.name, theorem.file))
}
