//! The script on the page: its lines with their numbers, and beside each what the
//! tables say of it.

use super::findings::Findings;
use super::handed::Share;
use super::html::escaped;
use super::methods::Row;
use super::said::line_id;
use super::stops::{self, Verdict};
use explain::show::{counted, grouped, shown};
use nuyardi::{limits, Stop};

/// A word beside a line, and the row of a table that it leads to.
pub struct Mark {
    pub line: u32,
    pub words: String,
    /// The id of the row, without the script's prefix.
    pub row: String,
}

pub fn method_id(at: usize) -> String {
    format!("method-{}", at + 1)
}

pub fn reason_id(at: usize) -> String {
    format!("reason-{}", at + 1)
}

pub fn leg_id(at: usize) -> String {
    format!("route-{}", at + 1)
}

pub fn stop_id(stop: Stop) -> String {
    format!("stop-{}", stop.number())
}

fn mark(line: u32, words: impl Into<String>, row: impl Into<String>) -> Mark {
    Mark {
        line,
        words: words.into(),
        row: row.into(),
    }
}

/// What a method is handed: after the paths how much of them.
fn handed(row: &Row) -> Vec<(&'static str, String)> {
    let share = |share: &Share<String>| match share {
        Share::Whole | Share::Chain => "",
        Share::Half => ", for reading",
        Share::Either(_) => ", for reading, or whole if of one card",
    };
    let mut all: Vec<(&'static str, String)> = Vec::new();
    for handed in &row.handed {
        let (share, path) = (share(&handed.share), handed.path.as_str());
        match all.iter_mut().find(|(known, _)| *known == share) {
            Some((_, paths)) => *paths += &format!(", {path}"),
            None => all.push((share, path.to_string())),
        }
    }
    all
}

/// What the table of methods says of lines.
fn of_methods(findings: &Findings, marks: &mut Vec<Mark>) {
    for (at, row) in findings.methods.iter().enumerate() {
        let id = method_id(at);
        for (share, words) in handed(row) {
            marks.push(mark(row.line, format!("is handed {words}{share}"), &id));
        }
        for write in &row.written {
            let words = match &write.by {
                None => format!("writes {}", write.path),
                Some(by) => format!("{by} writes {}", write.path),
            };
            marks.push(mark(write.line, words, &id));
        }
        for (class, line) in &row.makes {
            marks.push(mark(*line, format!("makes a card: {class}"), &id));
        }
    }
}

/// What the answers to question 2 and the stops say of lines.
fn of_runs(findings: &Findings, marks: &mut Vec<Mark>) {
    for (at, leg) in findings.route.iter().enumerate().skip(1) {
        let words = format!("adds {}", counted(leg.bound, "step"));
        marks.push(mark(leg.line, words, leg_id(at)));
    }
    for (at, reason) in findings.reasons.iter().enumerate() {
        marks.push(mark(reason.line, "leaves no bound", reason_id(at)));
    }
    for row in stops::rows(findings) {
        let number = row.stop.number();
        let words = match row.verdict {
            Verdict::Comes { .. } => format!("stops: {number}"),
            _ => format!("can stop: {number}"),
        };
        let lines = row.verdict.lines().into_iter();
        marks.extend(lines.map(|line| mark(line, words.clone(), stop_id(row.stop))));
    }
    if let Some(outcome) = findings.outcome().filter(|outcome| outcome.finished()) {
        marks.push(mark(outcome.line(), "finished here", "run"));
    }
}

/// All marks, by their lines.
pub fn marks(findings: &Findings) -> Vec<Mark> {
    let mut marks = Vec::new();
    if let Some(refusal) = findings.refusal() {
        let words = format!("refused: {}", refusal.number());
        marks.push(mark(refusal.line(), words, "decision"));
    }
    of_methods(findings, &mut marks);
    of_runs(findings, &mut marks);
    marks.sort_by_key(|mark| mark.line);
    marks
}

/// The lines of the text, without their LF.
fn lines(text: &[u8]) -> impl Iterator<Item = &[u8]> {
    let lines = text.split_inclusive(|&byte| byte == b'\n');
    lines.map(|line| line.strip_suffix(b"\n").unwrap_or(line))
}

/// The lines as a list.
pub fn source(findings: &Findings, prefix: &str) -> String {
    let marks = marks(findings);
    let mut out = String::from("<ol class=\"source\">\n");
    for (at, bytes) in lines(findings.text).enumerate() {
        let line = at as u32 + 1;
        let words: String = bytes.iter().map(|&byte| shown(byte)).collect();
        let here = marks.iter().filter(|mark| mark.line == line);
        let here: String = here
            .map(|mark| {
                let (row, words) = (&mark.row, escaped(&mark.words));
                format!("<a class=\"mark\" href=\"#{prefix}{row}\">{words}</a>")
            })
            .collect();
        let id = line_id(prefix, line);
        out.push_str(&format!(
            "<li id=\"{id}\"><a class=\"number\" href=\"#{id}\">{line}</a><code>{}</code>\
             <span class=\"marks\">{here}</span></li>\n",
            escaped(&words)
        ));
    }
    out.push_str("</ol>\n");
    if findings.identity.content.is_none() {
        let most = grouped(limits::TEXT_BYTES as u128);
        let said = format!("The text goes on; it has more than {most} bytes.");
        out.push_str(&format!("<p class=\"note\">{said}</p>\n"));
    }
    out
}
