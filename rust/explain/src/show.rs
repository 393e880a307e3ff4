//! What a person reads.

use crate::all::Further;
use crate::cause::Cause;
use crate::report::{columns, Ran, Report};
use crate::script::line;
use crate::second;
use crate::warn;
use nuyardi::{explain, Ending, Excess, Explanation, Kind};
use std::ffi::OsStr;
use std::fmt::Write;
use std::ops::Range;

/// A name for messages: control characters escaped.
pub fn file_name(name: &OsStr) -> String {
    let mut shown = String::new();
    for letter in name.to_string_lossy().chars() {
        match letter.is_control() {
            true => shown.extend(letter.escape_default()),
            false => shown.push(letter),
        }
    }
    shown
}

/// A number with its digits in threes: `1,000,000`.
pub fn grouped(number: u128) -> String {
    let digits = number.to_string();
    let mut grouped = String::new();
    for (at, digit) in digits.chars().enumerate() {
        if at > 0 && (digits.len() - at).is_multiple_of(3) {
            grouped.push(',');
        }
        grouped.push(digit);
    }
    grouped
}

/// `1 step`, `1,000,000 steps`.
pub fn counted(count: u128, what: &str) -> String {
    let some = if count == 1 { "" } else { "s" };
    format!("{} {what}{some}", grouped(count))
}

/// A byte of the text: as it is from 33 to 126, else escaped.
pub fn escaped(byte: u8) -> String {
    match byte {
        b'\t' => "\\t".to_string(),
        b'\\' => "\\\\".to_string(),
        33..=126 => char::from(byte).to_string(),
        _ => format!("\\x{byte:02x}"),
    }
}

/// In a shown line a tab is a blank; a blank of the text is escaped.
pub fn shown(byte: u8) -> String {
    match byte {
        b'\t' => " ".to_string(),
        _ => escaped(byte),
    }
}

/// Colours, or none.
#[derive(Clone, Copy)]
pub struct Paint(pub bool);

impl Paint {
    fn with(self, code: &str, text: &str) -> String {
        match self.0 {
            true => format!("\x1b[{code}m{text}\x1b[0m"),
            false => text.to_string(),
        }
    }

    /// What is wrong.
    pub fn bad(self, text: &str) -> String {
        self.with("1;31", text)
    }

    /// What may be wrong.
    pub fn warn(self, text: &str) -> String {
        self.with("1;33", text)
    }

    /// What is right.
    pub fn good(self, text: &str) -> String {
        self.with("1;32", text)
    }

    /// What stands in the margin.
    pub fn side(self, text: &str) -> String {
        self.with("1;34", text)
    }
}

/// At most that many bytes of a long line are shown.
const SHOWN_BYTES: usize = 100;

/// The line with its number, and marks below it: below its marked bytes, else
/// below the whole line.
pub fn snippet(
    out: &mut String,
    paint: Paint,
    text: &[u8],
    number: u32,
    mark: Option<Range<usize>>,
) {
    let Some(bytes) = line(text, number) else {
        return;
    };
    let mark = mark.unwrap_or(0..bytes.len());
    let from = match mark.end > SHOWN_BYTES {
        true => mark.start.saturating_sub(SHOWN_BYTES / 2),
        false => 0,
    };
    let to = bytes.len().min(from + SHOWN_BYTES);
    let (mut before, mut marked, mut after) = (String::new(), String::new(), String::new());
    if from > 0 {
        before.push_str("...");
    }
    for (at, &byte) in bytes.iter().enumerate().take(to).skip(from) {
        let place = match at {
            at if at < mark.start => &mut before,
            at if at >= mark.end => &mut after,
            _ => &mut marked,
        };
        place.push_str(&shown(byte));
    }
    if to < bytes.len() {
        after.push_str("...");
    }
    let number = number.to_string();
    let margin = " ".repeat(number.len());
    let bar = paint.side("|");
    let marks = "^".repeat(marked.len().max(1));
    let _ = writeln!(out, "{margin} {bar}");
    let _ = writeln!(out, "{} {bar} {before}{marked}{after}", paint.side(&number));
    let indent = " ".repeat(before.len());
    let _ = writeln!(out, "{margin} {bar} {indent}{}", paint.bad(&marks));
}

/// What stands between blanks; a quoted part is one word.
fn words(text: &str) -> Vec<String> {
    let mut words = Vec::new();
    let mut word = String::new();
    let mut quoted = false;
    for letter in text.chars() {
        quoted ^= letter == '`';
        if letter.is_whitespace() && !quoted {
            words.push(std::mem::take(&mut word));
        } else {
            word.push(letter);
        }
    }
    words.push(word);
    words.retain(|word| !word.is_empty());
    words
}

/// Words broken into lines of at most 78 letters, the first with a heading.
pub fn wrapped(out: &mut String, heading: &str, text: &str) {
    rows(out, heading, &words(text));
}

/// The same, for words that may have blanks in them.
pub fn rows(out: &mut String, heading: &str, words: &[String]) {
    const WIDTH: usize = 78;
    let mut row = heading.to_string();
    let mut fresh = true;
    for word in words {
        if !fresh && row.chars().count() + 1 + word.chars().count() > WIDTH {
            out.push_str(&row);
            out.push('\n');
            row = " ".repeat(heading.chars().count());
            fresh = true;
        }
        if !fresh {
            row.push(' ');
        }
        row.push_str(word);
        fresh = false;
    }
    out.push_str(&row);
    out.push('\n');
}

/// What the command itself can fix of a number's faults.
fn formats(number: u32) -> Option<&'static str> {
    match Kind::of(number) {
        Some(Kind::Byte) => Some("`station fmt --write FILE` does all three"),
        Some(Kind::Form) => Some(
            "`station fmt --write FILE` fixes tabs too many, and `station fill --write FILE` \
             fills in a `requires *`",
        ),
        _ => None,
    }
}

fn number_in_words(out: &mut String, known: &Explanation) {
    wrapped(out, "   what: ", known.meaning);
    wrapped(out, "   help: ", known.advice);
    if let Some(said) = formats(known.number) {
        wrapped(out, "   note: ", said);
    }
}

/// The least number that an accepted text may get: what usually helps is said
/// with its cause.
const FIRST_OF_ACCEPTED: u32 = Excess::Unbounded.number();

/// What the first line of a message says: the cause, or the number in a few words
/// where none is seen.
pub fn headline(number: u32, cause: Option<&Cause>) -> &str {
    cause.map_or(title(number), Cause::headline)
}

/// A message of a line, as it is shown: the text, the line that it is about, and the
/// others that were shown already.
pub struct Shown<'t> {
    text: &'t [u8],
    paint: Paint,
    seen: Vec<u32>,
    width: usize,
}

impl<'t> Shown<'t> {
    /// The message of a line.
    pub fn at(text: &'t [u8], line: u32, paint: Paint) -> Shown<'t> {
        Shown {
            text,
            paint,
            seen: vec![line],
            width: line.to_string().len(),
        }
    }

    /// A part of the message, and the lines that it names.
    fn part(&mut self, out: &mut String, heading: &str, said: &str) {
        wrapped(out, heading, &second::without_quotes(said, self.text));
        self.lines(out, said);
    }

    /// The lines that a part names and that were not shown yet.
    fn lines(&mut self, out: &mut String, said: &str) {
        let mut lines = second::named(said);
        lines.retain(|line| !self.seen.contains(line));
        let longest = lines.iter().map(|line| line.to_string().len()).max();
        self.width = self.width.max(longest.unwrap_or(0));
        second::lines(out, self.paint, self.text, &lines, self.width);
        self.seen.extend(lines);
    }
}

/// The cause, if the headline is not all of it, what else is known and what helps; or
/// the number in words where no cause is seen.
pub fn reasons(out: &mut String, shown: &mut Shown, number: u32, cause: Option<&Cause>) {
    match (cause, explain(number)) {
        (Some(cause), _) => {
            if let Some(said) = cause.in_full() {
                shown.part(out, "  cause: ", said);
            }
            for note in &cause.notes {
                shown.part(out, "   note: ", note);
            }
            shown.lines(out, cause.headline());
            if let Some(fix) = &cause.fix {
                wrapped(out, "    fix: ", &fix.said());
            }
            let usual = explain(number).filter(|_| number >= FIRST_OF_ACCEPTED);
            let help = cause.help.as_deref().or(usual.map(|known| known.advice));
            if let Some(help) = help {
                wrapped(out, "   help: ", help);
            }
        }
        (None, Some(known)) => number_in_words(out, known),
        (None, None) => {}
    }
}

/// `FILE:LINE`, or the file where no line is meant.
pub fn place(file: &str, line: u32) -> String {
    match line {
        0 => file.to_string(),
        line => format!("{file}:{line}"),
    }
}

/// A number in a few words.
pub fn title(number: u32) -> &'static str {
    explain(number).map_or("", |known| known.title)
}

fn refusal(out: &mut String, paint: Paint, report: &Report) {
    let Some(refusal) = report.refusal else {
        return;
    };
    let (number, line) = (refusal.number(), refusal.line());
    let tried = report.ran.is_some();
    let said = if tried { "check refuses it" } else { "refused" };
    let _ = writeln!(
        out,
        "{}: {}, number {number}: {}",
        place(report.file, line),
        paint.bad(said),
        headline(number, report.cause.as_ref())
    );
    if !tried {
        let mark = report.cause.as_ref().and_then(|cause| cause.mark.clone());
        snippet(out, paint, report.text, line, mark);
        let mut shown = Shown::at(report.text, line, paint);
        reasons(out, &mut shown, number, report.cause.as_ref());
        let fixed = report
            .cause
            .as_ref()
            .is_some_and(|cause| cause.fix.is_some());
        if let Some(formatted) = report.formatted.as_ref().filter(|_| !fixed) {
            wrapped(out, "   then: ", formatted);
        }
    }
    for other in &report.further {
        further(out, paint, report, other);
    }
}

/// A refusal besides the first.
fn further(out: &mut String, paint: Paint, report: &Report, other: &Further) {
    let _ = writeln!(
        out,
        "{}: {}, number {}: {}",
        place(report.file, other.line),
        paint.bad("also refused"),
        other.number,
        headline(other.number, other.cause.as_ref())
    );
    let mark = other.cause.as_ref().and_then(|cause| cause.mark.clone());
    snippet(out, paint, report.text, other.line, mark);
    let mut shown = Shown::at(report.text, other.line, paint);
    reasons(out, &mut shown, other.number, other.cause.as_ref());
}

fn ran(out: &mut String, paint: Paint, report: &Report, ran: &Ran) {
    let (number, line) = (ran.outcome.number(), ran.outcome.line());
    let steps = match ran.outcome.steps() {
        1 => "1 step".to_string(),
        steps => format!("{steps} steps"),
    };
    let place = place(report.file, line);
    if ran.outcome.ending() == Ending::Finished {
        let finished = paint.good("finished");
        let _ = writeln!(out, "{place}: {finished} after {steps}");
    } else {
        let (stopped, why) = (paint.bad("stopped"), headline(number, ran.cause.as_ref()));
        let _ = writeln!(
            out,
            "{place}: {stopped} after {steps}, number {number}: {why}"
        );
        let mark = ran.cause.as_ref().and_then(|cause| cause.mark.clone());
        snippet(out, paint, report.text, line, mark);
        let mut shown = Shown::at(report.text, line, paint);
        reasons(out, &mut shown, number, ran.cause.as_ref());
        for call in shortened(&ran.open) {
            wrapped(out, "   open: ", &call);
        }
    }
    for variable in ran.outcome.variables() {
        let _ = writeln!(out, "  {} = {}", variable.name, variable.value);
    }
}

/// Of many open calls the first and the last.
fn shortened(open: &[String]) -> Vec<String> {
    const ENDS: usize = 3;
    if open.len() <= 2 * ENDS {
        return open.to_vec();
    }
    let mut rows = open[..ENDS].to_vec();
    rows.push(format!("{} more calls", open.len() - 2 * ENDS));
    rows.extend_from_slice(&open[open.len() - ENDS..]);
    rows
}

/// Check's answer; of a text that was tried out all the same, one line.
pub fn head(report: &Report, paint: Paint) -> String {
    let mut out = String::new();
    if report.refusal.is_none() && report.ran.is_none() {
        let _ = writeln!(out, "{}: {}", report.file, paint.good("accepted"));
    }
    refusal(&mut out, paint, report);
    out
}

/// How the run ended, if there was one.
pub fn ending(report: &Report, paint: Paint) -> String {
    let mut out = String::new();
    if let Some(run) = &report.ran {
        ran(&mut out, paint, report, run);
    }
    out
}

/// The answer of check, or of check and run; the warnings, if they were asked for.
pub fn report(report: &Report, paint: Paint) -> String {
    head(report, paint) + &ending(report, paint) + &warnings(report, paint)
}

/// The warnings of a text.
pub fn warnings(report: &Report, paint: Paint) -> String {
    let warnings = report.warnings.as_deref().unwrap_or_default();
    warn::shown(report.file, report.text, warnings, paint)
}

/// One line for each refusal and warning of a file, as editors and compilers want it.
pub fn short(report: &Report) -> String {
    let warnings = report.warnings.as_deref().unwrap_or_default();
    short_refusals(report) + &warn::short(report.file, warnings)
}

fn short_refusals(report: &Report) -> String {
    let Some(refusal) = report.refusal else {
        return String::new();
    };
    let column = columns(report.cause.as_ref()).map_or(1, |(from, _)| from);
    let number = refusal.number();
    let cause = report.cause.as_ref();
    let said = headline(number, cause);
    let line = refusal.line().max(1);
    let mut out = format!("{}:{line}:{column}: number {number}: {said}\n", report.file);
    for other in &report.further {
        let column = columns(other.cause.as_ref()).map_or(1, |(from, _)| from);
        let cause = other.cause.as_ref();
        let said = headline(other.number, cause);
        let (line, number) = (other.line.max(1), other.number);
        let _ = writeln!(
            out,
            "{}:{line}:{column}: number {number}: {said}",
            report.file
        );
    }
    out
}

/// A number in words, with its example.
pub fn explanation(known: &Explanation, paint: Paint) -> String {
    let mut out = format!(
        "{}: {}\n",
        paint.side(&known.number.to_string()),
        known.title
    );
    number_in_words(&mut out, known);
    if let Some(example) = known.example {
        let _ = writeln!(out, "  a script that gets it, its tabs shown as blanks:");
        for (at, line) in example.lines().enumerate() {
            let line: String = line.bytes().map(shown).collect();
            let _ = writeln!(out, "{:>4} {} {line}", at + 1, paint.side("|"));
        }
    }
    out
}
