//! A line `requires *` that is filled in, or why it is not.

use crate::cause::{fill_cause, Cause};
use crate::json::Json;
use crate::objects;
use crate::show::{self, counted, Paint, Shown};
use crate::Answers;
use nuyardi::limits::TEXT_BYTES;
use nuyardi::{Filled, NotFilled};
use std::fmt::Write;

/// What fill answers of one file.
pub struct Filling<'a> {
    file: &'a str,
    text: &'a [u8],
    /// The permissions, or why there are none.
    pub found: Result<Filled<'a>, NotFilled>,
    cause: Option<Cause>,
}

impl<'a> Filling<'a> {
    /// The permissions that the text's `requires *` stands for.
    pub fn of(answers: &mut impl Answers, file: &'a str, text: &'a [u8]) -> Filling<'a> {
        let found = answers.fill(text);
        Filling {
            file,
            text,
            found,
            cause: found.err().and_then(|none| fill_cause(text, none)),
        }
    }

    /// What a person reads: the line as it may stand in the file, or why there is none.
    pub fn shown(&self, paint: Paint) -> String {
        let none = match self.found {
            Ok(filled) => return format!("{filled}\n"),
            Err(none) => none,
        };
        let mut out = String::new();
        let (number, line) = (none.number(), none.line());
        let said = match none {
            NotFilled::Refused(_) => "refused",
            _ => "not filled in",
        };
        let (place, why) = (show::place(self.file, line), self.cause.as_ref());
        let why = show::headline(number, why);
        let _ = writeln!(out, "{place}: {}, number {number}: {why}", paint.bad(said));
        let mark = self.cause.as_ref().and_then(|cause| cause.mark.clone());
        show::snippet(&mut out, paint, self.text, line, mark);
        let mut shown = Shown::at(self.text, line, paint);
        show::reasons(&mut out, &mut shown, number, self.cause.as_ref());
        out
    }

    /// A word on a text that is too long once it is filled in.
    pub fn note(&self) -> Option<String> {
        let size = self.found.ok()?.text().len();
        (size > TEXT_BYTES).then(|| {
            let (size, most) = (counted(size as u128, "byte"), show::grouped(TEXT_BYTES as u128));
            format!("filled in, the text has {size}, and {most} are the most: check refuses it with number 2")
        })
    }

    /// The answer as JSON; with the whole text, if that is asked.
    pub fn json(&self, output: bool) -> Json {
        let answer = |none: NotFilled| (none.number(), none.line());
        let (number, line) = self.found.map_or_else(answer, |_| (0, 0));
        let object = Json::object()
            .with("file", self.file)
            .with("call", "fill")
            .with("filled", number == 0)
            .with("number", number)
            .with("line", line);
        let object = objects::with_cause(object, self.cause.as_ref());
        let object = match self.found {
            Ok(filled) => object
                .with("star", filled.line())
                .with("places", places(&filled))
                .with("requires", filled.to_string())
                .with_some("output", output.then(|| shown_text(&filled)))
                .with_some("note", self.note()),
            Err(_) => object,
        };
        objects::words(object, number).with_some("text", objects::line_text(self.text, line))
    }
}

fn places(filled: &Filled) -> Json {
    let places = filled.places().iter().map(|&place| u32::from(place).into());
    Json::List(places.collect())
}

fn shown_text(filled: &Filled) -> String {
    String::from_utf8_lossy(&filled.text()).into_owned()
}
