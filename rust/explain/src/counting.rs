//! A count: up to four scripts over one heap, and what becomes of each.

use crate::cause::Cause;
use crate::json::Json;
use crate::objects;
use crate::report::Report;
use crate::show::{self, counted, grouped, Paint, Shown};
use crate::Answers;
use nuyardi::limits::{OBJECTS, SCRIPTS};
use nuyardi::{NotCounted, Outcome, Share};
use std::fmt::Write;

/// What a count answers of some files.
pub struct Counting<'a> {
    files: &'a [String],
    scripts: &'a [Share<'a>],
    rounds: u32,
    /// Are the shares equal parts, which nobody gave?
    pub equal: bool,
    /// What is said of each script, or why none was run.
    pub found: Result<Vec<Report<'a>>, NotCounted>,
}

impl<'a> Counting<'a> {
    /// A count of so many rounds; the scripts have the files' names in messages.
    pub fn of(
        answers: &mut impl Answers,
        files: &'a [String],
        scripts: &'a [Share<'a>],
        rounds: u32,
    ) -> Counting<'a> {
        let found = answers.count(scripts, rounds).map(|found| {
            let parts = files.iter().zip(scripts).zip(found.scripts());
            let reports = parts.map(|((file, script), ended)| {
                let ended = ended.map(Outcome::from);
                Report::counted(answers, file, *script, rounds, ended)
            });
            reports.collect()
        });
        Counting {
            files,
            scripts,
            rounds,
            equal: false,
            found,
        }
    }

    /// Did every script finish?
    pub fn good(&self) -> bool {
        let mut reports = self.found.iter().flatten();
        self.found.is_ok() && reports.all(Report::good)
    }

    /// What a person reads: the shares, then each script as run tells it.
    pub fn shown(&self, paint: Paint) -> String {
        let mut out = String::new();
        match &self.found {
            Ok(reports) => {
                let _ = writeln!(out, "{}", self.shares());
                out.extend(reports.iter().map(|report| show::report(report, paint)));
            }
            Err(none) => {
                let (said, number) = (paint.bad("not counted"), none.number());
                let cause = self.cause();
                let _ = writeln!(out, "{said}, number {number}: {}", cause.headline());
                let mut shown = Shown::at(&[], 0, paint);
                show::reasons(&mut out, &mut shown, number, Some(&cause));
            }
        }
        out
    }

    /// `2 scripts, 1,000 rounds: shares of 128 and 128 objects`.
    fn shares(&self) -> String {
        let shares = self.scripts.iter().map(|script| script.objects.to_string());
        let shares: Vec<String> = shares.collect();
        let (scripts, rounds) = (shares.len() as u128, u128::from(self.rounds));
        let said = match &shares[..] {
            [rest @ .., last] if !rest.is_empty() => {
                format!("shares of {} and {last} objects", rest.join(", "))
            }
            _ => format!("a share of {}", counted(self.sum().into(), "object")),
        };
        let (scripts, rounds) = (counted(scripts, "script"), counted(rounds, "round"));
        let equal = match self.equal {
            true => format!(" (equal parts of {OBJECTS})"),
            false => String::new(),
        };
        format!("{scripts}, {rounds}: {said}{equal}")
    }

    fn sum(&self) -> u64 {
        self.scripts
            .iter()
            .map(|script| u64::from(script.objects))
            .sum()
    }

    /// Why no script was run.
    fn cause(&self) -> Cause {
        let none = self.scripts.iter().position(|script| script.objects == 0);
        let text = match (self.scripts.len(), none) {
            (0, _) => "there is no script".to_string(),
            (count, _) if count > SCRIPTS => format!("there are {count} scripts"),
            (_, Some(at)) => format!("the share of `{}` is 0", self.files[at]),
            _ => format!("the shares are {} together", grouped(self.sum().into())),
        };
        Cause {
            text,
            ..Cause::default()
        }
    }

    /// An object for each file.
    pub fn json(&self) -> Vec<Json> {
        let shares = self.scripts.iter().map(|script| script.objects);
        match &self.found {
            Ok(reports) => {
                let parts = reports.iter().zip(shares);
                let object = |(report, share)| objects::counted(report, self.rounds, share);
                parts.map(object).collect()
            }
            Err(none) => {
                let parts = self.files.iter().zip(shares);
                parts
                    .map(|(file, share)| self.refused(*none, file, share))
                    .collect()
            }
        }
    }

    fn refused(&self, none: NotCounted, file: &str, share: u32) -> Json {
        let object = Json::object()
            .with("file", file)
            .with("call", "count")
            .with("share", share)
            .with("finished", false)
            .with("number", none.number())
            .with("line", 0u32)
            .with("allowed", self.rounds);
        objects::words(
            objects::with_cause(object, Some(&self.cause())),
            none.number(),
        )
    }
}
