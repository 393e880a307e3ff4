//! Expected answers: lines as the program of the repository prints them, `check`
//! number line; `run` number line steps; `var` name value. Fields are separated by
//! tabs or blanks. What a file does not say is not compared.

use explain::Answers;
use nuyardi::{Ending, Value};
use std::fmt;

/// One line.
#[derive(Clone, Debug, PartialEq, Eq)]
pub enum Line {
    Check {
        number: u32,
        line: u32,
    },
    /// A trial, also of a script that check refuses with a number from 10 on.
    Run {
        number: u32,
        line: u32,
        steps: u32,
    },
    /// A variable of main; an object is its number, null is 0.
    Var {
        name: String,
        value: i32,
    },
}

impl fmt::Display for Line {
    fn fmt(&self, f: &mut fmt::Formatter<'_>) -> fmt::Result {
        match self {
            Line::Check { number, line } => write!(f, "check\t{number}\t{line}"),
            Line::Run {
                number,
                line,
                steps,
            } => write!(f, "run\t{number}\t{line}\t{steps}"),
            Line::Var { name, value } => write!(f, "var\t{name}\t{value}"),
        }
    }
}

impl Line {
    /// Do both say something of the same?
    fn of_the_same(&self, other: &Line) -> bool {
        match (self, other) {
            (Line::Check { .. }, Line::Check { .. }) | (Line::Run { .. }, Line::Run { .. }) => true,
            (Line::Var { name, .. }, Line::Var { name: other, .. }) => name == other,
            _ => false,
        }
    }

    fn shown(&self) -> String {
        self.to_string().replace('\t', " ")
    }
}

/// A number in digits alone.
fn digits(word: &str) -> Option<u32> {
    crate::args::number_of(word.as_ref())
}

fn line(words: &[&str]) -> Option<Line> {
    match *words {
        ["check", number, line] => Some(Line::Check {
            number: digits(number)?,
            line: digits(line)?,
        }),
        ["run", number, line, steps] => Some(Line::Run {
            number: digits(number)?,
            line: digits(line)?,
            steps: digits(steps)?,
        }),
        ["var", name, value] => Some(Line::Var {
            name: model::text::name(name.as_bytes()).map(|_| name.to_string())?,
            value: model::text::number(value.as_bytes())?,
        }),
        _ => None,
    }
}

/// The lines of a file; else what is wrong with it. Empty lines are passed over.
pub fn lines(text: &str) -> Result<Vec<Line>, String> {
    let mut found: Vec<Line> = Vec::new();
    for (at, typed) in text.lines().enumerate() {
        let words: Vec<&str> = typed.split_ascii_whitespace().collect();
        if words.is_empty() {
            continue;
        }
        let at = at + 1;
        let form = "check NUMBER LINE, run NUMBER LINE STEPS or var NAME VALUE";
        let line = line(&words).ok_or_else(|| format!("line {at} is not {form}"))?;
        if found.iter().any(|known| known.of_the_same(&line)) {
            return Err(format!("line {at} says again what an earlier line says"));
        }
        found.push(line);
    }
    match found.is_empty() {
        true => Err("it expects nothing".to_string()),
        false => Ok(found),
    }
}

/// What a script gets: all lines.
pub fn answers(library: &mut impl Answers, text: &[u8], steps: u32) -> Vec<Line> {
    let refused = library.check(text).err();
    let (number, line) = refused.map_or((0, 0), |refusal| (refusal.number(), refusal.line()));
    let mut lines = vec![Line::Check { number, line }];
    let outcome = library.trial(text, steps);
    if matches!(outcome.ending(), Ending::Refused(_)) {
        return lines;
    }
    lines.push(Line::Run {
        number: outcome.number(),
        line: outcome.line(),
        steps: outcome.steps(),
    });
    lines.extend(outcome.variables().map(|variable| Line::Var {
        name: variable.name.to_string(),
        value: match variable.value {
            Value::Int(value) => value,
            Value::Object(number) => number as i32,
            _ => 0,
        },
    }));
    lines
}

/// An expected line that is not answered.
#[derive(Debug, PartialEq, Eq)]
pub struct Difference {
    pub expected: String,
    /// What is answered instead, if anything is.
    pub answered: Option<String>,
}

/// What is expected and not answered.
pub fn differences(expected: &[Line], answered: &[Line]) -> Vec<Difference> {
    let missed = expected.iter().filter(|line| !answered.contains(line));
    let difference = |line: &Line| {
        let other = answered.iter().find(|other| other.of_the_same(line));
        Difference {
            expected: line.shown(),
            answered: other.map(Line::shown),
        }
    };
    missed.map(difference).collect()
}

#[cfg(test)]
mod tests {
    use super::*;
    use crate::library::Library;
    use generator::rng::Rng;

    /// What is written is what the program prints, by the model, and is read again.
    #[test]
    fn as_the_program_prints() {
        for seed in 0..400 {
            let text = generator::text(0x7e57_0000 + seed);
            let steps = nuyardi::limits::PROGRAM_STEPS as u32;
            let found = answers(&mut Library::default(), &text, steps);
            let printed: String = found.iter().map(|line| format!("{line}\n")).collect();
            assert_eq!(printed.as_bytes(), model::print::printed(&text));
            assert_eq!(lines(&printed), Ok(found));
        }
    }

    #[test]
    fn read_and_compared() {
        let text = "check 0  0\r\n\nrun\t0\t5\t3\nvar a -7\n";
        let expected = lines(text).expect("lines");
        assert_eq!(expected.len(), 3);
        assert_eq!(differences(&expected, &expected), []);
        assert_eq!(differences(&expected[..1], &expected), []);
        let other = lines("check 4 2").expect("lines");
        let found = differences(&expected, &other);
        let said = |at: usize| (found[at].expected.as_str(), found[at].answered.as_deref());
        assert_eq!(said(0), ("check 0 0", Some("check 4 2")));
        assert_eq!(said(1), ("run 0 5 3", None));
        assert_eq!(said(2), ("var a -7", None));
    }

    #[test]
    fn wrong_files() {
        let form = "is not check NUMBER LINE, run NUMBER LINE STEPS or var NAME VALUE";
        for (text, why) in [
            ("", "it expects nothing".to_string()),
            ("\n \n", "it expects nothing".to_string()),
            ("check 0\n", format!("line 1 {form}")),
            ("check 0 0\nchek 0 0\n", format!("line 2 {form}")),
            ("check 0 -1\n", format!("line 1 {form}")),
            ("check 0 4294967296\n", format!("line 1 {form}")),
            ("var a 07\n", format!("line 1 {form}")),
            ("var 7 7\n", format!("line 1 {form}")),
            ("var a 2147483648\n", format!("line 1 {form}")),
            (
                "check 0 0\ncheck 0 0\n",
                "line 2 says again what an earlier line says".to_string(),
            ),
            (
                "var a 1\nvar b 1\nvar a 2\n",
                "line 3 says again what an earlier line says".to_string(),
            ),
        ] {
            assert_eq!(lines(text), Err(why), "{text:?}");
        }
    }

    /// Any words are read or refused.
    #[test]
    fn hostile() {
        let words = [
            "check",
            "run",
            "var",
            "0",
            "-1",
            "a",
            "\n",
            "\t",
            " ",
            "\u{e9}",
            "99999999999",
        ];
        let mut rng = Rng::new(4);
        let mut good = 0;
        for _ in 0..20_000 {
            let text: Vec<&str> = (0..rng.below(8))
                .map(|_| words[rng.below(words.len())])
                .collect();
            match lines(&text.join(" ")) {
                Ok(found) => {
                    good += 1;
                    assert!(!found.is_empty());
                }
                Err(why) => assert!(!why.is_empty()),
            }
        }
        assert!(good > 10, "{good}");
    }
}
