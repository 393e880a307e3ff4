//! How a run ended, and what main's variables hold.

use crate::limits::{RESULTS_BYTES, VALUES};
use crate::{explain, AcceptedStop, Kind, Returned, Stop};
use core::fmt;

/// How a trial of any text ended.
#[derive(Clone, Copy, Debug, PartialEq, Eq, Hash)]
#[non_exhaustive]
pub enum Ending {
    /// Main's `end` is done.
    Finished,
    /// The machine stopped at a line.
    Stopped(Stop),
    /// The text was not run.
    Refused(Kind),
}

impl Ending {
    pub(crate) fn of(number: u32) -> Option<Ending> {
        match number {
            0 => Some(Ending::Finished),
            _ => Stop::of(number)
                .map(Ending::Stopped)
                .or(Kind::of(number).map(Ending::Refused)),
        }
    }
}

/// How a run of an accepted text ended: a permission is never missing, null is
/// never followed, no formula is false.
#[derive(Clone, Copy, Debug, PartialEq, Eq, Hash)]
#[non_exhaustive]
pub enum AcceptedEnding {
    /// Main's `end` is done.
    Finished,
    /// The machine stopped at a line.
    Stopped(AcceptedStop),
}

impl AcceptedEnding {
    pub(crate) fn of(number: u32) -> Option<AcceptedEnding> {
        match number {
            0 => Some(AcceptedEnding::Finished),
            _ => AcceptedStop::of(number).map(AcceptedEnding::Stopped),
        }
    }
}

impl From<AcceptedEnding> for Ending {
    fn from(ending: AcceptedEnding) -> Ending {
        match ending {
            AcceptedEnding::Finished => Ending::Finished,
            AcceptedEnding::Stopped(stop) => Ending::Stopped(stop.into()),
        }
    }
}

/// What a variable holds.
#[derive(Clone, Copy, Debug, PartialEq, Eq, Hash)]
#[non_exhaustive]
pub enum Value {
    /// A number.
    Int(i32),
    /// No object.
    Null,
    /// An object, by its number from 1.
    Object(u32),
}

impl fmt::Display for Value {
    fn fmt(&self, f: &mut fmt::Formatter<'_>) -> fmt::Result {
        match self {
            Value::Int(number) => write!(f, "{number}"),
            Value::Null => write!(f, "null"),
            Value::Object(number) => write!(f, "object {number}"),
        }
    }
}

/// A variable of main after a run; its words are those of the text.
#[derive(Clone, Copy, Debug, PartialEq, Eq, Hash)]
#[non_exhaustive]
pub struct Variable<'t> {
    /// Its name.
    pub name: &'t str,
    /// `int` or the name of a class.
    pub kind: &'t str,
    /// Its value.
    pub value: Value,
}

/// How a run ended: number and line, the steps taken, main's variables. The
/// ending of a trial of any text is an [`Ending`], that of a run an
/// [`AcceptedEnding`].
///
/// ```
/// # #[cfg(feature = "library")] {
/// let outcome = nuyardi::trial(b"main\nvar\tint\ta\nlet\ta\t7\nend\n", 10);
/// assert_eq!(
///     format!("{outcome:?}"),
///     "Outcome { ending: Finished, line: 4, steps: 2, variables: {a: 7} }"
/// );
/// # }
/// ```
#[derive(Clone, Copy, PartialEq, Eq, Hash)]
pub struct Outcome<'t, E = Ending> {
    ending: E,
    number: u32,
    line: u32,
    steps: u32,
    values: [i32; VALUES],
    /// The text that was run; empty if it was refused.
    text: &'t [u8],
}

impl<'t, E: Copy> Outcome<'t, E> {
    /// What a call returned, the text, and what it left in the results area.
    pub(crate) fn of(
        returned: Returned,
        ending: E,
        text: &'t [u8],
        results: &[u8; RESULTS_BYTES],
    ) -> Outcome<'t, E> {
        let mut words = results.chunks_exact(4).map(|four| {
            four.iter()
                .rev()
                .fold(0, |word, &byte| word << 8 | u32::from(byte))
        });
        let steps = words.next().unwrap_or(0);
        let mut values = [0; VALUES];
        for (value, word) in values.iter_mut().zip(words) {
            *value = word as i32;
        }
        let ran = returned.refusal().is_none();
        Outcome {
            ending,
            number: returned.number(),
            line: returned.line(),
            steps,
            values,
            text: if ran { text } else { b"" },
        }
    }

    /// How the run ended.
    pub fn ending(&self) -> E {
        self.ending
    }

    /// Is main's `end` done?
    pub fn finished(&self) -> bool {
        self.number == 0
    }

    /// The number: 0, or that of the stop or of the refusal.
    pub fn number(&self) -> u32 {
        self.number
    }

    /// The line that ended the run: main's `end`, the line that was next, the
    /// line that stopped, or the refused line.
    pub fn line(&self) -> u32 {
        self.line
    }

    /// The steps taken; a stopped step is not counted.
    pub fn steps(&self) -> u32 {
        self.steps
    }

    /// Main's variables in the order of their `var` lines; none if the text was
    /// not run.
    pub fn variables(&self) -> impl Iterator<Item = Variable<'t>> {
        main_variables(self.text)
            .zip(self.values)
            .map(|((kind, name), value)| Variable {
                name,
                kind,
                value: match value {
                    number if kind == "int" => Value::Int(number),
                    0 => Value::Null,
                    object => Value::Object(object as u32),
                },
            })
    }

    /// Main's variable of a name.
    pub fn variable(&self, name: &str) -> Option<Variable<'t>> {
        self.variables().find(|variable| variable.name == name)
    }
}

/// The types and names of main's `var` lines, of a text that was run: there
/// `main` alone on a line occurs once, and every byte is ASCII.
fn main_variables(text: &[u8]) -> impl Iterator<Item = (&str, &str)> {
    text.split(|&byte| byte == b'\n')
        .skip_while(|&line| line != b"main")
        .skip(1)
        .map_while(|line| core::str::from_utf8(line).ok()?.strip_prefix("var\t"))
        .map_while(|rest| rest.split_once('\t'))
}

impl<'t> From<Outcome<'t, AcceptedEnding>> for Outcome<'t> {
    fn from(outcome: Outcome<'t, AcceptedEnding>) -> Outcome<'t> {
        Outcome {
            ending: outcome.ending.into(),
            number: outcome.number,
            line: outcome.line,
            steps: outcome.steps,
            values: outcome.values,
            text: outcome.text,
        }
    }
}

/// Main's variables as `{a: 7, s: object 1}`.
struct Shown<'o, 't, E>(&'o Outcome<'t, E>);

impl<E: Copy> fmt::Debug for Shown<'_, '_, E> {
    fn fmt(&self, f: &mut fmt::Formatter<'_>) -> fmt::Result {
        let mut map = f.debug_map();
        for Variable { name, value, .. } in self.0.variables() {
            map.entry(&format_args!("{name}"), &format_args!("{value}"));
        }
        map.finish()
    }
}

impl<E: Copy + fmt::Debug> fmt::Debug for Outcome<'_, E> {
    fn fmt(&self, f: &mut fmt::Formatter<'_>) -> fmt::Result {
        f.debug_struct("Outcome")
            .field("ending", &self.ending)
            .field("line", &self.line)
            .field("steps", &self.steps)
            .field("variables", &Shown(self))
            .finish()
    }
}

impl<E> fmt::Display for Outcome<'_, E> {
    fn fmt(&self, f: &mut fmt::Formatter<'_>) -> fmt::Result {
        let (number, line, steps) = (self.number, self.line, self.steps);
        let step = if steps == 1 { "step" } else { "steps" };
        if number == 0 {
            return write!(f, "finished at line {line} after {steps} {step}");
        }
        match Stop::of(number) {
            Some(_) => write!(f, "stopped at line {line} after {steps} {step}: ")?,
            None if line == 0 => write!(f, "not run: ")?,
            None => write!(f, "not run, line {line}: ")?,
        }
        explain::words(f, number)
    }
}
