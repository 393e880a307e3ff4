//! W12: four stations in one run. "The count day runs up to four scripts over one
//! heap of 256 objects. Each gets a share of k objects and 4 × k fields, k at least
//! 1, its own numbering, and one step a round, in order."

use crate::limits::{OBJECTS, SCRIPTS};
use crate::machine::{Machine, Room, Run, Step};
use crate::names::Program;
use crate::number::{self, Reason, Refusal};
use crate::Judged;
use std::mem::swap;

/// What count returns and what it leaves in its area.
#[derive(Clone, Copy, Debug, PartialEq, Eq)]
pub struct Counted {
    pub number: u32,
    pub line: u32,
    /// Each one's number, line, steps and values; zeros past the count.
    pub scripts: [Run; SCRIPTS],
}

/// "It refuses with 19 at line 0, zeros in all results, ... before any script is
/// read"; "unless it refuses, it returns 0."
pub fn count(
    scripts: u32,
    rounds: u32,
    texts: [&[u8]; SCRIPTS],
    shares: [u32; SCRIPTS],
) -> Counted {
    let (number, shares) = match looked_at(scripts, &shares) {
        Some(shares) => (number::DONE, shares),
        None => (Reason::Shares.number(), &[][..]),
    };
    let texts: Vec<Judged> = texts
        .iter()
        .zip(shares)
        .map(|(text, _)| Judged::new(text))
        .collect();
    let mut day = Day::new(texts.iter().map(Judged::accepted).zip(shares));
    day.run(rounds);
    Counted {
        number,
        line: 0,
        scripts: day.results(),
    }
}

/// "Texts and shares past the count are not looked at". None "if there are no
/// scripts, more than four, or shares that are 0 or sum above 256".
fn looked_at(scripts: u32, shares: &[u32; SCRIPTS]) -> Option<&[u32]> {
    let shares = shares.get(..scripts as usize)?;
    let sum: u64 = shares.iter().copied().map(u64::from).sum();
    let right = !shares.is_empty() && !shares.contains(&0) && sum <= OBJECTS as u64;
    right.then_some(shares)
}

/// One of the scripts.
pub enum Script<'p, 'a> {
    Refused(Refusal),
    /// It takes a step a round. Its machine has the list of its own objects, and is
    /// lent the heap for a step.
    Running(Machine<'p, 'a>),
    /// It is finished or stopped, with this answer.
    Ended(Run),
}

impl Script<'_, '_> {
    /// One step over the heap of all scripts. "A script refused, finished or stopped
    /// is passed over".
    fn step(&mut self, heap: &mut Vec<i32>) {
        let Script::Running(machine) = self else {
            return;
        };
        let line = machine.statement().line;
        swap(heap, &mut machine.heap);
        let step = machine.step();
        swap(heap, &mut machine.heap);
        let number = match step {
            Ok(Step::On) => return,
            Ok(Step::Done) => number::DONE,
            Err(stop) => stop.number(),
        };
        *self = Script::Ended(answer(machine, number, line));
    }

    /// Its answer after the last round.
    fn result(&self) -> Run {
        match self {
            Script::Refused(refusal) => Run::refused(*refusal),
            Script::Running(machine) => {
                answer(machine, number::OUT_OF_STEPS, machine.statement().line)
            }
            Script::Ended(run) => *run,
        }
    }
}

fn answer(machine: &Machine, number: u32, line: u32) -> Run {
    Run {
        number,
        line,
        steps: machine.steps,
        values: machine.values(),
    }
}

/// The count day: the scripts in order, and the one heap.
pub struct Day<'p, 'a> {
    pub scripts: Vec<Script<'p, 'a>>,
    /// The values of all fields of all scripts' objects, as they were made.
    pub heap: Vec<i32>,
}

impl<'p, 'a> Day<'p, 'a> {
    /// Accepted texts or why they are refused, and the share of each.
    pub fn new<'s>(
        scripts: impl Iterator<Item = (Result<&'p Program<'a>, Refusal>, &'s u32)>,
    ) -> Day<'p, 'a> {
        let script = |(program, &k): (Result<&'p Program<'a>, Refusal>, &u32)| match program {
            Ok(program) => Script::Running(Machine::within(program, Room::share(k as usize))),
            Err(refusal) => Script::Refused(refusal),
        };
        Day {
            scripts: scripts.map(script).collect(),
            heap: Vec::new(),
        }
    }

    /// So many rounds; there is nothing to do in those after the last step.
    fn run(&mut self, rounds: u32) {
        for _ in 0..rounds {
            if !self
                .scripts
                .iter()
                .any(|script| matches!(script, Script::Running(_)))
            {
                return;
            }
            for at in 0..self.scripts.len() {
                self.step(at);
            }
        }
    }

    /// One script's step.
    pub fn step(&mut self, at: usize) {
        self.scripts[at].step(&mut self.heap);
    }

    fn results(&self) -> [Run; SCRIPTS] {
        let result = |at| self.scripts.get(at).map_or(Run::NONE, Script::result);
        std::array::from_fn(result)
    }
}
