//! Lines that no run reaches. A script has no input, so it has one run, which more
//! allowed steps only make longer: a line is unreached if no step of it is done,
//! however many are allowed. Two things show it: the checker knows something at the line
//! that can't be, or every way to it returns before; or the run finished, and did not
//! come there. `else`, `join`, `again` and `end` have to stand where they do, and
//! nothing is said of them.

use super::contradiction::impossible;
use super::{Kind, Warning};
use crate::routes::Routes;
use crate::script::{field_range, line, shown, Script};
use crate::show::counted;
use model::machine::{Machine, Step};
use model::names::{Action, Branch};
use model::watch::Record;

/// A run that is not finished after so many steps says nothing.
const TRIED: u32 = 100_000;

/// What keeps a run from a statement.
#[derive(Clone, Copy, Debug, PartialEq, Eq)]
enum Why {
    /// The condition of the `if` at this place is never true.
    NeverTrue(usize),
    /// The condition of the `if` at this place is never false.
    AlwaysTrue(usize),
    /// The condition of the `loop` at this place is never true at all.
    NoRound(usize),
    /// The loop at this place is never left by its condition.
    NeverLeft(usize),
    /// Every way there has a `return`.
    Returned,
    /// The contract of the block can't be fulfilled.
    Impossible,
    /// What is known there can't be.
    Contradiction,
}

/// The warnings of an accepted text.
pub fn lines(script: &Script) -> Vec<Warning> {
    let Some(record) = Record::of(&script.lines, &script.program) else {
        return Vec::new();
    };
    let flow = Flow::of(script, &record);
    let routes = Routes::of(script);
    let ran = ran(script);
    let mut found = Vec::new();
    for block in 0..script.program.blocks.len() {
        // Of a method that no call leads to one thing is said: that it is never used.
        if !routes.is_called(block) {
            continue;
        }
        match uncalled(script, &flow, ran.as_ref(), block) {
            Some(warning) => found.push(warning),
            None => found.extend(unreached_in(script, &flow, ran.as_ref(), block)),
        }
    }
    found
}

/// A run that finished: its steps, and which statements it did.
struct Ran {
    steps: u32,
    done: Vec<bool>,
}

impl Ran {
    fn said(&self) -> String {
        format!(
            "a script has no input, and its run finishes after {} without coming there",
            counted(self.steps.into(), "step")
        )
    }
}

fn ran(script: &Script) -> Option<Ran> {
    let mut done = vec![false; script.program.statements.len()];
    let mut machine = Machine::new(&script.program);
    while machine.steps < TRIED {
        let place = machine.frame().next;
        let step = machine.step().ok()?;
        done[place] = true;
        if step == Step::Done {
            let steps = machine.steps;
            return Some(Ran { steps, done });
        }
    }
    None
}

/// Which statements some run may reach, as far as the check tells, and why not.
struct Flow<'s, 'a> {
    script: &'s Script<'a>,
    record: &'s Record<'a>,
    dead: Vec<Option<Why>>,
    /// The blocks that a statement which may be reached calls, main among them.
    called: Vec<bool>,
}

impl<'s, 'a> Flow<'s, 'a> {
    fn of(script: &'s Script<'a>, record: &'s Record<'a>) -> Flow<'s, 'a> {
        let program = &script.program;
        let mut flow = Flow {
            script,
            record,
            dead: vec![None; program.statements.len()],
            called: vec![false; program.blocks.len()],
        };
        for block in &program.blocks {
            flow.branch(block.start, None, Why::Impossible);
        }
        flow.call(program.blocks.len() - 1);
        flow
    }

    /// Goes from a block to those that it calls.
    fn call(&mut self, block: usize) {
        if std::mem::replace(&mut self.called[block], true) {
            return;
        }
        let start = self.script.program.blocks[block].start;
        for (at, statement) in self.script.program.body(block).iter().enumerate() {
            if let (Action::Call(call), None) = (&statement.action, self.dead[start + at]) {
                self.call(call.method);
            }
        }
    }

    /// Why the state with which a branch or body starts can't be.
    fn after(&self, place: usize, why: Why) -> Option<Why> {
        let state = self.record.seen[place].after.as_ref();
        state.filter(|state| impossible(state)).map(|_| why)
    }

    /// Goes over the statements up to the line that closes them: why no run gets to
    /// that. What is wrong with the first state is given by name.
    fn branch(&mut self, start: usize, dead: Option<Why>, first: Why) -> Option<Why> {
        let (mut dead, mut place) = (dead, start);
        loop {
            let state = self.record.seen[place].before.as_ref();
            if dead.is_none() && state.is_some_and(impossible) {
                dead = Some(if place == start {
                    first
                } else {
                    Why::Contradiction
                });
            }
            self.dead[place] = dead;
            match &self.script.program.statements[place].action {
                Action::Else(_) | Action::Join(_) | Action::Again(_) | Action::End => return dead,
                Action::Return(_) => dead = dead.or(Some(Why::Returned)),
                Action::If(branch) => {
                    dead = self.branches(place, branch, dead);
                    place = branch.join;
                }
                Action::Loop(rounds) => {
                    let round = Why::NoRound(place);
                    let inside = dead.or_else(|| self.after(place, round));
                    self.branch(place + 1, inside, round);
                    let left = Why::NeverLeft(place);
                    dead = dead.or_else(|| self.after(rounds.again, left));
                    place = rounds.again;
                }
                _ => {}
            }
            place += 1;
        }
    }

    /// Both branches of an `if`: why no run gets past its `join`.
    fn branches(&mut self, place: usize, branch: &Branch, dead: Option<Why>) -> Option<Why> {
        let (never, always) = (Why::NeverTrue(place), Why::AlwaysTrue(place));
        let first = dead.or_else(|| self.after(place, never));
        let first = self.branch(place + 1, first, never);
        let second = dead.or_else(|| self.after(branch.other, always));
        let second = self.branch(branch.other + 1, second, always);
        let dead = dead.or(first.and(second).map(|_| Why::Returned));
        self.dead[branch.join] = dead;
        dead
    }

    /// In words, after "no run reaches ..: ".
    fn said(&self, why: Why) -> String {
        let line = |place: usize| self.script.program.statements[place].line;
        let condition = |place: usize| {
            let names = self.script.names_at(place);
            match &self.script.program.statements[place].action {
                Action::If(branch) => names.atom(branch.condition),
                Action::Loop(rounds) => names.atom(rounds.condition),
                _ => String::new(),
            }
        };
        match why {
            Why::NeverTrue(at) => format!("`{}` (line {}) is never true", condition(at), line(at)),
            Why::AlwaysTrue(at) => {
                format!("`{}` (line {}) is always true", condition(at), line(at))
            }
            Why::NoRound(at) => format!("`{}` (line {}) is never true", condition(at), line(at)),
            Why::NeverLeft(at) => format!(
                "the loop of line {} is never left, since `{}` is always true",
                line(at),
                condition(at)
            ),
            Why::Returned => "every way there returns before".to_string(),
            Why::Impossible => "what `requires` asks for can't be".to_string(),
            Why::Contradiction => "what is known there can't be".to_string(),
        }
    }
}

/// Does the form of the text want the line where it is?
fn closes(action: &Action) -> bool {
    matches!(
        action,
        Action::Else(_) | Action::Join(_) | Action::Again(_) | Action::End
    )
}

/// A method that is called, but by no step of a run.
fn uncalled(script: &Script, flow: &Flow, ran: Option<&Ran>, block: usize) -> Option<Warning> {
    let start = script.program.blocks[block].start;
    let name = shown(script.program.blocks[block].header?.name);
    let missed = ran.filter(|ran| !ran.done[start]);
    let said = match (flow.called[block], flow.dead[start], missed) {
        (false, ..) => format!("no run reaches `{name}`: no run reaches a line that calls it"),
        (_, Some(why), _) => format!("no run reaches `{name}`: {}", flow.said(why)),
        (.., Some(ran)) => format!("no run reaches `{name}`: {}", ran.said()),
        _ => return None,
    };
    let number = script.block_line(block);
    let last = script.program.body(block).last();
    Some(Warning {
        kind: Kind::Unreached,
        line: number,
        last: last.map_or(number, |last| last.line),
        mark: field_range(line(script.text, number)?, 2..3),
        text: said,
    })
}

/// The lines of a block that no run reaches, those that follow each other together.
fn unreached_in(script: &Script, flow: &Flow, ran: Option<&Ran>, block: usize) -> Vec<Warning> {
    let start = script.program.blocks[block].start;
    let body = script.program.body(block).iter().enumerate();
    let mut found: Vec<Warning> = Vec::new();
    let mut open = false;
    for (at, statement) in body {
        let place = start + at;
        let missed = ran.filter(|ran| !ran.done[place]);
        let why = match (flow.dead[place], missed) {
            (Some(why), _) => flow.said(why),
            (None, Some(ran)) => ran.said(),
            (None, None) => {
                open = false;
                continue;
            }
        };
        if closes(&statement.action) {
            continue;
        }
        match found.last_mut().filter(|_| open) {
            Some(warning) => warning.last = statement.line,
            None => found.push(Warning {
                kind: Kind::Unreached,
                line: statement.line,
                last: statement.line,
                mark: None,
                text: why,
            }),
        }
        open = true;
    }
    for warning in &mut found {
        let lines = match warning.last - warning.line {
            0 => "this line".to_string(),
            _ => format!("lines {} to {}", warning.line, warning.last),
        };
        warning.text = format!("no run reaches {lines}: {}", warning.text);
    }
    found
}
