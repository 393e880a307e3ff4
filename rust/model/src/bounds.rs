//! W6: steps known before the run, with the numbers 15 and 16.

use crate::limits;
use crate::number::{Reason, Refusal};
use crate::program::{Action, Program, Statement};

/// What a block, with all that it calls, can take at most.
#[derive(Clone, Copy, Debug, PartialEq, Eq)]
pub struct Most {
    /// "A block's bound": its steps. More than a u32 holds stays at the most of
    /// it, which is beyond the limit as well.
    pub steps: u32,
    /// "the most frames on a route of calls", the block's own counted.
    pub frames: u32,
}

/// The methods that a block calls, once for each `call` line.
fn called<'p>(program: &'p Program, block: usize) -> impl Iterator<Item = usize> + 'p {
    program.body(block).iter().filter_map(method)
}

/// The method that a statement calls.
fn method(statement: &Statement) -> Option<usize> {
    match statement.action {
        Action::Call(call) => Some(call.method),
        _ => None,
    }
}

/// Is the method the block itself, or "can [it] reach by calls" the block?
fn reaches(program: &Program, method: usize, block: usize) -> bool {
    let mut seen = vec![method];
    let mut next = 0;
    while next < seen.len() {
        for callee in called(program, seen[next]) {
            if !seen.contains(&callee) {
                seen.push(callee);
            }
        }
        next += 1;
    }
    seen.contains(&block)
}

/// "15 at the first line that is a `loop` or a `call` whose method is, or can
/// reach by calls, the method that the line is in".
fn unbounded(program: &Program) -> Option<u32> {
    (0..program.blocks.len()).find_map(|block| {
        let goes_on = |statement: &&Statement| match statement.action {
            Action::Loop(_) => true,
            Action::Call(call) => reaches(program, call.method, block),
            _ => false,
        };
        let found = program.body(block).iter().find(goes_on)?;
        Some(found.line)
    })
}

/// "A block's bound is its statement lines plus, for each `call` line, the bound
/// of the method called." No call may lead back to its own block. What is known
/// of other blocks is kept for the next call of them.
fn most(program: &Program, block: usize, known: &mut [Option<Most>]) -> Most {
    if let Some(most) = known[block] {
        return most;
    }
    let mut own = Most {
        steps: program.body(block).len() as u32,
        frames: 1,
    };
    for method in called(program, block) {
        let callee = most(program, method, known);
        own.steps = own.steps.saturating_add(callee.steps);
        own.frames = own.frames.max(1 + callee.frames);
    }
    known[block] = Some(own);
    own
}

/// What main can take at most. "It refuses ... with 15 ..., and then with 16 at
/// line 0 if the bound passes 1,000,000."
pub fn bounds(program: &Program) -> Result<Most, Refusal> {
    let refuse = |reason, line| Refusal { reason, line };
    if let Some(line) = unbounded(program) {
        return Err(refuse(Reason::Unbounded, line));
    }
    let main = program.blocks.len() - 1;
    let most = most(program, main, &mut vec![None; program.blocks.len()]);
    if most.steps > limits::BOUND {
        return Err(refuse(Reason::BoundPassed, 0));
    }
    Ok(most)
}
