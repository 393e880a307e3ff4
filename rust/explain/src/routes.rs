//! The calls of a script: what each block adds to a bound, by which calls most of
//! it comes, and by which calls a method comes back to itself.

use crate::script::Script;
use model::names::Action;

/// A `call` line, and the method that it calls, by its place among the blocks.
#[derive(Clone, Copy, Debug, PartialEq, Eq)]
pub struct CallLine {
    /// The line.
    pub line: u32,
    /// The method.
    pub method: usize,
}

/// A block on a route from main: the line that leads there, the block's own
/// statement lines, its calls, and its bound.
#[derive(Clone, Copy, Debug, PartialEq, Eq)]
pub struct Leg {
    /// The line that leads there: a `call`, or `main`.
    pub line: u32,
    /// The block, by its place among the blocks.
    pub block: usize,
    /// Its own statement lines.
    pub own: u128,
    /// How many of these are calls.
    pub calls: usize,
    /// Its bound.
    pub bound: u128,
}

/// Why a line leaves no bound.
#[derive(Clone, Debug, PartialEq, Eq)]
pub enum Why {
    /// A `loop`, and the line of its `again`.
    Loop(u32),
    /// A call that leads back to its own method, and the lines of the calls that
    /// lead on from it.
    Ring(Vec<u32>),
}

/// Every line that leaves no bound, by the place of its statement, in the order of
/// the text.
pub fn unbounded(script: &Script, routes: &Routes) -> Vec<(usize, Why)> {
    let statements = script.program.statements.iter().enumerate();
    let found = statements.filter_map(|(place, statement)| {
        let block = script.block_of(place);
        let why = match &statement.action {
            Action::Loop(rounds) => Why::Loop(script.program.statements[rounds.again].line),
            Action::Call(call) if call.method == block => Why::Ring(Vec::new()),
            Action::Call(call) => {
                let back = routes.way(call.method, block)?;
                Why::Ring(back.iter().map(|call| call.line).collect())
            }
            _ => return None,
        };
        Some((place, why))
    });
    found.collect()
}

/// The calls of each block.
pub struct Routes {
    own: Vec<u128>,
    calls: Vec<Vec<CallLine>>,
    main_line: u32,
}

impl Routes {
    /// The calls of a script.
    pub fn of(script: &Script) -> Routes {
        let blocks = 0..script.program.blocks.len();
        let bodies = blocks.map(|block| script.program.body(block));
        let (own, calls) = bodies
            .map(|body| {
                let calls = body.iter().filter_map(|statement| match statement.action {
                    Action::Call(call) => Some(CallLine {
                        line: statement.line,
                        method: call.method,
                    }),
                    _ => None,
                });
                (body.len() as u128, calls.collect())
            })
            .unzip();
        Routes {
            own,
            calls,
            main_line: script.block_line(script.program.blocks.len() - 1),
        }
    }

    fn main(&self) -> usize {
        self.own.len() - 1
    }

    /// The fewest calls that lead from a block to another one, or to itself.
    pub fn way(&self, from: usize, to: usize) -> Option<Vec<CallLine>> {
        let mut ways: Vec<(usize, Vec<CallLine>)> = vec![(from, Vec::new())];
        let mut next = 0;
        while let Some((block, way)) = ways.get(next).cloned() {
            for &call in &self.calls[block] {
                let longer = [&way[..], &[call]].concat();
                if call.method == to {
                    return Some(longer);
                }
                if ways.iter().all(|(known, _)| *known != call.method) {
                    ways.push((call.method, longer));
                }
            }
            next += 1;
        }
        None
    }

    /// Does main call the block, by way of others too?
    pub fn is_called(&self, block: usize) -> bool {
        block == self.main() || self.way(self.main(), block).is_some()
    }

    /// The bound of each block. No call may lead back to its own block, here and
    /// below.
    fn bounds(&self) -> Vec<u128> {
        let mut known = vec![None; self.own.len()];
        (0..known.len())
            .map(|block| self.bound(block, &mut known))
            .collect()
    }

    fn bound(&self, block: usize, known: &mut [Option<u128>]) -> u128 {
        if let Some(bound) = known[block] {
            return bound;
        }
        let calls = self.calls[block].iter();
        let called: u128 = calls.map(|call| self.bound(call.method, known)).sum();
        let bound = self.own[block] + called;
        known[block] = Some(bound);
        bound
    }

    /// How often a block is done where main is done once and every line of it.
    fn times(&self, block: usize, known: &mut [Option<u128>]) -> u128 {
        if let Some(times) = known[block] {
            return times;
        }
        let callers = self.calls.iter().enumerate();
        let calls =
            callers.flat_map(|(caller, calls)| calls.iter().map(move |call| (caller, call)));
        let here = calls.filter(|(_, call)| call.method == block);
        let times = here.map(|(caller, _)| self.times(caller, known)).sum();
        known[block] = Some(times);
        times
    }

    /// The block whose own lines are most of main's bound, and how often it is
    /// done.
    pub fn heaviest(&self) -> (usize, u128) {
        let mut known = vec![None; self.own.len()];
        known[self.main()] = Some(1);
        let times = (0..self.own.len()).map(|block| (block, self.times(block, &mut known)));
        let weight = |&(block, times): &(usize, u128)| self.own[block] * times;
        times.max_by_key(weight).unwrap_or((self.main(), 1))
    }

    /// Main, then of each block the call that adds most, the first of several.
    pub fn costliest(&self) -> Vec<Leg> {
        let bounds = self.bounds();
        let leg = |line, block: usize| Leg {
            line,
            block,
            own: self.own[block],
            calls: self.calls[block].len(),
            bound: bounds[block],
        };
        let mut legs = vec![leg(self.main_line, self.main())];
        let costliest = |block: usize| {
            let calls = self.calls[block].iter().rev();
            calls.max_by_key(|call| bounds[call.method])
        };
        while let Some(call) = legs.last().and_then(|last| costliest(last.block)) {
            legs.push(leg(call.line, call.method));
        }
        legs
    }
}
