//! A run walked step by step: which fields its calls hand over, and which of them
//! change while a call lasts.

use model::machine::{callee_values, location, Location, Machine, Step, Values};
use model::names::{Action, Atom, Call, Path, Program};
use model::text::Share;
use std::collections::BTreeMap;

/// The shares in which the atoms of requires take each location.
pub type Handed = BTreeMap<Location, Vec<Share>>;

/// A call that has not ended: what was there before its step.
pub struct OpenCall {
    /// The frames before the call.
    pub frames: usize,
    /// The fields of all objects that existed, before the `call` step.
    pub heap: Vec<i32>,
    /// The halves of the footprint of requires, in the state before the call.
    pub handed: Handed,
}

/// What a walk has seen.
#[derive(Debug, Default)]
pub struct Seen {
    pub calls: usize,
    pub ended: usize,
    pub deepest: usize,
    /// Fields of older objects that were handed over and have changed; those of
    /// them that were handed over by two `read`.
    pub changed: usize,
    pub changed_by_reads: usize,
    /// Those of them that were handed over by a chain.
    pub changed_by_chains: usize,
    /// Fields of which a call hands over one half.
    pub shared: usize,
    /// The first field that changed though it was not handed over.
    pub violation: Option<(Location, u32)>,
}

/// The locations on the way from x by f to null, each once.
fn chain(machine: &Machine, values: &Values, path: Path) -> Vec<Location> {
    let mut values = *values;
    let mut passed = Vec::new();
    while let Some(place) = location(&machine.objects, &values, path) {
        if passed.contains(&place) {
            break;
        }
        passed.push(place);
        values[path.var] = machine.heap[place];
    }
    passed
}

/// What the permissions of requires take, by y and z for `this` and w.
pub fn footprint(machine: &Machine, call: Call) -> Handed {
    let values = callee_values(&machine.frame().values, call);
    let mut handed = Handed::new();
    for atom in &machine.program.blocks[call.method].requires {
        let Atom::Permission(share, path) = *atom else {
            continue;
        };
        let places = match share {
            Share::Chain => chain(machine, &values, path),
            _ => location(&machine.objects, &values, path)
                .into_iter()
                .collect(),
        };
        for place in places {
            handed.entry(place).or_default().push(share);
        }
    }
    handed
}

/// W8: "only fields handed over whole may change: those with both halves in the
/// footprint of requires, be it by two `read`."
fn whole(shares: &[Share]) -> bool {
    shares.iter().map(|share| share.halves()).sum::<u8>() == 2
}

pub fn look(machine: &Machine, open: &[OpenCall], line: u32, seen: &mut Seen) {
    for call in open {
        for (place, &before) in call.heap.iter().enumerate() {
            if machine.heap[place] == before {
                continue;
            }
            match call.handed.get(&place) {
                Some(shares) if whole(shares) => {
                    seen.changed += 1;
                    seen.changed_by_reads += usize::from(shares.len() == 2);
                    seen.changed_by_chains += usize::from(shares[..] == [Share::Chain]);
                }
                _ => seen.violation = seen.violation.or(Some((place, line))),
            }
        }
    }
}

/// Walks the run step by step. Without `hand_over` no field counts as handed
/// over, so that a change by a method shows.
pub fn walk(program: &Program, steps: u32, hand_over: bool) -> Seen {
    let mut machine = Machine::new(program);
    let mut open: Vec<OpenCall> = Vec::new();
    let mut seen = Seen::default();
    while machine.steps < steps {
        let statement = machine.statement();
        let (frames, heap) = (machine.frames.len(), machine.heap.clone());
        let handed = match statement.action {
            Action::Call(call) if machine.frame().values[call.y] != 0 => footprint(&machine, call),
            _ => Handed::new(),
        };
        let step = machine.step();
        if machine.frames.len() > frames {
            seen.calls += 1;
            seen.shared += handed.values().filter(|shares| !whole(shares)).count();
            let handed = if hand_over { handed } else { Handed::new() };
            open.push(OpenCall {
                frames,
                heap,
                handed,
            });
        }
        seen.deepest = seen.deepest.max(machine.frames.len());
        look(&machine, &open, statement.line, &mut seen);
        // The step that ends a call is the last one that counts for it.
        if open
            .last()
            .is_some_and(|call| machine.frames.len() == call.frames)
        {
            open.pop();
            seen.ended += 1;
        }
        if step != Ok(Step::On) {
            break;
        }
    }
    seen
}
