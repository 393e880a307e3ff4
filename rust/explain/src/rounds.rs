//! The loops that a run is in, and how many rounds each has done.

use model::machine::{Locations, Machine, Step, Values};
use model::names::Action;
use model::number::Stop;

/// A loop that a frame is in: how deep the frame is, the place of the `loop`, the
/// rounds that are done, and the values before and after the last of them.
#[derive(Clone, Copy, Debug, PartialEq, Eq)]
pub struct Open {
    pub depth: usize,
    pub place: usize,
    pub rounds: u32,
    pub before: Values,
    pub after: Values,
}

/// So many further steps are tried for a state that came before.
const TRIED: u32 = 100_000;

/// The open loops, the innermost last.
#[derive(Default)]
pub struct Rounds {
    open: Vec<Open>,
}

/// All that a run depends on: of each frame its next statement, its values and
/// what it holds; the fields, and how many objects there are.
type Whole = (Vec<(usize, Values, Locations)>, Vec<i32>, usize);

fn whole(machine: &Machine) -> Whole {
    let frames = machine.frames.iter();
    let frames = frames.map(|frame| (frame.next, frame.values, frame.held));
    (
        frames.collect(),
        machine.heap.clone(),
        machine.objects.len(),
    )
}

impl Rounds {
    /// A step of the machine; a loop is open from its first arrival until its
    /// condition is false, or its frame is left.
    pub fn step(&mut self, machine: &mut Machine) -> Result<Step, Stop> {
        let (depth, place) = (machine.frames.len(), machine.frame().next);
        let values = machine.frame().values;
        match machine.statement().action {
            Action::Loop(_) if self.innermost(machine).is_none() => self.open.push(Open {
                depth,
                place,
                rounds: 0,
                before: values,
                after: values,
            }),
            Action::Again(_) => {
                if let Some(open) = self.open.last_mut() {
                    open.rounds += 1;
                    (open.before, open.after) = (open.after, values);
                }
            }
            _ => {}
        }
        let done = machine.step();
        self.open.retain(|open| inside(open, machine));
        done
    }

    /// The innermost open loop, if the machine stands at its `loop`.
    fn innermost(&self, machine: &Machine) -> Option<&Open> {
        let here = (machine.frames.len(), machine.frame().next);
        let last = self.open.last();
        last.filter(|open| (open.depth, open.place) == here)
    }

    /// The rounds that the loop at which the machine stands has done.
    pub fn done(&self, machine: &Machine) -> u32 {
        self.innermost(machine).map_or(0, |open| open.rounds)
    }

    /// The open loops, the innermost last.
    pub fn all(&self) -> &[Open] {
        &self.open
    }

    /// The open loop that has done most rounds.
    pub fn most(&self) -> Option<Open> {
        self.open.iter().copied().max_by_key(|open| open.rounds)
    }

    /// Does the run come to a loop twice with everything as it was? Then it does
    /// so for ever, and the rounds between the two are told. Only some steps are
    /// tried.
    pub fn for_ever(&mut self, machine: &mut Machine, open: Open) -> Option<u32> {
        let mut seen: Option<Whole> = None;
        let (mut since, mut again) = (0u32, 1u32);
        for _ in 0..TRIED {
            if (machine.frames.len(), machine.frame().next) == (open.depth, open.place) {
                let now = whole(machine);
                if seen.as_ref() == Some(&now) {
                    return Some(since);
                }
                // The state that is kept is exchanged ever more rarely.
                if since == again || seen.is_none() {
                    seen = Some(now);
                    (since, again) = (0, 2 * again);
                }
                since += 1;
            }
            if self.step(machine) != Ok(Step::On) {
                return None;
            }
        }
        None
    }
}

/// Is the machine in the loop?
fn inside(open: &Open, machine: &Machine) -> bool {
    let Action::Loop(rounds) = &machine.program.statements[open.place].action else {
        return false;
    };
    let here = machine.frame().next;
    let body = open.place..=rounds.again;
    open.depth < machine.frames.len()
        || (open.depth == machine.frames.len() && body.contains(&here))
}
