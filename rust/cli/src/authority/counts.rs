//! What can be counted in the text: how often lines can be done, how many cards
//! are made at most, and where calls go too deep.

use super::said::{self, text, Said};
use explain::routes::Routes;
use explain::script::Script;
use explain::show::counted;
use model::names::{Action, Statement};
use nuyardi::limits;

/// The calls and lines of a text, as far as main can come to them.
pub struct Counts<'s, 'a> {
    script: &'s Script<'a>,
    /// Blocks that main calls, by way of others too, main itself among them.
    called: Vec<bool>,
    /// Blocks that can be begun again and again: in a ring, or from a loop.
    repeated: Vec<bool>,
}

/// The places from each `loop` to its `again`.
fn loops<'p>(script: &'p Script) -> impl Iterator<Item = std::ops::RangeInclusive<usize>> + 'p {
    let statements = script.program.statements.iter().enumerate();
    statements.filter_map(|(place, statement)| match &statement.action {
        Action::Loop(rounds) => Some(place..=rounds.again),
        _ => None,
    })
}

fn in_a_loop(script: &Script, place: usize) -> bool {
    loops(script).any(|body| body.contains(&place))
}

impl<'s, 'a> Counts<'s, 'a> {
    pub fn of(script: &'s Script<'a>) -> Counts<'s, 'a> {
        let routes = Routes::of(script);
        let count = script.program.blocks.len();
        let called: Vec<bool> = (0..count).map(|block| routes.is_called(block)).collect();
        let mut repeated: Vec<bool> = (0..count)
            .map(|block| routes.way(block, block).is_some())
            .collect();
        // A way to any block has fewer calls than there are blocks.
        for _ in 0..count {
            for (place, method) in calls(script) {
                let caller = script.block_of(place);
                let again = repeated[caller] || in_a_loop(script, place);
                repeated[method] |= called[caller] && again;
            }
        }
        Counts {
            script,
            called,
            repeated,
        }
    }

    /// How often a block that is not repeated can be begun.
    fn times(&self, block: usize, known: &mut [Option<u128>]) -> u128 {
        if let Some(times) = known[block] {
            return times;
        }
        let here = calls(self.script).filter(|(_, method)| *method == block);
        let callers = here.map(|(place, _)| self.script.block_of(place));
        let times = callers
            .filter(|&caller| self.called[caller])
            .map(|caller| self.times(caller, known))
            .sum();
        known[block] = Some(times);
        times
    }

    /// The lines that main can come to and that are of a kind.
    pub fn lines(&self, kind: impl Fn(&Statement) -> bool) -> Vec<u32> {
        let statements = self.script.program.statements.iter().enumerate();
        let reached = statements.filter(|(place, statement)| {
            self.called[self.script.block_of(*place)] && kind(statement)
        });
        reached.map(|(_, statement)| statement.line).collect()
    }

    /// The most cards that a run makes, and their fields; none where a `new` can
    /// be done again and again.
    pub fn cards(&self) -> Option<(u128, u128)> {
        let mut known = vec![None; self.called.len()];
        if let Some(main) = known.last_mut() {
            *main = Some(1);
        }
        let mut most = (0, 0);
        for (place, statement) in self.script.program.statements.iter().enumerate() {
            let block = self.script.block_of(place);
            let Action::New(_, class) = statement.action else {
                continue;
            };
            if !self.called[block] {
                continue;
            }
            if self.repeated[block] || in_a_loop(self.script, place) {
                return None;
            }
            let times = self.times(block, &mut known);
            let fields = self.script.program.classes[class].fields.len() as u128;
            most = (most.0 + times, most.1 + times * fields);
        }
        Some(most)
    }

    /// The calls of blocks that can be the last frame that there is room for.
    pub fn too_deep(&self) -> Vec<u32> {
        let count = self.called.len();
        let mut frame: Vec<bool> = (0..count).map(|block| block + 1 == count).collect();
        for _ in 1..limits::FRAMES {
            let mut next = vec![false; count];
            for (place, method) in calls(self.script) {
                next[method] |= frame[self.script.block_of(place)];
            }
            frame = next;
        }
        let calls = calls(self.script).filter(|(place, _)| frame[self.script.block_of(*place)]);
        calls
            .map(|(place, _)| self.script.program.statements[place].line)
            .collect()
    }
}

/// The `call` lines, by their places, and the methods that they call.
fn calls<'p>(script: &'p Script) -> impl Iterator<Item = (usize, usize)> + 'p {
    let statements = script.program.statements.iter().enumerate();
    statements.filter_map(|(place, statement)| match statement.action {
        Action::Call(call) => Some((place, call.method)),
        _ => None,
    })
}

/// Is there room for so many cards with so many fields?
pub fn room_for((cards, fields): (u128, u128)) -> bool {
    cards <= limits::OBJECTS as u128 && fields <= limits::FIELDS as u128
}

/// How many cards are made at most.
pub fn cards_said(cards: Option<(u128, u128)>) -> Said {
    match cards {
        None => said::sentence("a `new` can be done any number of times"),
        Some((0, _)) => said::sentence("no line that main comes to is a `new`"),
        Some((cards, fields)) => vec![text(format!(
            "at most {} with {}; there is room for {} with {}",
            counted(cards, "card"),
            counted(fields, "field"),
            counted(limits::OBJECTS as u128, "card"),
            counted(limits::FIELDS as u128, "field")
        ))],
    }
}
