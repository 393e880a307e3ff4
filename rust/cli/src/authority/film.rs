//! The cards after each step of a run, as pictures. Steps after which the cards
//! are the same share one.

use super::findings::Findings;
use explain::cards;
use explain::cause::{machine_at, AGAIN};
use explain::draw;
use explain::script::{quoted, Script};
use explain::trace;
use model::machine::{Machine, Step};

/// At most that many steps are shown, from the first on, and the last one.
const STEPS: usize = 400;
/// Pictures of so many bytes at most, of all scripts of a page, but for the last
/// picture of each.
pub const PICTURE_BYTES: usize = 3_000_000;

/// The cards in a picture and in words.
#[derive(PartialEq, Eq)]
pub struct Picture {
    pub svg: String,
    pub words: String,
}

/// One step: its line, what it changed, and the picture after it.
pub struct Frame {
    pub step: u32,
    /// 0 before the first step.
    pub line: u32,
    pub text: String,
    pub changes: Vec<String>,
    pub picture: usize,
}

pub struct Film {
    pub frames: Vec<Frame>,
    pub pictures: Vec<Picture>,
    /// The steps that are not shown.
    pub left_out: u32,
}

impl Film {
    /// The film of the run; none if there was none, if it is too long to be done
    /// again, or the model's is another.
    pub fn of(findings: &Findings, bytes: usize) -> Option<Film> {
        let script = findings.script.as_ref()?;
        let steps = findings.outcome()?.steps();
        if steps > AGAIN {
            return None;
        }
        let mut film = Film {
            frames: Vec::new(),
            pictures: Vec::new(),
            left_out: 0,
        };
        let title = findings.identity.file.as_str();
        film.shoot(script, steps, title, bytes);
        film.finish(script, steps, title)?;
        Some(film)
    }

    /// The picture of a machine, by its place; an earlier one if it is the same.
    fn picture(&mut self, script: &Script, machine: &Machine, title: &str) -> usize {
        let cards = cards::of(script, machine);
        let picture = Picture {
            svg: draw::svg(&cards, title),
            words: cards.table(),
        };
        let same = self.pictures.iter().position(|old| *old == picture);
        same.unwrap_or_else(|| {
            self.pictures.push(picture);
            self.pictures.len() - 1
        })
    }

    /// The first steps, as many as there is room for.
    fn shoot(&mut self, script: &Script, steps: u32, title: &str, bytes: usize) {
        let mut machine = Machine::new(&script.program);
        let picture = self.picture(script, &machine, title);
        self.frames.push(Frame {
            step: 0,
            line: 0,
            text: String::new(),
            changes: Vec::new(),
            picture,
        });
        trace::each(script, steps, |row| {
            let done = machine.step();
            let picture = self.picture(script, &machine, title);
            self.frames.push(Frame {
                step: row.step,
                line: row.line,
                text: row.text.clone(),
                changes: row.changes.clone(),
                picture,
            });
            let size: usize = self.pictures.iter().map(|picture| picture.svg.len()).sum();
            done == Ok(Step::On) && self.frames.len() <= STEPS && size <= bytes
        });
    }

    /// The last step, where it is not shown yet; none if the model does not come
    /// there.
    fn finish(&mut self, script: &Script, steps: u32, title: &str) -> Option<()> {
        let shown = self.frames.last()?.step;
        if shown == steps {
            return Some(());
        }
        let line = machine_at(script, steps - 1).statement().line;
        let machine = machine_at(script, steps);
        let picture = self.picture(script, &machine, title);
        self.left_out = steps - shown - 1;
        self.frames.push(Frame {
            step: steps,
            line,
            text: quoted(script.text, line),
            changes: Vec::new(),
            picture,
        });
        (machine.steps == steps).then_some(())
    }
}
