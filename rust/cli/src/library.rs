//! The proved library, with a sign of life in long runs.

use crate::progress::Progress;
use explain::Answers;
use nuyardi::{Bound, Counted, Filled, NoBound, NotCounted, NotFilled, Outcome, Refusal};
use nuyardi::{Share, Station};

/// The library's answers, over areas that are kept from call to call.
#[derive(Default)]
pub struct Library(Station);

impl Answers for Library {
    fn check(&mut self, text: &[u8]) -> Result<(), Refusal> {
        self.0.check(text).map(|_| ())
    }

    fn run<'t>(&mut self, text: &'t [u8], steps: u32) -> Result<Outcome<'t>, Refusal> {
        let _progress = Progress::start(steps);
        self.0.run(text, steps).map(Outcome::from)
    }

    fn lean<'t>(&mut self, text: &'t [u8], steps: u32) -> Result<Outcome<'t>, Refusal> {
        let _progress = Progress::start(steps);
        self.0.lean(text, steps).map(Outcome::from)
    }

    fn trial<'t>(&mut self, text: &'t [u8], steps: u32) -> Outcome<'t> {
        let _progress = Progress::start(steps);
        self.0.trial(text, steps)
    }

    fn bound(&mut self, text: &[u8]) -> Result<Bound, NoBound> {
        self.0.bound(text)
    }

    fn fill<'t>(&mut self, text: &'t [u8]) -> Result<Filled<'t>, NotFilled> {
        self.0.fill(text)
    }

    fn count<'t>(&mut self, scripts: &[Share<'t>], rounds: u32) -> Result<Counted<'t>, NotCounted> {
        let _progress = Progress::start(rounds);
        self.0.count(scripts, rounds)
    }
}
