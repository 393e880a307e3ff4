//! Who answers for a text: the proved library, or the model.

use nuyardi::limits::{BOUNDS_BYTES, COUNT_BYTES, PLACES_BYTES, RESULTS_BYTES, WORK_BYTES};
use nuyardi::{Bound, Counted, Filled, NoBound, NotCounted, NotFilled, Outcome, Refusal};
use nuyardi::{Returned, Share};

/// Who gives the numbers, lines, steps and values that are explained.
pub trait Answers {
    /// Is the text accepted?
    fn check(&mut self, text: &[u8]) -> Result<(), Refusal>;

    /// A run of at most that many steps, of a text that is accepted.
    fn run<'t>(&mut self, text: &'t [u8], steps: u32) -> Result<Outcome<'t>, Refusal>;

    /// What `run` answers, from the machine that keeps no permissions.
    fn lean<'t>(&mut self, text: &'t [u8], steps: u32) -> Result<Outcome<'t>, Refusal>;

    /// A run of at most that many steps, of each text that the reader takes.
    fn trial<'t>(&mut self, text: &'t [u8], steps: u32) -> Outcome<'t>;

    /// The most that a run can take.
    fn bound(&mut self, text: &[u8]) -> Result<Bound, NoBound>;

    /// The permissions that a line `requires *` stands for.
    fn fill<'t>(&mut self, text: &'t [u8]) -> Result<Filled<'t>, NotFilled>;

    /// Scripts over one heap, for at most that many rounds.
    fn count<'t>(&mut self, scripts: &[Share<'t>], rounds: u32) -> Result<Counted<'t>, NotCounted>;
}

#[cfg(feature = "library")]
impl Answers for nuyardi::Station {
    fn check(&mut self, text: &[u8]) -> Result<(), Refusal> {
        nuyardi::Station::check(self, text).map(|_| ())
    }

    fn run<'t>(&mut self, text: &'t [u8], steps: u32) -> Result<Outcome<'t>, Refusal> {
        nuyardi::Station::run(self, text, steps).map(Outcome::from)
    }

    fn lean<'t>(&mut self, text: &'t [u8], steps: u32) -> Result<Outcome<'t>, Refusal> {
        nuyardi::Station::lean(self, text, steps).map(Outcome::from)
    }

    fn trial<'t>(&mut self, text: &'t [u8], steps: u32) -> Outcome<'t> {
        nuyardi::Station::trial(self, text, steps)
    }

    fn bound(&mut self, text: &[u8]) -> Result<Bound, NoBound> {
        nuyardi::Station::bound(self, text)
    }

    fn fill<'t>(&mut self, text: &'t [u8]) -> Result<Filled<'t>, NotFilled> {
        nuyardi::Station::fill(self, text)
    }

    fn count<'t>(&mut self, scripts: &[Share<'t>], rounds: u32) -> Result<Counted<'t>, NotCounted> {
        nuyardi::Station::count(self, scripts, rounds)
    }
}

/// The model, for programs that have no proved library at hand.
#[derive(Clone, Copy, Debug, Default)]
pub struct Model;

/// A call of the model that runs a text.
type Runs = fn(&[u8], &mut [u8], u32, &mut [u8]) -> u32;

impl Model {
    fn ran<'t>(call: Runs, text: &'t [u8], steps: u32) -> (Returned, Outcome<'t>) {
        let (mut work, mut results) = (vec![0; WORK_BYTES], [0; RESULTS_BYTES]);
        let returned = Returned::of(call(text, &mut work, steps, &mut results));
        let outcome = returned.outcome(text, &results);
        (returned, outcome.expect("a number of the table"))
    }
}

impl Answers for Model {
    fn check(&mut self, text: &[u8]) -> Result<(), Refusal> {
        let returned = model::check_call(text, &mut vec![0; WORK_BYTES]);
        Returned::of(returned).refusal().map_or(Ok(()), Err)
    }

    fn run<'t>(&mut self, text: &'t [u8], steps: u32) -> Result<Outcome<'t>, Refusal> {
        let (returned, outcome) = Model::ran(model::run_call, text, steps);
        returned.refusal().map_or(Ok(outcome), Err)
    }

    fn lean<'t>(&mut self, text: &'t [u8], steps: u32) -> Result<Outcome<'t>, Refusal> {
        let (returned, outcome) = Model::ran(model::lean_call, text, steps);
        returned.refusal().map_or(Ok(outcome), Err)
    }

    fn trial<'t>(&mut self, text: &'t [u8], steps: u32) -> Outcome<'t> {
        Model::ran(model::trial_call, text, steps).1
    }

    fn bound(&mut self, text: &[u8]) -> Result<Bound, NoBound> {
        let (mut work, mut bounds) = (vec![0; WORK_BYTES], [0; BOUNDS_BYTES]);
        let returned = Returned::of(model::bound_call(text, &mut work, &mut bounds));
        let bound = returned.bound(&bounds);
        bound.expect("a number of the table")
    }

    fn fill<'t>(&mut self, text: &'t [u8]) -> Result<Filled<'t>, NotFilled> {
        let (mut work, mut places) = (vec![0; WORK_BYTES], [0; PLACES_BYTES]);
        let returned = Returned::of(model::fill_call(text, &mut work, &mut places));
        let filled = returned.filled(text, &places);
        filled.expect("a number of the table")
    }

    fn count<'t>(&mut self, scripts: &[Share<'t>], rounds: u32) -> Result<Counted<'t>, NotCounted> {
        let script = |at: usize| scripts.get(at).copied().unwrap_or(Share::new(b"", 0));
        let texts = std::array::from_fn(|at| script(at).text);
        let shares = std::array::from_fn(|at| script(at).objects);
        let (mut work, mut results) = (vec![0; WORK_BYTES], [0; COUNT_BYTES]);
        let count = u32::try_from(scripts.len()).unwrap_or(u32::MAX);
        let returned = model::count_call(count, rounds, texts, &mut work, shares, &mut results);
        let counted = Returned::of(returned).counted(scripts, &results);
        counted.expect("a number of the table")
    }
}
