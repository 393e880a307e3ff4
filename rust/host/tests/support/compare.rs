//! The library beside the model, on one text: number, line and every byte of
//! the lent areas, with canaries around them and garbage in them before.
#![allow(dead_code)]

use generator::{self as gen, mutate, rng::Rng};
use model::Judged;
use nuyardi::limits::{BOUNDS_BYTES, PLACES_BYTES, RESULTS_BYTES, WORK_BYTES};
use nuyardi::{calls, Returned};
use std::fmt;

/// The number that a word of the command line gives, or the usual one.
pub fn number_or(usual: u64, word: Option<String>) -> u64 {
    word.and_then(|word| word.parse().ok()).unwrap_or(usual)
}

/// The bytes that stand before and after a lent area and must stay.
const CANARY: usize = 64;

/// A lent area between two canaries.
#[derive(Default)]
pub struct Lent {
    pub bytes: Vec<u8>,
    len: usize,
}

/// Garbage for the areas of all calls.
pub fn garbage(seed: u64) -> Vec<u8> {
    let mut rng = Rng::new(seed);
    (0..3 * WORK_BYTES).map(|_| rng.bits() as u8).collect()
}

impl Lent {
    /// An area with garbage in it and around it.
    pub fn set(&mut self, garbage: &[u8], len: usize) -> &mut Lent {
        self.len = len;
        self.bytes.clear();
        self.bytes.extend_from_slice(&garbage[..len + 2 * CANARY]);
        self
    }

    pub fn area(&mut self) -> &mut [u8] {
        &mut self.bytes[CANARY..CANARY + self.len]
    }
}

/// Which call, over which areas.
#[derive(Clone, Copy, Debug)]
pub enum Call {
    Check {
        work: usize,
    },
    Run {
        by: Runs,
        work: usize,
        steps: u32,
        results: usize,
    },
    Bound {
        work: usize,
        bounds: usize,
    },
    Fill {
        work: usize,
        places: usize,
    },
}

/// A call that runs a text.
#[derive(Clone, Copy, Debug)]
pub enum Runs {
    Run,
    Trial,
    /// The library's lean beside the model's run, and beside the model's lean.
    Lean,
}

impl Runs {
    pub fn named(name: &str) -> Option<Runs> {
        match name {
            "run" => Some(Runs::Run),
            "trial" => Some(Runs::Trial),
            "lean" => Some(Runs::Lean),
            _ => None,
        }
    }
}

/// A check, a bound, a fill, a run, a trial and a lean run with areas of the right length.
pub const CHECK: Call = Call::Check { work: WORK_BYTES };

pub const BOUND: Call = Call::Bound {
    work: WORK_BYTES,
    bounds: BOUNDS_BYTES,
};

pub const FILLED: Call = Call::Fill {
    work: WORK_BYTES,
    places: PLACES_BYTES,
};

pub fn run_of(steps: u32) -> Call {
    run_by(Runs::Run, steps)
}

pub fn trial_of(steps: u32) -> Call {
    run_by(Runs::Trial, steps)
}

pub fn lean_of(steps: u32) -> Call {
    run_by(Runs::Lean, steps)
}

fn run_by(by: Runs, steps: u32) -> Call {
    Call::Run {
        by,
        work: WORK_BYTES,
        steps,
        results: RESULTS_BYTES,
    }
}

/// A text on which library and model differ.
pub struct Difference {
    pub call: Call,
    pub text: Vec<u8>,
    pub what: &'static str,
    pub library: u32,
    pub model: u32,
    library_results: Vec<u8>,
    model_results: Vec<u8>,
}

impl fmt::Display for Difference {
    fn fmt(&self, f: &mut fmt::Formatter<'_>) -> fmt::Result {
        writeln!(
            f,
            "{} differs for {:?}: library {:?} {:?}, model {:?} {:?}, on the text",
            self.what,
            self.call,
            Returned::of(self.library),
            self.library_results,
            Returned::of(self.model),
            self.model_results
        )?;
        write!(
            f,
            "{}",
            self.text.escape_ascii().to_string().replace("\\n", "\n")
        )
    }
}

/// Makes calls of both sides over areas that are kept for the next text.
pub struct Comparer {
    garbage: Vec<u8>,
    areas: [Lent; 6],
    text: Vec<u8>,
}

impl Comparer {
    pub fn new(seed: u64) -> Comparer {
        Comparer {
            garbage: garbage(seed),
            areas: std::array::from_fn(|_| Lent::default()),
            text: Vec::new(),
        }
    }

    /// The number and line that both sides return, or how they differ.
    pub fn call(&mut self, text: &[u8], call: Call) -> Result<u32, Box<Difference>> {
        self.call_judged(text, &Judged::new(text), call)
    }

    /// The same of a text that the model has judged.
    fn call_judged(
        &mut self,
        text: &[u8],
        judged: &Judged,
        call: Call,
    ) -> Result<u32, Box<Difference>> {
        let from = text.len() % WORK_BYTES;
        let garbage = &self.garbage[from..];
        let [own_work, own_results, work, results, lean_work, lean_results] = &mut self.areas;
        let mut leaned = None;
        // The library reads a copy of its own, whose bytes must stay.
        self.text.clear();
        self.text.extend_from_slice(text);
        let (library, model) = match call {
            Call::Check { work: len } => {
                own_results.set(garbage, 0);
                results.set(garbage, 0);
                (
                    calls::check(&self.text, own_work.set(garbage, len).area()).word(),
                    judged.check_call(work.set(garbage, len).area()),
                )
            }
            Call::Run {
                by,
                work: len,
                steps,
                results: results_len,
            } => {
                let own_results = own_results.set(garbage, results_len).area();
                let results = results.set(garbage, results_len).area();
                let own_work = own_work.set(garbage, len).area();
                let work = work.set(garbage, len).area();
                match by {
                    Runs::Run => (
                        calls::run(&self.text, own_work, steps, own_results).word(),
                        judged.run_call(work, steps, results),
                    ),
                    Runs::Trial => (
                        calls::trial(&self.text, own_work, steps, own_results).word(),
                        judged.trial_call(work, steps, results),
                    ),
                    Runs::Lean => {
                        let lean_results = lean_results.set(garbage, results_len).area();
                        let lean_work = lean_work.set(garbage, len).area();
                        leaned = Some(judged.lean_call(lean_work, steps, lean_results));
                        (
                            calls::lean(&self.text, own_work, steps, own_results).word(),
                            judged.run_call(work, steps, results),
                        )
                    }
                }
            }
            Call::Bound { work: len, bounds } => {
                let own_bounds = own_results.set(garbage, bounds).area();
                let bounds = results.set(garbage, bounds).area();
                let own_work = own_work.set(garbage, len).area();
                let work = work.set(garbage, len).area();
                (
                    calls::bound(&self.text, own_work, own_bounds).word(),
                    judged.bound_call(work, bounds),
                )
            }
            Call::Fill { work: len, places } => {
                let own_places = own_results.set(garbage, places).area();
                let places = results.set(garbage, places).area();
                let own_work = own_work.set(garbage, len).area();
                let work = work.set(garbage, len).area();
                (
                    calls::fill(&self.text, own_work, own_places).word(),
                    model::fill_call(text, work, places),
                )
            }
        };
        let what = if library != model {
            "the returned number"
        } else if self.text != text {
            "the text"
        } else if own_results.bytes != results.bytes {
            "the second area"
        } else if own_work.bytes != work.bytes {
            "the work area"
        } else if leaned.is_some_and(|leaned| {
            (leaned, &lean_results.bytes, &lean_work.bytes) != (model, &results.bytes, &work.bytes)
        }) {
            "the model's lean run"
        } else {
            return Ok(model);
        };
        Err(Box::new(Difference {
            call,
            text: text.to_vec(),
            what,
            library,
            model,
            library_results: own_results.area().to_vec(),
            model_results: results.area().to_vec(),
        }))
    }

    /// Check, run, trial, bound, lean and fill; now and then with areas of another length,
    /// lean with no step or few, and all with as many steps as can be allowed where
    /// the trial ends before them.
    pub fn every(&mut self, text: &[u8], rng: &mut Rng) -> Result<Answers, Box<Difference>> {
        let steps = gen::steps(rng);
        let judged = Judged::new(text);
        let checked = self.call_judged(text, &judged, CHECK)?;
        let ran = self.call_judged(text, &judged, run_of(steps))?;
        let tried = self.call_judged(text, &judged, trial_of(steps))?;
        let bounded = self.call_judged(text, &judged, BOUND)?;
        let leaned = self.call_judged(text, &judged, lean_of(steps))?;
        let filled = self.call_judged(text, &judged, FILLED)?;
        if steps.is_multiple_of(8) {
            self.call_judged(text, &judged, lean_of(0))?;
            self.call_judged(text, &judged, lean_of(1 + text.len() as u32 % 8))?;
        }
        if rng.below(64) == 0 {
            self.wrong_lengths(text, &judged, rng)?;
        }
        if Returned::of(tried).number() != model::number::OUT_OF_STEPS && rng.below(8) == 0 {
            self.call_judged(text, &judged, run_of(u32::MAX))?;
            self.call_judged(text, &judged, trial_of(u32::MAX))?;
            self.call_judged(text, &judged, lean_of(u32::MAX))?;
        }
        Ok([checked, ran, tried, bounded, leaned, filled])
    }

    fn wrong_lengths(
        &mut self,
        text: &[u8],
        judged: &Judged,
        rng: &mut Rng,
    ) -> Result<(), Box<Difference>> {
        let other = |rng: &mut Rng, right: usize| match rng.below(4) {
            0 => right - 1,
            1 => right + 1,
            2 => rng.below(right),
            _ => right,
        };
        let work = other(rng, WORK_BYTES);
        let results = other(rng, RESULTS_BYTES);
        let bounds = other(rng, BOUNDS_BYTES);
        let places = other(rng, PLACES_BYTES);
        let steps = gen::steps(rng);
        self.call_judged(text, judged, Call::Check { work })?;
        self.call_judged(text, judged, Call::Bound { work, bounds })?;
        self.call_judged(text, judged, Call::Fill { work, places })?;
        for by in [Runs::Run, Runs::Trial, Runs::Lean] {
            self.call_judged(
                text,
                judged,
                Call::Run {
                    by,
                    work,
                    steps,
                    results,
                },
            )?;
        }
        Ok(())
    }

    /// The shortest text found that still differs.
    pub fn reduced(&mut self, found: Box<Difference>) -> Box<Difference> {
        let mut least = found;
        loop {
            let lines = mutate::fields_of(&least.text);
            let call = least.call;
            let shorter = shorter(&lines)
                .filter(|text| text.len() < least.text.len())
                .find_map(|text| self.call(&text, call).err());
            match shorter {
                Some(shorter) => least = shorter,
                None => return least,
            }
        }
    }
}

pub type Lines = Vec<Vec<Vec<u8>>>;

/// Texts with some of the lines or fields taken out.
pub fn shorter(lines: &Lines) -> impl Iterator<Item = Vec<u8>> + '_ {
    let fewer = runs_of_lines(lines).chain(branches(lines));
    let fewer = fewer.chain(fields(lines));
    fewer.map(|lines| mutate::text_from(&lines))
}

/// The lines without a run of them, the longest runs first.
fn runs_of_lines(lines: &Lines) -> impl Iterator<Item = Lines> + '_ {
    let sizes = (1..=lines.len()).rev();
    let runs = sizes.flat_map(|size| (0..=lines.len() - size).map(move |at| at..at + size));
    runs.map(|run| {
        let mut lines = lines.clone();
        lines.drain(run);
        lines
    })
}

/// The lines without an `if`, `else` and `join`.
fn branches(lines: &Lines) -> impl Iterator<Item = Lines> + '_ {
    let of = |word: &[u8]| -> Vec<usize> {
        let places = 0..lines.len();
        places.filter(|&at| lines[at][0] == word).collect()
    };
    let (ifs, elses, joins) = (of(b"if"), of(b"else"), of(b"join"));
    let mut triples = Vec::new();
    for &first in &ifs {
        for &middle in elses.iter().filter(|&&middle| middle > first) {
            let after = joins.iter().filter(|&&last| last > middle);
            triples.extend(after.map(|&last| [first, middle, last]));
        }
    }
    triples.into_iter().map(|triple| {
        let kept = (0..lines.len()).filter(|at| !triple.contains(at));
        kept.map(|at| lines[at].clone()).collect()
    })
}

/// The lines without an atom or a single field.
fn fields(lines: &Lines) -> impl Iterator<Item = Lines> + '_ {
    let places = (0..lines.len()).flat_map(|at| (0..lines[at].len()).map(move |place| (at, place)));
    places.flat_map(move |(at, place)| {
        let sizes = [3, 1].into_iter();
        let sizes = sizes.filter(move |size| place + size <= lines[at].len());
        sizes.map(move |size| {
            let mut lines = lines.clone();
            lines[at].drain(place..place + size);
            lines
        })
    })
}

/// A small change that keeps the form of the lines it touches.
pub fn gently_mutated(rng: &mut Rng, text: &[u8]) -> Vec<u8> {
    let mut lines = mutate::fields_of(text);
    if lines.is_empty() {
        return text.to_vec();
    }
    for _ in 0..rng.within(1, 3) {
        let at = rng.below(lines.len());
        mutate::exchange(rng, &mut lines, at);
    }
    mutate::text_from(&lines)
}

/// The texts after the first one of each seed.
pub const MUTATIONS: usize = 19;

/// One more than the highest number that a call returns.
pub const NUMBERS: usize =
    nuyardi::EXPLANATIONS[nuyardi::EXPLANATIONS.len() - 1].number as usize + 1;

/// The calls that are compared on a text, in the order of their answers.
pub const CALLS: [&str; 6] = ["check", "run", "trial", "bound", "lean", "fill"];

/// What check, run, trial, bound, lean and fill return.
pub type Answers = [u32; CALLS.len()];

/// How often each number came from each of so many calls.
pub type Numbers<const CALLS: usize> = [[u64; NUMBERS]; CALLS];

/// How often each number came from those that are compared on a text.
pub type Counts = Numbers<{ CALLS.len() }>;

pub const NONE: Counts = [[0; NUMBERS]; CALLS.len()];

/// Counts added up.
pub fn add<const CALLS: usize>(counts: &mut Numbers<CALLS>, more: &Numbers<CALLS>) {
    for (count, more) in counts.iter_mut().flatten().zip(more.iter().flatten()) {
        *count += more;
    }
}

/// Which texts come of seeds.
#[derive(Clone, Copy, Debug, PartialEq, Eq)]
pub enum Texts {
    /// Texts of every kind.
    Any,
    /// Texts for fill: most have a `requires` line to be filled in (W11).
    Starred,
}

impl Texts {
    fn first(self, seed: u64) -> Vec<u8> {
        match self {
            Texts::Any => gen::text(seed),
            Texts::Starred => gen::starred(seed),
        }
    }

    /// The text at a place after the first one: a mutated one, or, most often for
    /// fill, a new one.
    fn next(self, rng: &mut Rng, at: usize, first: &[u8], last: &[u8]) -> Vec<u8> {
        match (self, at % 3) {
            (Texts::Starred, 0 | 1) => gen::starred(rng.bits()),
            (Texts::Any, 0) => mutate::mutated(rng, first),
            (Texts::Any, 1) => gently_mutated(rng, first),
            _ => gently_mutated(rng, last),
        }
    }
}

/// The text of a seed and those after it, compared; counts by number.
pub fn compare_seed(
    comparer: &mut Comparer,
    texts: Texts,
    seed: u64,
    counts: &mut Counts,
) -> Result<(), Box<Difference>> {
    let mut rng = Rng::new(!seed);
    let text = texts.first(seed);
    let mut compare = |rng: &mut Rng, text: &[u8]| -> Result<(), Box<Difference>> {
        let answers = comparer.every(text, rng)?;
        for (counts, returned) in counts.iter_mut().zip(answers) {
            counts[Returned::of(returned).number() as usize] += 1;
        }
        Ok(())
    };
    compare(&mut rng, &text)?;
    let mut last = text.clone();
    for at in 0..MUTATIONS {
        let new = texts.next(&mut rng, at, &text, &last);
        compare(&mut rng, &new)?;
        last = new;
    }
    Ok(())
}

/// Seeds shared by two threads, each with what it works with, until there are no
/// more of them or one leads to an error.
pub fn by_two_threads<W: Send, E: Send>(
    seeds: std::ops::Range<u64>,
    new: impl Fn() -> W + Sync,
    compare: impl Fn(&mut W, u64) -> Result<(), E> + Sync,
) -> Result<[W; 2], E> {
    use std::sync::atomic::{AtomicU64, Ordering};
    let next = AtomicU64::new(seeds.start);
    let work = || {
        let mut with = new();
        loop {
            let seed = next.fetch_add(1, Ordering::Relaxed);
            if seed >= seeds.end {
                return Ok(with);
            }
            if let Err(found) = compare(&mut with, seed) {
                next.store(seeds.end, Ordering::Relaxed);
                return Err(found);
            }
        }
    };
    let (one, two) = std::thread::scope(|scope| {
        let other = scope.spawn(work);
        (work(), other.join().expect("the other thread ends"))
    });
    Ok([one?, two?])
}

/// Seeds compared; the texts are the same however the threads share them.
pub fn compare_seeds(texts: Texts, seeds: std::ops::Range<u64>) -> Result<Counts, Box<Difference>> {
    let first = seeds.start;
    let [(_, mut counts), (_, more)] = by_two_threads(
        seeds,
        || (Comparer::new(first), NONE),
        |(comparer, counts), seed| {
            let compared = compare_seed(comparer, texts, seed, counts);
            compared.map_err(|found| comparer.reduced(found))
        },
    )?;
    add(&mut counts, &more);
    Ok(counts)
}
