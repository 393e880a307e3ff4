//! The library's count beside the model's (W12): what it returns and every byte of
//! the lent areas, with canaries around them and garbage in them before.
#![allow(dead_code)]

use crate::compare::{add, by_two_threads, garbage, shorter, Lent, Numbers, NUMBERS};
use generator::days::CountDay;
use generator::{mutate, rng::Rng};
use nuyardi::limits::{COUNT_BYTES, SCRIPTS, SCRIPT_BYTES, WORK_BYTES};
use nuyardi::{calls, Returned};
use std::fmt;

/// The lengths of both areas.
pub type Lengths = [usize; 2];

const RIGHT: Lengths = [WORK_BYTES, COUNT_BYTES];

/// A count on which library and model differ.
pub struct Difference {
    pub day: CountDay,
    pub lengths: Lengths,
    pub what: &'static str,
    library: (u32, Vec<u8>),
    model: (u32, Vec<u8>),
}

impl fmt::Display for Difference {
    fn fmt(&self, f: &mut fmt::Formatter<'_>) -> fmt::Result {
        let CountDay {
            scripts,
            rounds,
            shares,
            texts,
        } = &self.day;
        let lengths = self.lengths;
        writeln!(
            f,
            "{} differs: {scripts} scripts, {rounds} rounds, shares {shares:?}, areas {lengths:?}",
            self.what
        )?;
        for (side, (returned, results)) in [("library", &self.library), ("model", &self.model)] {
            writeln!(f, "{side} {:?} {results:?}", Returned::of(*returned))?;
        }
        for text in texts {
            let text = text.escape_ascii().to_string().replace("\\n", "\n");
            writeln!(f, "text:\n{text}")?;
        }
        Ok(())
    }
}

/// What count returned, and the number of each script.
pub type Answer = (u32, Vec<u32>);

/// Makes counts of both sides over areas that are kept for the next one.
pub struct DayComparer {
    garbage: Vec<u8>,
    areas: [Lent; 4],
}

impl DayComparer {
    pub fn new(seed: u64) -> DayComparer {
        DayComparer {
            garbage: garbage(seed),
            areas: std::array::from_fn(|_| Lent::default()),
        }
    }

    /// What both sides answer, or how they differ.
    pub fn call(&mut self, day: &CountDay, lengths: Lengths) -> Result<Answer, Box<Difference>> {
        let garbage = &self.garbage[day.rounds as usize % WORK_BYTES..];
        let [work_len, results_len] = lengths;
        let [own_work, own_results, work, results] = &mut self.areas;
        let model = model::count_call(
            day.scripts,
            day.rounds,
            day.texts.each_ref().map(Vec::as_slice),
            work.set(garbage, work_len).area(),
            day.shares,
            results.set(garbage, results_len).area(),
        );
        // The library reads texts of its own, whose bytes must stay.
        let texts = day.texts.clone();
        let library = calls::count(
            day.scripts,
            day.rounds,
            texts.each_ref().map(Vec::as_slice),
            own_work.set(garbage, work_len).area(),
            day.shares,
            own_results.set(garbage, results_len).area(),
        );
        let what = if library.word() != model {
            "the returned number"
        } else if texts != day.texts {
            "a text"
        } else if own_results.bytes != results.bytes {
            "the results"
        } else if own_work.bytes != work.bytes {
            "the work area"
        } else {
            return Ok((model, numbers(day, results.area())));
        };
        Err(Box::new(Difference {
            day: day.clone(),
            lengths,
            what,
            library: (library.word(), own_results.area().to_vec()),
            model: (model, results.area().to_vec()),
        }))
    }

    /// A count with areas of the right length, and now and then with others, or with
    /// no round.
    pub fn every(&mut self, day: &CountDay, rng: &mut Rng) -> Result<Answer, Box<Difference>> {
        let answer = self.call(day, RIGHT)?;
        if rng.below(32) == 0 {
            let other = |rng: &mut Rng, right: usize| match rng.below(4) {
                0 => right - 1,
                1 => right + 1,
                2 => rng.below(right),
                _ => right,
            };
            let lengths = RIGHT.map(|right| other(rng, right));
            self.call(day, lengths)?;
            let rounds = 0;
            self.call(
                &CountDay {
                    rounds,
                    ..day.clone()
                },
                RIGHT,
            )?;
        }
        Ok(answer)
    }

    /// The shortest count found that still differs: fewer rounds, shorter texts.
    pub fn reduced(&mut self, found: Box<Difference>) -> Box<Difference> {
        let mut least = found;
        while let Some(found) = self.reduced_once(&least) {
            least = found;
        }
        least
    }

    fn reduced_once(&mut self, least: &Difference) -> Option<Box<Difference>> {
        let (day, lengths) = (&least.day, least.lengths);
        for rounds in [day.rounds / 2, day.rounds.saturating_sub(1)] {
            let fewer = CountDay {
                rounds,
                ..day.clone()
            };
            if rounds < day.rounds {
                if let Err(found) = self.call(&fewer, lengths) {
                    return Some(found);
                }
            }
        }
        (0..SCRIPTS).find_map(|at| {
            let lines = mutate::fields_of(&day.texts[at]);
            let texts = [Vec::new()].into_iter().chain(shorter(&lines));
            let mut texts = texts.filter(|text| text.len() < day.texts[at].len());
            texts.find_map(|text| {
                let mut day = day.clone();
                day.texts[at] = text;
                self.call(&day, lengths).err()
            })
        })
    }
}

/// The numbers of the scripts that the count looked at.
fn numbers(day: &CountDay, results: &[u8]) -> Vec<u32> {
    let scripts = results
        .chunks_exact(SCRIPT_BYTES)
        .take(day.scripts as usize);
    let number = |bytes: &[u8]| u32::from_le_bytes([bytes[0], bytes[1], bytes[2], bytes[3]]);
    scripts
        .map(|bytes| Returned::of(number(bytes)).number())
        .collect()
}

/// How often each number came from count, and from a script of one that was not
/// refused.
pub type DayCounts = Numbers<2>;

/// The counts of seeds, compared; how often each number came.
pub fn compare_days(seeds: std::ops::Range<u64>) -> Result<DayCounts, Box<Difference>> {
    let first = seeds.start;
    let [(_, mut counts), (_, more)] = by_two_threads(
        seeds,
        || (DayComparer::new(first), [[0; NUMBERS]; 2]),
        |(comparer, counts), seed| {
            let day = generator::count_day(seed);
            let compared = comparer.every(&day, &mut Rng::new(!seed));
            let counted = compared.map(|answer| note(counts, answer));
            counted.map_err(|found| comparer.reduced(found))
        },
    )?;
    add(&mut counts, &more);
    Ok(counts)
}

fn note([calls, scripts]: &mut DayCounts, (returned, numbers): Answer) {
    let number = Returned::of(returned).number();
    calls[number as usize] += 1;
    if number == model::number::DONE {
        for number in numbers {
            scripts[number as usize] += 1;
        }
    }
}
