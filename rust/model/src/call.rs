//! The calls for the host, over byte slices: "Each returns number × 65,536 +
//! line." What each does with the areas is told byte by byte.

use crate::limits::{
    BOUND_BYTES, COUNT_BYTES, PLACE_BYTES, RESULT_BYTES, SCRIPTS, SCRIPT_BYTES, WORK_BYTES,
};
use crate::machine::Run;
use crate::number;
use crate::{count, fill, trial, Bounds, Judged};

fn returned(number: u32, line: u32) -> u32 {
    number * 65_536 + line
}

/// Words of an area: "each is 4 bytes, low byte first, values signed".
fn write(area: &mut [u8], words: impl IntoIterator<Item = [u8; 4]>) {
    for (bytes, word) in area.chunks_mut(4).zip(words) {
        bytes.copy_from_slice(&word);
    }
}

/// "Check takes the text and a work area of 65,536 bytes". "After each call the
/// work area is all zero, except for number 1."
fn check_over(work: &mut [u8], check: impl FnOnce() -> (u32, u32)) -> u32 {
    if work.len() != WORK_BYTES {
        return returned(number::AREA, 0);
    }
    let (number, line) = check();
    work.fill(0);
    returned(number, line)
}

/// "run also takes the number of steps allowed (unsigned, 32 bits) and a results
/// area of 52 bytes." "Results hold the steps taken (unsigned) and twelve values".
fn run_over(work: &mut [u8], results: &mut [u8], run: impl FnOnce() -> Run) -> u32 {
    if work.len() != WORK_BYTES || results.len() != RESULT_BYTES {
        return returned(number::AREA, 0);
    }
    let run = run();
    work.fill(0);
    write_results(results, &run);
    returned(run.number, run.line)
}

/// The steps taken and the twelve values.
fn write_results(results: &mut [u8], run: &Run) {
    let values = run.values.map(i32::to_le_bytes);
    write(results, [run.steps.to_le_bytes()].into_iter().chain(values));
}

/// W6: "The call fills 8 bytes, 4 each: main's bound and the most frames on a
/// route of calls". "Like each later call it also takes check's work area, under
/// the same rows of the table, and writes low byte first."
fn bound_over(work: &mut [u8], bounds: &mut [u8], bound: impl FnOnce() -> Bounds) -> u32 {
    if work.len() != WORK_BYTES || bounds.len() != BOUND_BYTES {
        return returned(number::AREA, 0);
    }
    let found = bound();
    work.fill(0);
    write(bounds, [found.bound, found.frames].map(u32::to_le_bytes));
    returned(found.number, found.line)
}

/// The calls on a text that was judged before, each as the function of its name.
impl Judged<'_> {
    pub fn check_call(&self, work: &mut [u8]) -> u32 {
        check_over(work, || self.check())
    }

    pub fn run_call(&self, work: &mut [u8], steps: u32, results: &mut [u8]) -> u32 {
        run_over(work, results, || self.run(steps))
    }

    pub fn trial_call(&self, work: &mut [u8], steps: u32, results: &mut [u8]) -> u32 {
        run_over(work, results, || self.trial(steps))
    }

    pub fn lean_call(&self, work: &mut [u8], steps: u32, results: &mut [u8]) -> u32 {
        run_over(work, results, || self.lean(steps))
    }

    pub fn bound_call(&self, work: &mut [u8], bounds: &mut [u8]) -> u32 {
        bound_over(work, bounds, || self.bound())
    }
}

pub fn check_call(text: &[u8], work: &mut [u8]) -> u32 {
    check_over(work, || Judged::new(text).check())
}

pub fn run_call(text: &[u8], work: &mut [u8], steps: u32, results: &mut [u8]) -> u32 {
    run_over(work, results, || Judged::new(text).run(steps))
}

/// W7: the "second call, trial".
pub fn trial_call(text: &[u8], work: &mut [u8], steps: u32, results: &mut [u8]) -> u32 {
    run_over(work, results, || trial(text, steps))
}

/// W10: the call for the boats.
pub fn lean_call(text: &[u8], work: &mut [u8], steps: u32, results: &mut [u8]) -> u32 {
    run_over(work, results, || Judged::new(text).lean(steps))
}

pub fn bound_call(text: &[u8], work: &mut [u8], bounds: &mut [u8]) -> u32 {
    bound_over(work, bounds, || Judged::new(text).bound())
}

/// W11: "The answer is 4 bytes, the atoms' places from 1, rising, then zeros; a
/// refusal has only zeros."
pub fn fill_call(text: &[u8], work: &mut [u8], places: &mut [u8]) -> u32 {
    if work.len() != WORK_BYTES || places.len() != PLACE_BYTES {
        return returned(number::AREA, 0);
    }
    let filled = fill(text);
    work.fill(0);
    places.copy_from_slice(&filled.places);
    returned(filled.number, filled.line)
}

/// W12: "The call takes the count of scripts, the rounds, four texts, four shares and
/// 224 bytes for results"; for each script "56 bytes: what run returns, then
/// results".
pub fn count_call(
    scripts: u32,
    rounds: u32,
    texts: [&[u8]; SCRIPTS],
    work: &mut [u8],
    shares: [u32; SCRIPTS],
    results: &mut [u8],
) -> u32 {
    if work.len() != WORK_BYTES || results.len() != COUNT_BYTES {
        return returned(number::AREA, 0);
    }
    let counted = count(scripts, rounds, texts, shares);
    work.fill(0);
    for (bytes, run) in results.chunks_mut(SCRIPT_BYTES).zip(&counted.scripts) {
        let (first, rest) = bytes.split_at_mut(SCRIPT_BYTES - RESULT_BYTES);
        write(first, [returned(run.number, run.line).to_le_bytes()]);
        write_results(rest, run);
    }
    returned(counted.number, counted.line)
}
