//! The comparison of the tests, for as long as one likes.
//!
//! `cargo run --release --example compare [FIRST] [SEEDS] [WHAT]`: so many seeds
//! (10,000) from a first one (50,000, where the tests end), twenty texts each. WHAT
//! is `starred` for texts for fill, or `counts` for counts, one each. How far it is
//! goes to standard error. Exit status 1 if library and model differ; the text is
//! then shown, reduced.

#[path = "../tests/support/compare.rs"]
mod compare;
#[path = "../tests/support/days.rs"]
mod days;

use compare::{compare_seeds, Numbers, Texts, CALLS, NUMBERS};
use std::fmt::Display;
use std::ops::Range;

/// The seeds after which it is told how far the comparison is.
const TOLD: u64 = 5_000;

fn main() {
    let mut words = std::env::args().skip(1);
    let first = compare::number_or(50_000, words.next());
    let seeds = compare::number_or(10_000, words.next());
    let seeds = first..first.saturating_add(seeds);
    match words.next().as_deref() {
        Some("counts") => in_parts(seeds, ["count", "script"], days::compare_days),
        Some("starred") => in_parts(seeds, CALLS, |part| compare_seeds(Texts::Starred, part)),
        _ => in_parts(seeds, CALLS, |part| compare_seeds(Texts::Any, part)),
    }
}

/// Compares part by part, and tells how often each call gave each number.
fn in_parts<const N: usize, D: Display>(
    seeds: Range<u64>,
    calls: [&str; N],
    compare: impl Fn(Range<u64>) -> Result<Numbers<N>, D>,
) {
    let start = std::time::Instant::now();
    let mut counts = [[0; NUMBERS]; N];
    let mut at = seeds.start;
    while at < seeds.end {
        let next = seeds.end.min(at.saturating_add(TOLD));
        match compare(at..next) {
            Ok(more) => compare::add(&mut counts, &more),
            Err(difference) => {
                println!("{difference}");
                std::process::exit(1);
            }
        }
        at = next;
        let (all, seconds) = (counts[0].iter().sum::<u64>(), start.elapsed().as_secs());
        eprintln!("{all} compared, {seconds} s");
    }
    told(calls, &counts);
}

/// How often each call gave each number.
fn told<const N: usize>(calls: [&str; N], counts: &Numbers<N>) {
    println!("{} compared, no difference", counts[0].iter().sum::<u64>());
    for number in 0..NUMBERS {
        let each = calls.iter().zip(counts);
        let given = each.map(|(call, counts)| format!("{call} {:>9}", counts[number]));
        let given = given.collect::<Vec<String>>().join(", ");
        if counts.iter().any(|counts| counts[number] > 0) {
            println!("{number:>2}: {given}");
        }
    }
}
