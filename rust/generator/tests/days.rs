//! W12: the generator's counts have scripts that end with every number, shares that
//! are used up, and each cause of 19.

use generator::{self as gen, days::CountDay};
use model::count;
use std::collections::BTreeMap;

const DAYS: u64 = 10_000;

fn counted(day: &CountDay) -> model::Counted {
    let texts = day.texts.each_ref().map(Vec::as_slice);
    count(day.scripts, day.rounds, texts, day.shares)
}

#[test]
fn every_number_occurs() {
    let mut numbers: BTreeMap<u32, u32> = BTreeMap::new();
    let (mut refused, mut unlike) = (0, 0);
    for seed in 0..DAYS {
        let day = gen::count_day(seed);
        let counted = counted(&day);
        if counted.number != 0 {
            refused += 1;
            assert_eq!(counted.number, 19);
            continue;
        }
        let scripts = &counted.scripts[..day.scripts as usize];
        for (run, text) in scripts.iter().zip(&day.texts) {
            *numbers.entry(run.number).or_insert(0) += 1;
            unlike += u32::from(*run != model::run(text, day.rounds));
        }
    }
    println!("{numbers:?}; {refused} refused, {unlike} unlike the run with the whole heap");
    let answers = [0].into_iter().chain(2..=14).chain([21, 22, 23, 27]);
    assert!(numbers.keys().copied().eq(answers));
    assert!([0, 21, 22]
        .into_iter()
        .all(|number| numbers[&number] > 3_000));
    assert!(refused > 500 && unlike > 3_000);
}

/// The causes of 19, each alone, and sums of shares beside 256.
#[test]
fn shares_and_counts() {
    let mut met: BTreeMap<&str, u32> = BTreeMap::new();
    for seed in 0..DAYS {
        let day = gen::count_day(seed);
        let looked_at = &day.shares[..(day.scripts as usize).min(day.shares.len())];
        let sum: u64 = looked_at.iter().map(|&share| u64::from(share)).sum();
        let cause = match (day.scripts, sum) {
            (0, _) => "none",
            (5.., _) => "too many",
            _ if looked_at.contains(&0) => "a share of 0",
            (_, 256) => "256",
            (_, 257) => "257",
            (_, 258..) => "above",
            _ => "below",
        };
        *met.entry(cause).or_insert(0) += 1;
    }
    println!("{met:?}");
    assert_eq!(met.len(), 7);
    assert!(met.values().all(|&days| days > 50));
}
