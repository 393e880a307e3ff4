//! W11: the generator's texts for fill reach each of its numbers, and answers of
//! every length.

use generator as gen;
use model::limits::TEXT_BYTES;
use model::{check, fill};
use std::collections::BTreeMap;

const TEXTS: u64 = 20_000;

#[test]
fn every_number_and_every_length_occur() {
    let mut numbers: BTreeMap<u32, u32> = BTreeMap::new();
    let mut lengths: BTreeMap<usize, u32> = BTreeMap::new();
    let mut longest = 0;
    for seed in 0..TEXTS {
        let text = gen::starred(seed);
        let filled = fill(&text);
        *numbers.entry(filled.number).or_insert(0) += 1;
        if filled.number == 0 {
            let length = filled.places.iter().filter(|&&place| place > 0).count();
            *lengths.entry(length).or_insert(0) += 1;
            longest += u32::from(text.len() == TEXT_BYTES);
        }
    }
    println!("{numbers:?}; {lengths:?} of so many atoms; {longest} of the most bytes");
    let refused = (2..=9).chain([17, 18]);
    assert!(numbers.keys().copied().eq([0].into_iter().chain(refused)));
    assert!(numbers[&0] > 6_000 && numbers[&17] > 2_000 && numbers[&18] > 500);
    assert!(lengths.keys().copied().eq(0..=4));
    assert!(lengths.values().all(|&texts| texts > 400));
    assert!(longest > 5);
}

/// The other calls refuse every text with a star.
#[test]
fn a_star_is_number_4_for_check() {
    let mut stars = 0;
    for seed in 0..2_000 {
        let text = gen::starred(seed);
        if fill(&text).number == 0 {
            stars += 1;
            assert_eq!(check(&text).0, 4, "seed {seed}");
        }
    }
    assert!(stars > 500);
}
