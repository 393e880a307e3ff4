//! Random texts, the same for a seed everywhere: accepted programs, near
//! misses for every number, runs that stop with every number, full states,
//! arbitrary bytes, and mutations of all of these.

#![forbid(unsafe_code)]

mod chains;
mod contracts;
pub mod days;
mod establish;
mod facts;
mod forms;
mod full;
mod links;
pub mod misses;
pub mod mutate;
mod nested;
pub mod program;
pub mod readers;
pub mod recipes;
mod render;
pub mod rings;
pub mod rng;
pub mod rounds;
pub mod routes;
mod shares;
mod skeleton;
pub mod stars;
pub mod walks;
mod wanted;
mod writer;

// The parts of the model by which texts are written.
use model::{check, checker, limits, names, number, read, text};
use rng::Rng;

/// A kind of text.
#[derive(Clone, Copy, Debug, PartialEq, Eq)]
pub enum Kind {
    /// A program that check accepts.
    Accepted,
    /// A program with one line for which check gives this number, or one for
    /// which bound gives 16.
    Miss(u32),
    /// A program with some lines that no rule was asked about.
    Wild,
    /// Full states, full heaps, full frames, many steps.
    Recipe,
    /// Another text, mutated.
    Mutated,
    /// Bytes, tokens or lines without a plan.
    Arbitrary,
}

impl Kind {
    /// A kind, each in its share; a text that is too long is rare.
    pub fn random(rng: &mut Rng) -> Kind {
        match rng.below(1_000) {
            0..=219 => Kind::Accepted,
            220..=221 => Kind::Miss(2),
            222..=549 => Kind::Miss(rng.pick(&[
                3, 4, 5, 5, 6, 7, 8, 9, 9, 10, 10, 11, 11, 12, 12, 13, 13, 14, 14, 16,
            ])),
            550..=639 => Kind::Wild,
            640..=909 => Kind::Recipe,
            910..=979 => Kind::Mutated,
            _ => Kind::Arbitrary,
        }
    }
}

/// A text of the kind.
pub fn text_of(rng: &mut Rng, kind: Kind) -> Vec<u8> {
    match kind {
        Kind::Accepted => program::accepted(rng),
        Kind::Miss(number) => misses::miss(rng, number),
        Kind::Wild => program::wild(rng),
        Kind::Recipe => recipes::recipe(rng),
        Kind::Mutated => {
            let kind = match Kind::random(rng) {
                Kind::Mutated | Kind::Miss(2) => Kind::Accepted,
                other => other,
            };
            let text = text_of(rng, kind);
            mutate::mutated(rng, &text)
        }
        Kind::Arbitrary => mutate::arbitrary(rng),
    }
}

/// The text of a seed.
pub fn text(seed: u64) -> Vec<u8> {
    let mut rng = Rng::new(seed);
    let kind = Kind::random(&mut rng);
    text_of(&mut rng, kind)
}

/// An accepted program of a seed.
pub fn accepted(seed: u64) -> Vec<u8> {
    program::accepted(&mut Rng::new(seed))
}

/// A text for fill, of a seed: most have a `requires` to be filled in (W11).
pub fn starred(seed: u64) -> Vec<u8> {
    stars::starred(&mut Rng::new(seed))
}

/// What a count of a seed is called with (W12).
pub fn count_day(seed: u64) -> days::CountDay {
    days::CountDay::random(&mut Rng::new(seed))
}

/// How many steps to allow: few, the program's 1,000, or many.
pub fn steps(rng: &mut Rng) -> u32 {
    match rng.below(4) {
        0 => rng.below(40) as u32,
        1 => rng.below(1_000) as u32,
        2 => 1_000,
        _ => 20_000,
    }
}
