//! A mutation loop: texts that reach a number, line or stop that no text before
//! reached are kept and mutated further, each compared with the model.
//!
//! `cargo run --release --example explore [TEXTS] [SEED] [FOLDER]`: so many
//! texts (100,000), from a seed (1); the kept ones are written to the folder if
//! one is named, for `tests/c/replay.c` to call the library with under valgrind.
//! Exit status 1 if library and model differ; the text is then shown, reduced.

#[path = "../tests/support/compare.rs"]
mod compare;

use compare::{gently_mutated, Answers, Comparer};
use generator::{self as gen, mutate, rng::Rng};
use nuyardi::Returned;
use std::collections::HashSet;
use std::path::Path;

/// What a text reached: the answers of check, trial, bound and fill, with the kind of
/// line that they name and how far down the text it stands.
#[derive(PartialEq, Eq, Hash)]
struct Reached {
    check: u32,
    check_line: Vec<u8>,
    trial: u32,
    trial_line: Vec<u8>,
    bound: u32,
    bound_line: Vec<u8>,
    fill: u32,
    fill_line: Vec<u8>,
    depth: u32,
}

/// The first word of a line and, where it has one, its first atom's.
fn kind_of(text: &[u8], line: u32) -> Vec<u8> {
    let lines = text.split(|&byte| byte == b'\n');
    let line = (line as usize)
        .checked_sub(1)
        .and_then(|at| lines.skip(at).step_by(1).next());
    let fields = line.unwrap_or_default().split(|&byte| byte == b'\t');
    let known = |word: &&[u8]| word.len() < 9 && word.iter().all(u8::is_ascii_lowercase);
    fields.take(2).filter(known).flatten().copied().collect()
}

fn reached(text: &[u8], [check, _, trial, bound, _, fill]: Answers) -> Reached {
    let answers = [check, trial, bound, fill].map(Returned::of);
    let lines = answers.map(Returned::line);
    let [check_line, trial_line, bound_line, fill_line] = lines;
    let [check, trial, bound, fill] = answers.map(Returned::number);
    Reached {
        check,
        check_line: kind_of(text, check_line),
        trial,
        trial_line: kind_of(text, trial_line),
        bound,
        bound_line: kind_of(text, bound_line),
        fill,
        fill_line: kind_of(text, fill_line),
        depth: (lines.into_iter().fold(0, u32::max) + 1).ilog2(),
    }
}

fn main() {
    let mut words = std::env::args().skip(1);
    let texts = compare::number_or(100_000, words.next());
    let seed = compare::number_or(1, words.next());
    let folder = words.next();
    let mut rng = Rng::new(seed);
    let mut comparer = Comparer::new(seed);
    let mut known = HashSet::new();
    let mut kept: Vec<Vec<u8>> = Vec::new();
    for at in 0..texts {
        let text = match rng.below(20) {
            0 => gen::text(rng.bits()),
            1 => gen::starred(rng.bits()),
            _ if kept.is_empty() => gen::text(rng.bits()),
            // One of those kept last, more often than not.
            choice => {
                let recent = kept.len().min(64);
                let from = if choice < 12 { kept.len() - recent } else { 0 };
                let base = &kept[from + rng.below(kept.len() - from)];
                match choice % 2 {
                    0 => gently_mutated(&mut rng, base),
                    _ => mutate::mutated(&mut rng, base),
                }
            }
        };
        match comparer.every(&text, &mut rng) {
            Ok(answers) => {
                if known.insert(reached(&text, answers)) {
                    kept.push(text);
                }
            }
            Err(found) => {
                println!("{}", comparer.reduced(found));
                std::process::exit(1);
            }
        }
        if (at + 1).is_power_of_two() || at + 1 == texts {
            println!("{} texts, {} kept", at + 1, kept.len());
        }
    }
    let Some(folder) = folder else {
        return;
    };
    let written = std::fs::create_dir_all(&folder).and_then(|()| {
        let mut named = kept.iter().enumerate();
        named.try_for_each(|(at, text)| {
            std::fs::write(Path::new(&folder).join(format!("{at:05}")), text)
        })
    });
    if let Err(error) = written {
        eprintln!("{folder}: {error}");
        std::process::exit(2);
    }
}
