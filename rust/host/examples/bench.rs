//! Times check, bound, fill, run, lean, trial and a count of four of the library beside
//! those of `rust/model`, in one go, and prints a table. Each round times a batch of the one, then of the
//! other; the best round counts. The answers are compared too.
//!
//! `cargo run --release --example bench [MS] [PART]`: about MS milliseconds for
//! each side of a row (100), only rows whose name has PART in it.

#[path = "../tests/support/workloads.rs"]
mod workloads;

use nuyardi::limits::{BOUNDS_BYTES, COUNT_BYTES, OBJECTS, PLACES_BYTES, RESULTS_BYTES};
use nuyardi::limits::{SCRIPTS, SCRIPT_BYTES, WORK_BYTES};
use nuyardi::{calls, Returned};
use std::hint::black_box;
use std::time::Instant;

const ROUNDS: u32 = 40;

/// The line that fill is for; the other calls refuse it.
const STAR: &[u8] = b"\nrequires\t*\n";

/// A call that runs a text.
type Ran<R> = fn(&[u8], &mut [u8], u32, &mut [u8]) -> R;

/// The library's and the model's, and the bytes of the results.
const RUNS: [(&str, usize, Ran<Returned>, Ran<u32>); 4] = [
    ("run", RESULTS_BYTES, calls::run, model::run_call),
    ("lean", RESULTS_BYTES, calls::lean, model::lean_call),
    ("trial", RESULTS_BYTES, calls::trial, model::trial_call),
    ("count", COUNT_BYTES, four, four_of_the_model),
];

/// An equal share for each script of a count.
const SHARES: [u32; SCRIPTS] = [(OBJECTS / SCRIPTS) as u32; SCRIPTS];

/// A text four times in a count.
fn four(text: &[u8], work: &mut [u8], rounds: u32, results: &mut [u8]) -> Returned {
    let (scripts, texts) = (SCRIPTS as u32, [text; SCRIPTS]);
    calls::count(scripts, rounds, texts, work, SHARES, results)
}

fn four_of_the_model(text: &[u8], work: &mut [u8], rounds: u32, results: &mut [u8]) -> u32 {
    let (scripts, texts) = (SCRIPTS as u32, [text; SCRIPTS]);
    model::count_call(scripts, rounds, texts, work, SHARES, results)
}

/// The steps taken, of all scripts together.
fn steps_of(results: &[u8]) -> u32 {
    let word = |four: &[u8]| {
        let four = four.iter().take(4).rev();
        four.fold(0, |all, &byte| all << 8 | u32::from(byte))
    };
    match results.len() {
        COUNT_BYTES => {
            let scripts = results.chunks(SCRIPT_BYTES);
            scripts.map(|script| word(&script[4..])).sum()
        }
        _ => word(results),
    }
}

/// A call that tells something of a text.
type Told<R> = fn(&[u8], &mut [u8], &mut [u8]) -> R;

/// The library's and the model's, and the bytes of the area.
const BOUND: (&str, usize, Told<Returned>, Told<u32>) =
    ("bound", BOUNDS_BYTES, calls::bound, model::bound_call);
const FILL: (&str, usize, Told<Returned>, Told<u32>) =
    ("fill", PLACES_BYTES, calls::fill, model::fill_call);

/// The best time of a call of each side, in ns, timed in turn.
fn duel(mut one: impl FnMut(), mut two: impl FnMut(), ms: f64) -> (f64, f64) {
    let timed = |call: &mut dyn FnMut(), times: u64| {
        let start = Instant::now();
        (0..times).for_each(|_| call());
        start.elapsed().as_nanos() as f64 / times as f64
    };
    let batch = ms * 1e6 / f64::from(ROUNDS);
    let first = (timed(&mut one, 2), timed(&mut two, 2));
    let times = |each: f64| (batch / each).clamp(1.0, 1e6) as u64;
    let mut best = first;
    for _ in 0..ROUNDS {
        best.0 = best.0.min(timed(&mut one, times(first.0)));
        best.1 = best.1.min(timed(&mut two, times(first.1)));
    }
    best
}

/// Uses an answer, so that the call is made.
fn sink<R>(answer: R) {
    black_box(answer);
}

fn main() {
    let mut words = std::env::args().skip(1);
    let ms = words
        .next()
        .and_then(|word| word.parse().ok())
        .unwrap_or(100.0);
    let part = words.next().unwrap_or_default();
    let mut work = (vec![0; WORK_BYTES], vec![0; WORK_BYTES]);
    let (clear, _) = duel(|| black_box(&mut work.0[..]).fill(0), || (), ms / 10.0);
    println!("clearing {WORK_BYTES} bytes, a part of every call: {clear:.0} ns\n");
    println!("| Text | Bytes | Call | Answer | Steps | Library ns | ns a step | Model ns | Model / library |");
    println!("|---|---:|---|---|---:|---:|---:|---:|---:|");
    for workload in workloads::all().into_iter().chain(workloads::growth()) {
        if !workload.name.contains(&part) {
            continue;
        }
        let (name, text) = (workload.name, &workload.text[..]);
        let answers = (
            calls::check(text, &mut work.0),
            Returned::of(model::check_call(text, &mut work.1)),
        );
        assert_eq!(answers.0, answers.1, "{name}");
        let (library, model) = duel(
            || sink(calls::check(black_box(text), &mut work.0)),
            || sink(model::check_call(black_box(text), &mut work.1)),
            ms,
        );
        let row = |call: &str, answer: Returned, steps: u32, library: f64, model: f64| {
            let (number, line) = (answer.number(), answer.line());
            let each = library / f64::from(steps);
            let (count, each) = match steps {
                0 => (String::new(), String::new()),
                _ => (steps.to_string(), format!("{each:.1}")),
            };
            let ratio = model / library;
            println!(
                "| {name} | {} | {call} | {number} at {line} | {count} | {library:.0} | {each} | {model:.0} | {ratio:.2} |",
                text.len()
            );
        };
        row("check", answers.0, 0, library, model);
        let starred = text.windows(STAR.len()).any(|part| part == STAR);
        let (call, bytes, ours, theirs) = if starred { FILL } else { BOUND };
        let mut area = (vec![0; bytes], vec![0; bytes]);
        let answers = (
            ours(text, &mut work.0, &mut area.0),
            Returned::of(theirs(text, &mut work.1, &mut area.1)),
        );
        assert_eq!((answers.0, &area.0), (answers.1, &area.1), "{name}");
        let (library, model) = duel(
            || sink(ours(black_box(text), &mut work.0, &mut area.0)),
            || sink(theirs(black_box(text), &mut work.1, &mut area.1)),
            ms,
        );
        row(call, answers.0, 0, library, model);
        let Some(allowed) = workload.steps else {
            continue;
        };
        for (call, bytes, ours, theirs) in RUNS {
            let mut results = (vec![0; bytes], vec![0; bytes]);
            let answers = (
                ours(text, &mut work.0, allowed, &mut results.0),
                Returned::of(theirs(text, &mut work.1, allowed, &mut results.1)),
            );
            assert_eq!(answers.0, answers.1, "{name}");
            assert_eq!(results.0, results.1, "{name}");
            let steps = steps_of(&results.0);
            let (library, model) = duel(
                || sink(ours(black_box(text), &mut work.0, allowed, &mut results.0)),
                || {
                    sink(theirs(
                        black_box(text),
                        &mut work.1,
                        allowed,
                        &mut results.1,
                    ))
                },
                ms,
            );
            row(call, answers.0, steps, library, model);
        }
    }
}
