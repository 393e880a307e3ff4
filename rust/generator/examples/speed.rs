//! Time per text: of the generator by kind, and of both calls.

use generator::{self as gen, rng::Rng, Kind};
use model::{check, run};
use std::time::Instant;

const EXAMPLE: &str = "class S|field S prev|field int n|method int tag int k|requires acc this n|\
    ensures acc this n eq this.n k|set this n k|return k|end|main|var S s|var int a|var int b|\
    new s S|let a 7|call b s tag a|assert eq s.n 7|assert eq s.prev null|end|";

/// Document 01's example, and a run of some millions of steps.
fn single_texts() {
    let example = EXAMPLE.replace('|', "\n").replace(' ', "\t");
    let start = Instant::now();
    for _ in 0..10_000 {
        assert_eq!(check(example.as_bytes()), (0, 0));
    }
    println!(
        "check of the example: {} ns",
        start.elapsed().as_nanos() / 10_000
    );
    let start = Instant::now();
    for _ in 0..10_000 {
        assert_eq!(run(example.as_bytes(), 1_000).steps, 8);
    }
    println!(
        "run of the example: {} ns",
        start.elapsed().as_nanos() / 10_000
    );
    let mut lines = vec!["class D".to_string(), "field int n".to_string()];
    for at in 0..23 {
        lines.push(format!(
            "method int m{at} int w\nrequires acc this n\nensures acc this n\nvar int r"
        ));
        let call = format!("call r this m{} w", at.max(1) - 1);
        lines.extend(vec![call; if at == 0 { 0 } else { 2 }]);
        lines.push("end".to_string());
    }
    lines.push("main\nvar D d\nvar int a\nvar int b\nnew d D\ncall a d m22 b\nend\n".to_string());
    let long = lines.join("\n").replace(' ', "\t");
    let start = Instant::now();
    let steps = run(long.as_bytes(), 10_000_000).steps;
    let each = start.elapsed().as_nanos() / u128::from(steps);
    println!("{steps} steps of calls and ends: {each} ns each");
}

fn main() {
    single_texts();
    let mut texts = Vec::new();
    let kinds = [
        Kind::Accepted,
        Kind::Wild,
        Kind::Recipe,
        Kind::Mutated,
        Kind::Arbitrary,
    ];
    let misses = (3..=14).map(Kind::Miss);
    for kind in kinds.into_iter().chain(misses) {
        let mut rng = Rng::new(1);
        let start = Instant::now();
        let made: Vec<_> = (0..500).map(|_| gen::text_of(&mut rng, kind)).collect();
        let each = start.elapsed().as_micros() / 500;
        let bytes: usize = made.iter().map(Vec::len).sum();
        println!("make {kind:?}: {each} us, {} bytes", bytes / 500);
        texts.push((kind, made));
    }
    for (kind, texts) in &texts {
        let start = Instant::now();
        let accepted = texts.iter().filter(|text| check(text).0 == 0).count();
        let checked = start.elapsed().as_micros() / 500;
        let start = Instant::now();
        let steps: u64 = texts
            .iter()
            .map(|text| u64::from(run(text, 1_000).steps))
            .sum();
        let ran = start.elapsed().as_micros() / 500;
        println!(
            "{kind:?}: check {checked} us, run {ran} us, {} steps, {accepted} accepted",
            steps / 500
        );
    }
}
