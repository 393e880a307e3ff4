//! W10: lean answers as run, for every text, number of steps and area, on a
//! machine that keeps no permissions and evaluates no formula but conditions.

mod common;

use common::{example, example_with, main_with, script, text};
use generator::{self as gen, rng::Rng};
use model::limits::{LOCALS, RESULT_BYTES, TEXT_BYTES, WORK_BYTES};
use model::{check, lean, lean_call, run, run_call, trial, Run};
use std::collections::BTreeMap;

/// What a run of main, which is accepted, comes to.
fn leaned(statements: &str, steps: u32) -> (u32, u32, Vec<i32>) {
    let text = script(&main_with(statements));
    assert_eq!(check(&text), (0, 0), "{statements}");
    let run = lean(&text, steps);
    (run.number, run.steps, run.values[..4].to_vec())
}

/// "`release`, `assert` and `join` each still a step", and so is `shut`.
#[test]
fn lines_that_do_nothing_are_steps() {
    let all = "new s S\nassert acc s n eq s.n 0\nif eq a 0\nelse\njoin acc s n\n\
               assert acc s n\nrelease acc s n";
    assert_eq!(leaned(all, 1_000), (0, 8, vec![1, 0, 0, 0]));
    for steps in 0..8 {
        assert_eq!(leaned(all, steps).0, 21, "{steps} steps");
        assert_eq!(leaned(all, steps).1, steps);
    }
    let shut = "new s S\nshut s prev\nopen t s prev\nshut s prev\nlet a 3";
    assert_eq!(leaned(shut, 1_000), (0, 6, vec![1, 0, 3, 0]));
}

/// Conditions are evaluated, and `open` reads.
#[test]
fn what_is_read() {
    let branch = |left: &str| format!("let a 5\nif eq a {left}\nlet b 1\nelse\nlet b 2\njoin");
    assert_eq!(leaned(&branch("5"), 1_000).2[3], 1);
    assert_eq!(leaned(&branch("4"), 1_000).2[3], 2);
    let rounds = "let b 1\nloop ne a 3 eq b 1\nadd a a b\nagain\nsub a a b";
    assert_eq!(leaned(rounds, 1_000), (0, 13, vec![0, 0, 2, 1]));
    let open =
        "new s S\nshut s prev\nnew t S\nset t prev s\nshut t prev\nlet s null\nopen s t prev";
    assert_eq!(leaned(open, 1_000).2[..2], [1, 2]);
}

/// The stops that an accepted text has.
#[test]
fn stops() {
    let over = "let a 2147483647\nlet b 1\nadd a a b";
    assert_eq!(leaned(over, 9), (27, 2, vec![0, 0, 2_147_483_647, 1]));
    let full = "loop eq a 0\nnew s S\nagain";
    assert_eq!(
        leaned(full, u32::MAX),
        (22, 256 * 3 + 1, vec![256, 0, 0, 0])
    );
    let deep = script(
        "class S\nmethod int m int w\nrequires\nensures\nvar int a\ncall a this m w\nend\n\
         main\nvar S s\nvar int a\nvar int b\nnew s S\ncall a s m b\nend",
    );
    // The receiver may be null as far as the checker knows.
    assert_eq!(check(&deep), (13, 6));
    let deep = String::from_utf8(deep).expect("ASCII");
    let deep = deep.replace("requires\n", "requires\tne\tthis\tnull\n");
    assert_eq!(check(deep.as_bytes()), (0, 0));
    let stopped = lean(deep.as_bytes(), 1_000);
    assert_eq!((stopped.number, stopped.line, stopped.steps), (23, 6, 64));
}

/// "gives a refused text the same number, line and results", where a trial stops
/// with 24, 25 or 26.
#[test]
fn refused_texts() {
    for (line, new, number, stop) in [
        (5, "requires", 12, 24),
        (17, "assert eq s.n 8", 13, 26),
        (14, "let s null", 13, 25),
    ] {
        let text = example_with(line, new);
        let refused = lean(&text, 1_000);
        assert_eq!((refused.number, refused.steps), (number, 0), "{new}");
        assert_eq!(refused.values, [0; LOCALS]);
        assert_eq!(refused, run(&text, 1_000));
        assert_eq!(trial(&text, 1_000).number, stop, "{new}");
    }
}

/// What a call returns, and both areas, which held garbage.
type Left = (u32, Vec<u8>, Vec<u8>);

#[test]
fn areas() {
    let called =
        |call: fn(&[u8], &mut [u8], u32, &mut [u8]) -> u32, text: &[u8], lengths| -> Left {
            let (work, results): (usize, usize) = lengths;
            let (mut work, mut results) = (vec![7; work], vec![9; results]);
            let returned = call(text, &mut work, 1_000, &mut results);
            (returned, work, results)
        };
    let texts = [
        text(&example()),
        example_with(5, "requires"),
        vec![b'x'; TEXT_BYTES + 1],
        Vec::new(),
    ];
    for (at, text) in texts.iter().enumerate() {
        let right = (WORK_BYTES, RESULT_BYTES);
        let (returned, work, results) = called(lean_call, text, right);
        assert_eq!(work, vec![0; WORK_BYTES]);
        assert_eq!(results.iter().all(|&byte| byte == 0), at > 0);
        assert_eq!(called(run_call, text, right), (returned, work, results));
        for (work, results) in [
            (WORK_BYTES, RESULT_BYTES - 1),
            (WORK_BYTES, RESULT_BYTES + 1),
            (WORK_BYTES - 1, RESULT_BYTES),
            (WORK_BYTES + 1, RESULT_BYTES),
            (RESULT_BYTES, WORK_BYTES),
            (0, 0),
        ] {
            let unchanged = (65_536, vec![7; work], vec![9; results]);
            assert_eq!(called(lean_call, text, (work, results)), unchanged);
        }
    }
}

/// Accepted programs, and texts of every kind, with no step, few and many. The
/// machine here would panic at a null that is followed.
#[test]
fn generated_texts() {
    let mut numbers: BTreeMap<u32, u32> = BTreeMap::new();
    for seed in 0..6_000 {
        let text = match seed % 3 {
            0 => gen::accepted(0x4c00_0000 + seed),
            _ => gen::text(0x4d00_0000 + seed),
        };
        let many = gen::steps(&mut Rng::new(seed));
        for steps in [0, 1, many] {
            let (lean, run) = (lean(&text, steps), run(&text, steps));
            assert_eq!(lean, run, "seed {seed}, {steps} steps");
        }
        let Run { number, .. } = lean(&text, many);
        *numbers.entry(number).or_insert(0) += 1;
    }
    println!("{numbers:?}");
    let answers = [0, 21, 22, 23, 27].into_iter().chain(2..=14);
    for number in answers {
        assert!(numbers.contains_key(&number), "{number} is not met");
    }
    assert_eq!(numbers.len(), 18, "{numbers:?}");
}
