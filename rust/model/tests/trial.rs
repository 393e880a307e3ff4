//! W7: run checks first, trial does not. An accepted text gets the same from
//! both.

mod common;

use common::{example, example_with, main_with, script, text};
use generator::{self as gen, rng::Rng};
use model::limits::{LOCALS, RESULT_BYTES, TEXT_BYTES, WORK_BYTES};
use model::{check, printed, read, run, run_call, trial, trial_call, Run};

/// What a refused text leaves.
fn refused(number: u32, line: u32) -> Run {
    Run {
        number,
        line,
        steps: 0,
        values: [0; LOCALS],
    }
}

#[test]
fn a_text_that_check_refuses_runs_in_a_trial_alone() {
    let s = "new s S\n";
    for (statements, number, stop, steps) in [
        ("join", 4, 4, 0),
        ("if eq a b\nelse\njoin eq s.n 0", 10, 25, 2),
        ("let a s.n", 11, 25, 0),
        (&format!("{s}assert acc s n acc s n"), 12, 24, 1),
        (&format!("{s}let a 7\nassert eq a b"), 13, 26, 2),
        (&format!("{s}loop ne a 3 eq a b\nlet a 1\nagain"), 13, 26, 4),
        (&format!("{s}assert eq a b"), 13, 0, 3),
    ] {
        let text = script(&main_with(statements));
        let (found, line) = check(&text);
        assert_eq!(found, number, "{statements}");
        assert_eq!(run(&text, 1_000), refused(number, line), "{statements}");
        let trial = trial(&text, 1_000);
        assert_eq!((trial.number, trial.steps), (stop, steps), "{statements}");
    }
}

#[test]
fn the_variants_of_the_worked_script() {
    let bare = example_with(5, "requires");
    assert_eq!(run(&bare, 1_000), refused(12, 7));
    assert_eq!(run(&bare, 0), refused(12, 7));
    let tried = trial(&bare, 1_000);
    assert_eq!((tried.number, tried.line, tried.steps), (24, 7, 3));
    assert_eq!(tried.values[..3], [1, 7, 0]);
    // The program prints what it printed, with what trial answers.
    let expected = "check\t12\t7\nrun\t24\t7\t3\nvar\ts\t1\nvar\ta\t7\nvar\tb\t0\n";
    assert_eq!(printed(&bare), expected.as_bytes());
    let whole = text(&example());
    for steps in [0, 7, 8, 1_000] {
        assert_eq!(run(&whole, steps), trial(&whole, steps));
    }
}

/// The areas after a call of run or trial: what it returned, and both areas.
fn called(
    call: fn(&[u8], &mut [u8], u32, &mut [u8]) -> u32,
    text: &[u8],
    (work, results): (usize, usize),
) -> (u32, Vec<u8>, Vec<u8>) {
    let (mut work, mut results) = (vec![7; work], vec![9; results]);
    let returned = call(text, &mut work, 1_000, &mut results);
    (returned, work, results)
}

#[test]
fn the_areas_of_trial() {
    let right = (WORK_BYTES, RESULT_BYTES);
    let (work, zeros) = (vec![0; WORK_BYTES], vec![0; RESULT_BYTES]);
    let bare = example_with(5, "requires");
    let mut expected = zeros.clone();
    (expected[0], expected[4], expected[8]) = (3, 1, 7);
    let tried = called(trial_call, &bare, right);
    assert_eq!(tried, (24 * 65_536 + 7, work.clone(), expected));
    let ran = called(run_call, &bare, right);
    assert_eq!(ran, (12 * 65_536 + 7, work, zeros));
    for text in [bare, vec![b'x'; TEXT_BYTES + 1]] {
        for lengths in [
            (WORK_BYTES, 51),
            (WORK_BYTES, 53),
            (WORK_BYTES - 1, 52),
            (0, 0),
        ] {
            let unchanged = (65_536, vec![7; lengths.0], vec![9; lengths.1]);
            assert_eq!(called(trial_call, &text, lengths), unchanged);
            assert_eq!(called(run_call, &text, lengths), unchanged);
        }
    }
}

/// "a text that the check refuses gets the check's number and line, with zeros
/// in results"; "An accepted text gets the same from both."
#[test]
fn run_is_check_and_then_trial() {
    let (mut accepted, mut refused_by_rules, mut unread) = (0, 0, 0);
    for seed in 0..5_000 {
        let text = gen::text(0x3b00_0000 + seed);
        let steps = gen::steps(&mut Rng::new(seed));
        let (number, line) = check(&text);
        let (ran, tried) = (run(&text, steps), trial(&text, steps));
        match (number, read(&text)) {
            (0, _) => {
                accepted += 1;
                assert_eq!(ran, tried, "seed {seed}");
                assert!([0, 21, 22, 23, 27].contains(&ran.number), "seed {seed}");
            }
            (_, Ok(_)) => {
                refused_by_rules += 1;
                assert!((10..=14).contains(&number), "seed {seed}");
                assert_eq!(ran, refused(number, line), "seed {seed}");
                assert!(tried.number == 0 || tried.number > 20, "seed {seed}");
            }
            (_, Err(_)) => {
                unread += 1;
                assert_eq!(ran, refused(number, line), "seed {seed}");
                assert_eq!(tried, ran, "seed {seed}");
            }
        }
    }
    println!("{accepted} accepted, {refused_by_rules} refused by the rules, {unread} unread");
    assert!(accepted > 1_500 && refused_by_rules > 500 && unread > 500);
}
