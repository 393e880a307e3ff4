//! The section "Examples" of document 01, all of it, with the steps that W2 of
//! document 02 gives; refused texts run in a trial.

mod common;

use common::{checks, example, example_with, main_with, ran, script, text};
use model::{check, printed, run, trial};

#[test]
fn the_example_prints_five_lines() {
    let expected = "check\t0\t0\nrun\t0\t19\t8\nvar\ts\t1\nvar\ta\t7\nvar\tb\t7\n";
    assert_eq!(printed(&text(&example())), expected.as_bytes());
}

#[test]
fn with_requires_bare() {
    let text = example_with(5, "requires");
    assert_eq!(check(&text), (12, 7));
    assert_eq!(ran(&text, 1_000), (24, 7, 3));
}

#[test]
fn with_line_17_false() {
    let text = example_with(17, "assert eq s.n 8");
    assert_eq!(check(&text), (13, 17));
    assert_eq!(ran(&text, 1_000), (26, 17, 5));
}

#[test]
fn with_fewer_steps() {
    let text = text(&example());
    assert_eq!(ran(&text, 7), (21, 19, 7));
    assert_eq!(ran(&text, 8), (0, 19, 8));
    assert_eq!(ran(&text, 9), (0, 19, 8));
    assert_eq!(ran(&text, 0), (21, 14, 0));
    assert_eq!(run(&text, 3).values[..3], [1, 7, 0]);
    assert_eq!(run(&text, 0).values, [0; 12]);
}

#[test]
fn a_permission_released_twice() {
    let text = example_with(18, "release acc s n acc s n");
    assert_eq!(check(&text), (12, 18));
    assert_eq!(ran(&text, 1_000), (24, 18, 6));
}

#[test]
fn a_call_that_assigns_its_argument() {
    let text = example_with(16, "call a s tag a");
    assert_eq!(check(&text), (9, 16));
    assert_eq!(ran(&text, 1_000), (9, 16, 0));
    assert_eq!(printed(&text), b"check\t9\t16\n");
}

#[test]
fn the_empty_text() {
    assert_eq!(check(b""), (8, 0));
    assert_eq!(ran(b"", 1_000), (8, 0, 0));
    assert_eq!(printed(b""), b"check\t8\t0\n");
}

#[test]
fn the_largest_number() {
    let text = example_with(15, "let a 2147483647");
    assert_ne!(check(&text).0, 4);
    assert_eq!(trial(&text, 2).values[1], i32::MAX);
    assert_eq!(check(&example_with(15, "let a 2147483648")), (4, 15));
    let text = example_with(15, "let a -2147483648");
    assert_eq!(trial(&text, 2).values[1], i32::MIN);
    assert_eq!(check(&example_with(15, "let a -2147483649")), (4, 15));
}

#[test]
fn new_lines_at_the_statement_limit() {
    let program = |news: usize, end: &[&str]| {
        let mut lines = vec!["class E", "main", "var E e"];
        lines.extend(vec!["new e E"; news]);
        lines.extend_from_slice(end);
        text(&lines)
    };
    assert_eq!(check(&program(256, &[])), (8, 259));
    assert_eq!(check(&program(256, &["end"])), (5, 260));
    assert_eq!(check(&program(255, &["end"])), (0, 0));
}

/// "finding `acc` by name and not by ~, so that `let t s` loses `t.n`"
#[test]
fn tempting_acc_by_name() {
    let source = main_with("new s S\nlet t s\nassert acc t n\nset t n a\nassert eq t.n s.n");
    assert_eq!(check(&script(&source)), (0, 0));
    assert_eq!(ran(&script(&source), 1_000), (0, 14, 6));
}

/// "keeping `s.n = 0` across the call"
#[test]
fn tempting_fact_kept_across_a_call() {
    let text = example_with(17, "assert eq s.n 0");
    assert_eq!(check(&text), (13, 17));
    assert_eq!(ran(&text, 1_000), (26, 17, 5));
    // The field that is not handed over keeps its fact.
    assert_eq!(check(&example_with(17, "assert eq s.prev null")), (0, 0));
}

/// "letting `requires acc this n acc w n` be met by one location"
#[test]
fn tempting_one_location_for_two() {
    let program = |call: &str| {
        script(&format!(
            "class S\nfield int n\nmethod int two S w\nrequires acc this n acc w n\nensures\n\
             end\nmain\nvar S s\nvar S t\nvar int b\nnew s S\n{call}\nend"
        ))
    };
    let once = program("let t s\ncall b s two t");
    assert_eq!(check(&once), (12, 13));
    assert_eq!(ran(&once, 1_000), (24, 13, 2));
    let same = program("call b s two s");
    assert_eq!(check(&same), (12, 12));
    assert_eq!(ran(&same, 1_000), (24, 12, 1));
    let twice = program("new t S\ncall b s two t");
    assert_eq!(check(&twice), (0, 0));
    assert_eq!(ran(&twice, 1_000), (0, 14, 5));
}

/// "keeping what was known of x before `x` is assigned"
#[test]
fn tempting_old_value_of_a_variable() {
    let old = |statements: &str| main_with(statements);
    checks(&[
        (&old("let a 7\nlet a 8\nassert eq a 7"), 13, 11),
        (&old("let a 7\nlet a 8\nassert eq a 8"), 0, 0),
        (
            &old("new s S\nlet a 7\nset s n a\nnew s S\nassert eq s.n 7"),
            13,
            13,
        ),
        (&old("new s S\nlet a s.n\nlet s s.prev\nlet a s.n"), 11, 12),
        (&old("new s S\nlet s null\nassert ne s null"), 13, 11),
    ]);
    let call = "let b 7\ncall b s tag a\nassert eq b 7";
    let lines = [
        &example()[..15],
        &call.lines().collect::<Vec<_>>(),
        &["end"],
    ]
    .concat();
    assert_eq!(check(&text(&lines)), (13, 18));
}
