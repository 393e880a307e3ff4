//! W5: loops, by form, place, framing, the checker's rule and the machine's
//! steps.

mod common;

use common::{checks, main_with, ran, script, S};
use model::faults::Fault;
use model::framing::unframed_in;
use model::machine::Machine;
use model::names::resolve_noted;
use model::watch::{Purpose, Record, Tested};
use model::{check, read, run, text};

/// The checks of mains by their statements, the first on line 9.
fn mains(cases: &[(&str, u32, u32)]) {
    for &(statements, number, line) in cases {
        let source = main_with(statements);
        assert_eq!(check(&script(&source)), (number, line), "{statements}");
    }
}

#[test]
fn form_and_place() {
    let eight = " eq 1 1".repeat(8);
    mains(&[
        ("loop eq a b\nagain", 0, 0),
        ("loop ne a b eq 1 1\nagain", 0, 0),
        (&format!("loop ne a a{eight}\nagain"), 0, 0),
        (&format!("loop ne a a{eight} eq 1 1\nagain"), 4, 9),
        ("loop\nagain", 4, 9),
        ("loop eq a\nagain", 4, 9),
        ("loop acc s n\nagain", 4, 9),
        ("loop eq a b acc s\nagain", 4, 9),
        ("loop eq a b\nagain eq a b", 4, 10),
        ("again", 4, 9),
        ("loop eq a b\nelse", 4, 10),
        ("loop eq a b\njoin", 4, 10),
        ("loop eq a b", 4, 10),
        ("if eq a b\nagain", 4, 10),
        ("if eq a b\nloop eq a b\nelse", 4, 11),
        ("loop eq a b\nif eq a b\nelse\nagain", 4, 12),
        ("loop eq a b\nagain\nagain", 4, 11),
        ("loop eq a s\nagain", 7, 9),
        ("loop eq a c\nagain", 6, 9),
        ("loop eq a b acc s m\nagain", 6, 9),
        ("loop eq a b eq s 0\nagain", 7, 9),
    ]);
    // Eight atoms are the most of every other formula still.
    mains(&[(&format!("assert{eight} eq 1 1"), 4, 9)]);
}

#[test]
fn loops_and_branches_nest_four_deep() {
    let nested = |open: &[&str]| {
        let close = open.iter().rev().map(|line| match line.as_bytes()[0] {
            b'l' => "again",
            _ => "else\njoin",
        });
        let lines: Vec<&str> = open.iter().copied().chain(close).collect();
        lines.join("\n")
    };
    let (round, branch) = ("loop ne a a", "if eq a a");
    mains(&[
        (&nested(&[round; 4]), 0, 0),
        (&nested(&[round, branch, branch, round]), 0, 0),
        (&nested(&[round; 5]), 5, 13),
        (&nested(&[branch, branch, branch, round, branch]), 5, 13),
        (&nested(&[branch, branch, branch, branch, round]), 5, 13),
    ]);
}

#[test]
fn both_lines_count_toward_256() {
    let loops = |count: usize, more: &str| {
        let body = vec!["loop ne 1 1\nagain"; count].join("\n");
        script(&format!("main\n{body}{more}\nend"))
    };
    assert_eq!(check(&loops(127, "\nassert")), (0, 0));
    assert_eq!(check(&loops(127, "\nassert\nassert")), (5, 258));
    assert_eq!(check(&loops(128, "")), (5, 258));
}

#[test]
fn number_10_of_a_loop() {
    let new = "new s S\nlet t s\n";
    let with = |line: &str| format!("{new}{line}\nagain");
    mains(&[
        (&with("loop eq s.n 0 acc s n"), 0, 0),
        (&with("loop eq s.n 0"), 10, 11),
        (&with("loop eq s.n s.prev acc s n"), 7, 11),
        (&with("loop eq t.n 0 acc s n eq s t"), 10, 11),
        (&with("loop eq a b eq s.n 0 acc s n"), 10, 11),
        (&with("loop eq a b acc s n eq s.n 0"), 0, 0),
        // 10 comes before the rules, line by line.
        (&format!("let a s.n\n{}", with("loop eq s.n 0")), 10, 12),
    ]);
    // The place of the atom is that on the line; the invariant comes first.
    let place = |line: &str| {
        let bytes = line.replace(' ', "\t").into_bytes();
        let line = text::line(&bytes).expect("a line");
        unframed_in(&line).map(|(place, x, _)| (place, x.to_vec()))
    };
    let at = |place, x: &str| Some((place, x.as_bytes().to_vec()));
    assert_eq!(place("loop eq s.n 0 acc s n"), None);
    assert_eq!(place("loop eq s.n t.n acc s n"), at(0, "t"));
    assert_eq!(place("loop eq s.n 0 eq t.n 0 acc t n"), at(1, "t"));
    assert_eq!(place("assert eq s.n 0"), None);
    assert_eq!(place("join eq 1 1 eq s.n 0"), at(1, "s"));
}

#[test]
fn a_fault_is_at_its_atom_of_the_line() {
    let atom = |line: &str| {
        let bytes = script(&main_with(&format!("{line}\nagain")));
        let lines = text::lines(&bytes).expect("the reader takes it");
        let noted = resolve_noted(&lines).expect_err("a fault");
        assert!(matches!(noted.fault, Fault::Mismatch { .. }));
        noted.atom
    };
    assert_eq!(atom("loop eq a s acc s n"), 0);
    assert_eq!(atom("loop eq a b eq 1 1 eq s 0"), 2);
}

#[test]
fn the_state_at_loop_shows_the_invariant() {
    mains(&[
        ("loop eq a 7 eq a 7\nagain", 13, 9),
        ("let a 7\nloop ne a 7 eq a 7\nagain", 0, 0),
        ("loop ne 1 1 acc s n\nagain", 12, 9),
        ("new s S\nloop ne 1 1 acc s n acc s n\nagain", 12, 10),
        // The condition is not shown.
        ("loop eq a 7\nagain", 0, 0),
    ]);
}

#[test]
fn the_body_starts_from_invariant_and_condition_alone() {
    let new = "new s S\nlet a 7\n";
    mains(&[
        (&format!("{new}loop ne 1 1\nassert eq a 7\nagain"), 13, 12),
        (&format!("{new}loop ne 1 1\nset s n a\nagain"), 12, 12),
        (&format!("{new}loop ne 1 1\nlet b s.n\nagain"), 11, 12),
        (&format!("{new}loop eq a 7\nassert eq a 7\nagain"), 0, 0),
        (&format!("{new}loop ne a b\nassert ne b a\nagain"), 0, 0),
        // The condition resolves in the invariant.
        (
            &format!("{new}loop eq s.n b acc s n\nassert eq b s.n\nagain"),
            0,
            0,
        ),
    ]);
}

#[test]
fn the_end_of_the_body_shows_the_invariant() {
    let new = "new s S\nlet a 7\n";
    mains(&[
        (&format!("{new}loop ne a b eq a 7\nlet a 8\nagain"), 13, 13),
        (
            &format!("{new}loop ne a b acc s n\nrelease acc s n\nagain"),
            12,
            13,
        ),
        (
            &format!("{new}loop ne a b eq a 7\nlet a 8\nlet a 7\nagain"),
            0,
            0,
        ),
        // The condition need not hold there.
        (&format!("{new}loop eq a 7\nlet a 8\nagain"), 0, 0),
        // A branch whose last line is `again` has an end.
        (
            &format!("{new}if eq a b\nloop ne a a\nagain\nelse\njoin acc s n"),
            12,
            15,
        ),
    ]);
}

#[test]
fn afterwards_the_invariant_and_the_opposite_alone() {
    let around = |after: &str| format!("new s S\nlet a 7\nloop ne b 3 acc s n\nagain\n{after}");
    mains(&[
        (&around("assert eq b 3"), 0, 0),
        (&around("assert acc s n"), 0, 0),
        (&around("assert eq a 7"), 13, 13),
        (&around("assert acc s prev"), 12, 13),
        (&around("assert eq s.n 0"), 13, 13),
        (&around("assert ne s null"), 0, 0),
    ]);
}

/// A method of the class S with these lines after its `method` line, line 4.
fn method(requires: &str, ensures: &str, body: &str) -> String {
    format!("{S}method int m int w\nrequires {requires}\nensures {ensures}\n{body}\nend\nmain\nend")
}

#[test]
fn a_return_before_again_shows_nothing_there() {
    let held = |body: &str| method("acc this n", "eq result w", body);
    checks(&[
        // The invariant is lost, and `again` does not ask for it.
        (
            &held("loop ne w 0 acc this n\nrelease acc this n\nreturn w\nagain\nreturn w"),
            0,
            0,
        ),
        (
            &held("loop ne w 0 acc this n\nrelease acc this n\nagain\nreturn w"),
            12,
            9,
        ),
        (
            &held("loop ne w 0 acc this n\nreturn w\nassert\nagain\nreturn w"),
            4,
            9,
        ),
        (&held("return w\nloop ne w 0\nagain"), 4, 8),
        // The state after it is as ever, and `end` shows ensures.
        (
            &held("loop ne w 0\nreturn w\nagain\nassert eq w 0\nreturn w"),
            0,
            0,
        ),
        (&held("loop ne w 0\nreturn w\nagain"), 13, 10),
        (
            &held("loop ne w 0\nreturn w\nagain\nassert acc this n\nreturn w"),
            12,
            10,
        ),
        // A `join` before `again` is no return.
        (
            &held(
                "loop ne w 0 acc this n\nif eq w 1\nreturn w\nelse\nreturn w\njoin\nagain\n\
                 return w",
            ),
            12,
            13,
        ),
    ]);
}

#[test]
fn rounds_take_two_steps_beside_the_body() {
    let counted = |rounds: u32| {
        script(&main_with(&format!(
            "let b 1\nloop ne a {rounds}\nadd a a b\nagain"
        )))
    };
    for rounds in [0, 1, 2, 10] {
        let text = counted(rounds);
        let steps = 1 + (2 * rounds + 1) + rounds + 1;
        assert_eq!(check(&text), (0, 0));
        assert_eq!(ran(&text, 1_000), (0, 13, steps));
        assert_eq!(run(&text, 1_000).values[2], rounds as i32);
        assert_eq!(ran(&text, steps - 1), (21, 13, steps - 1));
    }
    // The next line after `again` is the `loop`.
    assert_eq!(ran(&counted(3), 4), (21, 10, 4));
    assert_eq!(ran(&counted(3), 3), (21, 12, 3));
    assert_eq!(
        ran(&script(&main_with("loop eq a a\nagain")), 1_000),
        (21, 9, 1_000)
    );
}

#[test]
fn each_arrival_tests_the_invariant_then_the_condition() {
    let stops = |statements: &str, stop: (u32, u32, u32)| {
        assert_eq!(
            ran(&script(&main_with(statements)), 1_000),
            stop,
            "{statements}"
        );
    };
    stops("loop eq a 0 eq a 1\nagain", (26, 9, 0));
    stops("loop eq a 1 acc s n\nagain", (25, 9, 0));
    stops(
        "new s S\nrelease acc s n\nloop eq s.n 0 acc s n\nagain",
        (24, 11, 2),
    );
    // The invariant is tested before the condition is read.
    stops(
        "new s S\nrelease acc s n\nloop eq t.n 0 acc s n\nagain",
        (24, 11, 2),
    );
    stops("loop eq t.n 0\nagain", (25, 9, 0));
    stops(
        "new s S\nrelease acc s n\nloop eq s.n t.n\nagain",
        (24, 11, 2),
    );
    stops(
        "new s S\nrelease acc s n\nloop eq t.n s.n\nagain",
        (25, 11, 2),
    );
    // A false invariant on the second arrival.
    stops("loop eq b 0 eq a 0\nlet a 1\nagain", (26, 9, 3));
    // The condition reads over the whole A, and A stays as it is.
    stops(
        "new s S\nloop ne s.n 0 acc s n\nagain\nset s n a\nassert acc s n",
        (0, 14, 5),
    );
}

#[test]
fn a_stop_in_an_invariant_is_told_apart() {
    let halt = |statements: &str| {
        let text = script(&main_with(statements));
        let program = read(&text).expect("the reader takes it");
        let mut machine = Machine::new(&program);
        while machine.step().is_ok() {}
        let halt = machine.halt.expect("a stop");
        (halt.stop.number(), halt.tested, halt.atom)
    };
    let invariant = halt("loop eq a b eq 1 1 eq a 1\nagain");
    assert_eq!(invariant, (26, Tested::Invariant, Some(1)));
    assert_eq!(halt("loop eq s.n 0\nagain"), (25, Tested::Nothing, None));
}

/// What is known at each line of a loop, and what is asked of it.
#[test]
fn a_watch_sees_the_states_of_a_loop() {
    let source = main_with("new s S\nloop eq a 7 acc s n\nlet b a\nagain\nassert eq b 7");
    let bytes = script(&source);
    let lines = text::lines(&bytes).expect("lines");
    let program = read(&bytes).expect("a program");
    let record = Record::of(&lines, &program).expect("number 10 does not come up");
    let refusal = record.refusal.expect("13 at the assert");
    assert_eq!((refusal.number(), refusal.line), (13, 13));
    let facts = |at: usize| {
        let seen = &record.seen[at];
        let count = |state: &Option<model::checker::State>| {
            state
                .as_ref()
                .map(|state| (state.permissions.len(), state.facts.len()))
        };
        (count(&seen.before), count(&seen.after))
    };
    assert_eq!(facts(1), (Some((2, 3)), Some((1, 1))), "loop");
    assert_eq!(facts(3), (Some((1, 2)), Some((1, 1))), "again");
    let refused = |statements: &str| {
        let bytes = script(&main_with(statements));
        let lines = text::lines(&bytes).expect("lines");
        let program = read(&bytes).expect("a program");
        let asked = Record::of(&lines, &program)
            .and_then(|record| record.asked)
            .expect("a question");
        (asked.purpose, asked.unshown(), asked.place)
    };
    let at_loop = refused("loop eq a b eq 1 1 eq a 7\nagain");
    assert_eq!(at_loop, (Purpose::Invariant, Some(1), 0));
    let at_again = refused("let a 7\nloop eq b 0 eq 1 1 eq a 7\nlet a 1\nagain");
    assert_eq!(at_again, (Purpose::RoundEnd, Some(1), 3));
}
