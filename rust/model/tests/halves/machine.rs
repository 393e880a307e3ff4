//! W8.7: the machine's halves.

use crate::common::{main_with, ran, script};
use crate::method;
use generator as gen;
use model::machine::{Machine, Step};
use model::names::{Action, Program};
use model::{check, read};

/// The stop of a main by its statements, the first on line 9.
fn stops(cases: &[(&str, (u32, u32, u32))]) {
    for &(statements, stop) in cases {
        let text = script(&main_with(statements));
        assert_eq!(ran(&text, 1_000), stop, "{statements}");
    }
}

/// The halves that each frame holds of each field, the newest frame last, before
/// each step and at the end.
fn halves(source: &str) -> Vec<(u32, Vec<Vec<u8>>)> {
    let text = script(source);
    let program = read(&text).expect("a program");
    let mut machine = Machine::new(&program);
    let mut seen = Vec::new();
    loop {
        let fields = 0..machine.heap.len();
        let frames = machine.frames.iter();
        let held = frames.map(|frame| fields.clone().map(|at| frame.held.halves(at)).collect());
        seen.push((machine.statement().line, held.collect()));
        if machine.step() != Ok(Step::On) {
            return seen;
        }
    }
}

#[test]
fn new_gives_both_halves_of_each_field() {
    let seen = halves(&main_with("new s S\nnew t S\nrelease read s n acc t prev"));
    let held: Vec<_> = seen.into_iter().map(|(_, frames)| frames).collect();
    let none: Vec<u8> = Vec::new();
    assert_eq!(
        held,
        [
            vec![none],
            vec![vec![2, 2]],
            vec![vec![2, 2, 2, 2]],
            vec![vec![2, 1, 0, 2]]
        ]
    );
}

#[test]
fn reading_needs_one_half_and_set_both() {
    stops(&[
        ("new s S\nrelease read s n\nlet a s.n", (0, 12, 4)),
        ("new s S\nrelease read s n\nset s n a", (24, 11, 2)),
        (
            "new s S\nrelease read s n\nrelease read s n\nlet a s.n",
            (24, 12, 3),
        ),
        ("new s S\nset s n a", (0, 11, 3)),
        // Over the whole A, taken or not.
        ("new s S\nrelease read s n read s n eq s.n 0", (0, 11, 3)),
        ("new s S\nrelease acc s n eq s.n 0", (0, 11, 3)),
        (
            "new s S\nrelease read s n\nif eq s.n 0\nelse\njoin read s n",
            (0, 14, 6),
        ),
        (
            "new s S\nrelease read s n\nloop ne s.n 0 read s n\nagain",
            (0, 13, 4),
        ),
        (
            "new s S\nrelease read s n\nloop ne s.n 0 acc s n\nagain",
            (24, 11, 2),
        ),
    ]);
}

#[test]
fn a_formula_takes_halves_in_order() {
    stops(&[
        ("new s S\nassert read s n read s n", (0, 11, 3)),
        ("new s S\nassert read s n read s n read s n", (24, 10, 1)),
        ("new s S\nassert read s n acc s n", (24, 10, 1)),
        ("new s S\nassert acc s n read s n", (24, 10, 1)),
        ("new s S\nlet t s\nassert read s n acc t n", (24, 11, 2)),
        ("new s S\nlet t s\nassert read s n read t n", (0, 12, 4)),
        ("new s S\nrelease read s n\nassert acc s n", (24, 11, 2)),
        (
            "new s S\nrelease read s n\nassert read s n read s n",
            (24, 11, 2),
        ),
        // Null first.
        ("assert read s n", (25, 9, 0)),
        ("new t S\nassert read t n read s n", (25, 10, 1)),
        ("new t S\nassert read t n acc t n read s n", (24, 10, 1)),
        ("new s S\nassert read s n eq a 1", (26, 10, 1)),
    ]);
}

/// The caller loses what requires takes and keeps the rest; the new frame has
/// exactly that; the caller gains what ensures takes, and the rest is lost.
#[test]
fn halves_over_a_call() {
    let with = |contract: &str, body: &str| {
        format!(
            "class S\nfield int n\nmethod int m S w\n{contract}\n{body}\nend\nmain\nvar S s\nvar S t\n\
             var int a\nnew s S\nnew t S\ncall a s m t\nend"
        )
    };
    let call = |contract: &str| -> Vec<Vec<Vec<u8>>> {
        let seen = halves(&with(contract, "assert"));
        let from = seen.iter().position(|(line, _)| *line == 6);
        let during = &seen[from.expect("the call is done")..];
        during.iter().map(|(_, frames)| frames.clone()).collect()
    };
    let half = call("requires read this n read w n\nensures read w n");
    let called = vec![vec![1, 1], vec![1, 1]];
    assert_eq!(half, [called.clone(), called, vec![vec![1, 2]]]);
    let whole = call("requires read this n read this n\nensures acc this n");
    let called = vec![vec![0, 2], vec![2, 0]];
    assert_eq!(whole, [called.clone(), called, vec![vec![2, 2]]]);
    let lost = call("requires acc this n read w n\nensures read this n");
    let called = vec![vec![0, 1], vec![2, 1]];
    assert_eq!(lost, [called.clone(), called, vec![vec![1, 1]]]);
    // A `return` gives back as `end` does.
    let contract = "requires read this n\nensures read this n";
    let seen = halves(&with(contract, "var int x\nreturn x"));
    let last = &seen[seen.len() - 1].1;
    assert_eq!(last, &[vec![2, 2]]);
}

#[test]
fn stops_of_contracts() {
    let with = |requires: &str, ensures: &str, body: &str, before: &str| {
        script(&format!(
            "class S\nfield int n\nmethod int m S w\nrequires {requires}\nensures {ensures}\n{body}\n\
             end\nmain\nvar S s\nvar int a\nnew s S\n{before}\ncall a s m s\nassert acc s n\nend"
        ))
    };
    let stop = |text: Vec<u8>| ran(&text, 1_000);
    // Too little for requires, of one card by two names.
    let text = with("acc this n read w n", "", "assert", "assert");
    assert_eq!(stop(text), (24, 13, 2));
    let text = with("read this n read w n", "", "assert", "release read s n");
    assert_eq!(stop(text), (24, 13, 2));
    // Too little for ensures, at `end` and at `return`.
    let text = with("read this n", "acc this n", "assert", "assert");
    assert_eq!(stop(text), (24, 7, 4));
    let text = with("read this n", "acc this n", "var int x\nreturn x", "assert");
    assert_eq!(stop(text), (24, 7, 3));
    // A reader does not write, and what it keeps is lost to the caller.
    let text = with("read this n", "", "var int x\nset this n x", "assert");
    assert_eq!(stop(text), (24, 7, 3));
    let text = with("read this n", "", "assert", "assert");
    assert_eq!(stop(text), (24, 14, 5));
    let text = with("read this n", "read this n", "assert", "assert");
    assert_eq!(stop(text), (0, 15, 7));
    assert_eq!(
        check(&with("read this n", "read this n", "assert", "assert")),
        (0, 0)
    );
}

/// "Two halves that came apart are both": the machine goes by locations, where
/// the checker goes by what is known.
#[test]
fn two_halves_that_came_apart_are_both() {
    let source = "class S\nfield int n\nmethod int m S w\nrequires read this n read w n\nensures\n\
                  var int x\nlet x 5\nset this n x\nassert eq w.n 5 acc w n\nend\nmain\nvar S s\n\
                  var S t\nvar int a\nnew s S\nlet t s\ncall a s m t\nend";
    let text = script(source);
    assert_eq!(check(&text), (12, 8));
    assert_eq!(ran(&text, 1_000), (0, 18, 8));
    // Two cards: a half of each.
    let text = script(&source.replace("let t s", "new t S"));
    assert_eq!(ran(&text, 1_000), (24, 8, 4));
}

/// A reader below a reader, as deep as there are frames.
#[test]
fn a_half_goes_down_and_comes_back() {
    let source = "class S\nfield int n\nmethod int m S w\nrequires read this n\nensures read this n\n\
                  var int x\ncall x this m w\nend\nmain\nvar S s\nvar int a\nnew s S\ncall a s m s\nend";
    let text = script(source);
    assert_eq!(check(&text), (0, 0));
    assert_eq!(ran(&text, 1_000), (23, 7, 64));
    let looked = method(
        "read this n",
        "read this n eq result this.n",
        "let i this.n\nreturn i",
    );
    assert_eq!(check(&script(&looked)), (0, 0));
}

/// The most halves that all frames together hold of a location, at any time, and
/// whether a caller and a called method had a half each.
fn summed(program: &Program, steps: u32) -> (u8, bool) {
    let mut machine = Machine::new(program);
    let (mut most, mut shared) = (0, false);
    while machine.steps < steps {
        let moves = matches!(
            machine.statement().action,
            Action::Call(_)
                | Action::Return(_)
                | Action::End
                | Action::New(..)
                | Action::Release(_)
        );
        let step = machine.step();
        for place in (0..machine.heap.len()).filter(|_| moves) {
            let held: Vec<(usize, u8)> = machine.holders(place).collect();
            most = most.max(held.iter().map(|(_, halves)| halves).sum());
            shared |= held.len() == 2;
        }
        if step != Ok(Step::On) {
            break;
        }
    }
    (most, shared)
}

/// "over all frames at most 2 in sum", for every text that runs.
#[test]
fn two_halves_in_sum() {
    let mut shared = 0;
    for seed in 0..1_500 {
        let text = gen::text(0x5500_0000 + seed);
        let Ok(program) = read(&text) else { continue };
        let (most, both) = summed(&program, 400);
        assert!(most <= 2, "{}", String::from_utf8_lossy(&text));
        shared += usize::from(both);
    }
    println!("{shared} runs with a half each of two frames");
    assert!(shared > 50);
}
