//! W6: the bound of a script, what refuses it, and its area. Where a bound is
//! given, no run passes it.

mod common;

use common::{example, example_with, main_with, ran, script, text};
use model::limits::{BOUND, BOUND_BYTES, TEXT_BYTES, WORK_BYTES};
use model::machine::{Machine, Step};
use model::{bound, bound_call, check, read, run};

/// Number, line, bound and frames.
fn bounded(text: &[u8]) -> (u32, u32, u32, u32) {
    let found = bound(text);
    (found.number, found.line, found.bound, found.frames)
}

/// A class D with these methods, each with its own lines, and a main whose d is
/// an object of it; the `method` line of the first is line 3. Every method has
/// five lines before its own.
fn methods(methods: &[(&str, &str)], main: &str) -> Vec<u8> {
    let mut source = "class D\nfield int n\n".to_string();
    for (name, lines) in methods {
        source.push_str(&format!(
            "method int {name} int w\nrequires acc this n\nensures acc this n\nvar int r\n\
             assert\n{lines}end\n"
        ));
    }
    source.push_str(&format!(
        "main\nvar D d\nvar int a\nvar int b\nnew d D\n{main}end"
    ));
    script(&source)
}

#[test]
fn lines_and_calls_count() {
    // The method's three lines, and main's six.
    assert_eq!(bounded(&text(&example())), (0, 0, 9, 2));
    assert_eq!(bounded(&script("main\nend")), (0, 0, 1, 1));
    let branches = main_with("if eq a b\nlet a 1\nelse\nlet a 2\nlet b 2\njoin\nassert");
    assert_eq!(bounded(&script(&branches)), (0, 0, 8, 1));
    let call = "call r this one w\n";
    // Each call line counts, also one that no run comes to.
    let one = ("one", "");
    let two = ("two", &call.repeat(2)[..]);
    assert_eq!(bounded(&methods(&[one], "")), (0, 0, 2, 1));
    let calls = "call a d one b\ncall a d one b\n";
    assert_eq!(bounded(&methods(&[one], calls)), (0, 0, 4 + 2 * 2, 2));
    let calls = "call a d two b\n";
    assert_eq!(bounded(&methods(&[one, two], calls)), (0, 0, 3 + 4 + 4, 3));
    let branches = "if eq 1 1\ncall a d one b\nelse\ncall a d two b\njoin\n";
    let unreached = methods(&[one, two], branches);
    assert_eq!(bounded(&unreached), (0, 0, 7 + 2 + 8, 3));
    assert!(ran(&unreached, 1_000).2 < 17);
}

#[test]
fn a_refused_text_gets_the_numbers_of_check() {
    for (line, new) in [
        (5, "requires"),
        (16, "call a s tag a"),
        (17, "assert eq s.n 8"),
    ] {
        let text = example_with(line, new);
        let (number, line) = check(&text);
        assert!(number > 0);
        assert_eq!(bounded(&text), (number, line, 0, 0));
    }
    // 15 comes after every number of check, on later lines too.
    let late = main_with("loop ne a a\nagain\nassert acc s n");
    assert_eq!(bounded(&script(&late)), (12, 11, 0, 0));
}

#[test]
fn number_15_by_a_loop() {
    assert_eq!(
        bounded(&script(&main_with("loop ne a a\nagain"))),
        (15, 9, 0, 0)
    );
    let called = ("never", "loop ne r r acc this n\nagain\n");
    assert_eq!(bounded(&methods(&[called], "")), (15, 8, 0, 0));
    // The first line of the text counts.
    let own = ("own", "call r this own w\n");
    assert_eq!(bounded(&methods(&[called, own], "")), (15, 8, 0, 0));
    assert_eq!(bounded(&methods(&[own, called], "")), (15, 8, 0, 0));
    let both = (
        "both",
        "call r this both w\nloop ne r r acc this n\nagain\n",
    );
    assert_eq!(
        bounded(&methods(&[both], "loop ne a a\nagain\n")),
        (15, 8, 0, 0)
    );
}

#[test]
fn number_15_by_calls() {
    let calls = |method: &str| format!("call r this {method} w\n");
    let (a, b, c) = (calls("a"), calls("b"), calls("c"));
    // A ring of three: the first of its calls, whether main comes there or not.
    let ring = [("a", &b[..]), ("b", &c[..]), ("c", &a[..])];
    assert_eq!(bounded(&methods(&ring, "")), (15, 8, 0, 0));
    assert_eq!(bounded(&methods(&ring, "call a d c b\n")), (15, 8, 0, 0));
    // A call into a ring from outside is not the line.
    let outside = [("a", &b[..]), ("b", &c[..]), ("c", &b[..])];
    assert_eq!(
        bounded(&methods(&outside, "call a d a b\n")),
        (15, 15, 0, 0)
    );
    // Nor is one that comes back another way than to its own method.
    let own = [("a", &b[..]), ("b", &b[..])];
    assert_eq!(bounded(&methods(&own, "call a d a b\n")), (15, 15, 0, 0));
    // Two ways to one method are no ring.
    let ways = [("a", ""), ("b", &a[..]), ("c", &(a.clone() + &b)[..])];
    assert_eq!(bounded(&methods(&ways, "call a d c b\n")), (0, 0, 14, 4));
}

/// Methods that each call the one before twice: `m0` has a bound of 2, the next
/// ones twice that and 4 more.
fn doubling(count: usize, main: &str) -> Vec<u8> {
    let names: Vec<String> = (0..count).map(|at| format!("m{at}")).collect();
    let bodies: Vec<String> = (0..count)
        .map(|at| match at.checked_sub(1) {
            Some(before) => format!("call r this m{before} w\n").repeat(2),
            None => String::new(),
        })
        .collect();
    let all: Vec<(&str, &str)> = names
        .iter()
        .zip(&bodies)
        .map(|(name, body)| (name.as_str(), body.as_str()))
        .collect();
    methods(&all, main)
}

#[test]
fn number_16() {
    // 6 * 2^n - 4: 786,428 for m17.
    let call = |method: usize| format!("call a d m{method} b\n");
    let main = call(17);
    assert_eq!(bounded(&doubling(18, &main)), (0, 0, 786_431, 19));
    // 786,429, 196,605 and 12,285 for these calls, and main's two lines.
    let calls = [17, 15, 11].map(call).concat();
    let (most, rest) = (2 + 786_429 + 196_605 + 12_285, 1_000_000);
    assert_eq!(bounded(&doubling(18, &calls)), (0, 0, most, 19));
    let exactly = calls.clone() + &[9, 7, 6, 6].map(call).concat();
    let sum = most + 3_069 + 765 + 2 * 381;
    let filled = |more: u32| doubling(18, &(exactly.clone() + &"assert\n".repeat(more as usize)));
    let (at, above) = (filled(rest - sum), filled(rest - sum + 1));
    assert_eq!(bounded(&at), (0, 0, BOUND, 19));
    assert_eq!(bounded(&above), (16, 0, 0, 0));
    // A run takes that many steps.
    let run = run(&at, BOUND);
    assert_eq!((run.number, run.steps), (0, BOUND));
    // What main does not call does not count; nothing wraps.
    for count in [19, 32, 33, 60] {
        assert_eq!(bounded(&doubling(count, "")), (0, 0, 2, 1));
        assert_eq!(bounded(&doubling(count, &call(count - 1))), (16, 0, 0, 0));
    }
    // 15 comes before 16.
    let unbounded = call(18) + "loop ne a a\nagain\n";
    assert_eq!(bounded(&doubling(19, &unbounded)).0, 15);
}

#[test]
fn more_frames_than_a_run_has() {
    let chain = |count: usize| {
        let mut source = "class D\n".to_string();
        for at in 0..count {
            let call = match at {
                0 => String::new(),
                _ => format!("var int r\ncall r this m{} w\n", at - 1),
            };
            source.push_str(&format!(
                "method int m{at} int w\nrequires ne this null\nensures\n{call}end\n"
            ));
        }
        source.push_str(&format!(
            "main\nvar D d\nvar int a\nvar int b\nnew d D\ncall a d m{} b\nend",
            count - 1
        ));
        script(&source)
    };
    let steps = |count: u32| 2 * count - 1 + 3;
    assert_eq!(bounded(&chain(63)), (0, 0, steps(63), 64));
    assert_eq!(run(&chain(63), steps(63)).number, 0);
    assert_eq!(bounded(&chain(64)), (0, 0, steps(64), 65));
    assert_eq!(run(&chain(64), steps(64)).number, 23);
}

#[test]
fn the_areas_of_bound() {
    let text = text(&example());
    let (mut work, mut bounds) = (vec![7; WORK_BYTES], vec![9; BOUND_BYTES]);
    assert_eq!(bound_call(&text, &mut work, &mut bounds), 0);
    assert_eq!(bounds, [9, 0, 0, 0, 2, 0, 0, 0]);
    assert!(work.iter().all(|&byte| byte == 0));
    // Low byte first; a refused text leaves zeros.
    let long = doubling(18, "call a d m17 b\n");
    assert_eq!(bound_call(&long, &mut work, &mut bounds), 0);
    assert_eq!(bounds, [0xff, 0xff, 0x0b, 0, 19, 0, 0, 0]);
    let refused = script(&main_with("assert\nloop ne a a\nagain"));
    work.fill(7);
    assert_eq!(
        bound_call(&refused, &mut work, &mut bounds),
        15 * 65_536 + 10
    );
    assert_eq!((work, bounds), (vec![0; WORK_BYTES], vec![0; BOUND_BYTES]));
    // 1 comes before 2.
    for text in [text, vec![b'x'; TEXT_BYTES + 1]] {
        for (work, bounds) in [
            (WORK_BYTES, 7),
            (WORK_BYTES, 9),
            (WORK_BYTES - 1, 8),
            (0, 0),
        ] {
            let (mut work, mut bounds) = (vec![7; work], vec![9; bounds]);
            assert_eq!(bound_call(&text, &mut work, &mut bounds), 65_536);
            assert!(work.iter().all(|&byte| byte == 7));
            assert!(bounds.iter().all(|&byte| byte == 9));
        }
    }
}

/// "Where it gives a bound, a run allowed that many steps never answers 21, and
/// no run's count passes it."
#[test]
fn no_run_passes_its_bound() {
    let (mut given, mut reached, mut deepest) = (0, 0, 0);
    for seed in 0..6_000 {
        let text = generator::text(0x3900_0000 + seed);
        let found = bound(&text);
        if found.number != 0 || found.bound > 50_000 {
            continue;
        }
        given += 1;
        let program = read(&text).expect("an accepted text");
        let mut machine = Machine::new(&program);
        let mut frames = 1;
        while machine.steps < found.bound && machine.step() == Ok(Step::On) {
            frames = frames.max(machine.frames.len() as u32);
        }
        assert!(frames <= found.frames, "seed {seed}");
        let whole = run(&text, found.bound);
        assert_ne!(whole.number, 21, "seed {seed}");
        assert_eq!(run(&text, u32::MAX), whole, "seed {seed}");
        reached += u32::from(whole.steps == found.bound);
        deepest = deepest.max(frames);
    }
    println!("{given} bounds, {reached} reached, {deepest} frames");
    assert!(given > 1_000 && reached > 200 && deepest > 50);
}
