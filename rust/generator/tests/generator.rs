//! The generator reaches every number of the calls, and its accepted programs
//! are accepted.

use generator::{self as gen, rng::Rng};
use model::machine::{Machine, Step};
use model::names::{Action, Program, Statement};
use model::{bound, check, printed, read, run, trial};
use std::collections::BTreeMap;

const TEXTS: u64 = 20_000;

fn table(title: &str, counts: &BTreeMap<u32, u32>) {
    println!("{title}");
    for (number, count) in counts {
        println!("  {number:>2}  {count:>6}");
    }
}

#[test]
fn every_number_occurs() {
    let mut checks = BTreeMap::new();
    let mut runs = BTreeMap::new();
    let mut trials = BTreeMap::new();
    let mut bytes = 0;
    for seed in 0..TEXTS {
        let text = gen::text(seed);
        bytes += text.len();
        *checks.entry(check(&text).0).or_insert(0) += 1;
        let steps = gen::steps(&mut Rng::new(seed));
        *runs.entry(run(&text, steps).number).or_insert(0) += 1;
        *trials.entry(trial(&text, steps).number).or_insert(0) += 1;
    }
    println!("{TEXTS} texts of {} bytes on average", bytes as u64 / TEXTS);
    table("check", &checks);
    table("run", &runs);
    table("trial", &trials);
    let refused = [0].into_iter().chain(2..=14);
    assert!(checks.keys().copied().eq(refused.clone()));
    assert!(runs.keys().copied().eq(refused.chain([21, 22, 23, 27])));
    let tried = [0].into_iter().chain(2..=9).chain(21..=27);
    assert!(trials.keys().copied().eq(tried));
}

/// How deep the branches and loops of a text nest.
fn nesting(text: &[u8]) -> usize {
    let (mut depth, mut deepest) = (0usize, 0);
    for line in text.split(|&byte| byte == b'\n') {
        if line.starts_with(b"if\t") || line.starts_with(b"loop\t") {
            depth += 1;
        } else if line.starts_with(b"join") || line == b"again" {
            depth -= 1;
        }
        deepest = deepest.max(depth);
    }
    deepest
}

#[test]
fn accepted_programs_are_accepted() {
    let mut runs = BTreeMap::new();
    let mut words = BTreeMap::new();
    let mut depths = [0; 5];
    for seed in 0..2_000 {
        let text = gen::accepted(seed);
        assert_eq!(check(&text), (0, 0), "{}", String::from_utf8_lossy(&text));
        *runs.entry(run(&text, 20_000).number).or_insert(0) += 1;
        depths[nesting(&text)] += 1;
        for line in text.split(|&byte| byte == b'\n') {
            let word = line.split(|&byte| byte == b'\t').next().unwrap_or_default();
            *words
                .entry(String::from_utf8_lossy(word).into_owned())
                .or_insert(0) += 1;
        }
    }
    table("runs of accepted programs", &runs);
    println!("lines by word: {words:?}");
    println!("texts by nesting: {depths:?}");
    assert!(depths.iter().all(|&texts| texts > 50));
    let kinds = [
        "set", "let", "add", "sub", "new", "call", "open", "shut", "return", "assert", "release",
        "if", "else", "join", "loop", "again",
    ];
    for kind in kinds {
        assert!(words[kind] > 500, "{kind} is rare");
    }
    assert!(runs
        .keys()
        .all(|number| [0, 21, 22, 23, 27].contains(number)));
    assert!(runs[&27] > 5, "27 is rare");
}

#[test]
fn a_seed_gives_one_text() {
    for seed in 0..200 {
        assert_eq!(gen::text(seed), gen::text(seed));
        assert_eq!(printed(&gen::text(seed)), printed(&gen::text(seed)));
    }
    assert_ne!(gen::accepted(1), gen::accepted(2));
}

/// The first words of a text's lines.
fn words(text: &[u8]) -> Vec<&str> {
    let text = std::str::from_utf8(text).expect("an accepted text");
    text.lines()
        .map(|line| line.split('\t').next().unwrap_or_default())
        .collect()
}

/// W2: a `return` stands before `else`, `join` and `end`, in one branch or in
/// both, and methods end without one.
#[test]
fn returns_stand_in_every_place() {
    let mut pairs: BTreeMap<(&str, &str), u32> = BTreeMap::new();
    let mut both = 0;
    let texts: Vec<Vec<u8>> = (0..2_000).map(gen::accepted).collect();
    for text in &texts {
        let words = words(text);
        for pair in words.windows(2) {
            if pair.contains(&"return") || pair[1] == "end" {
                *pairs.entry((pair[0], pair[1])).or_insert(0) += 1;
            }
        }
        both += both_return(&words);
    }
    println!("lines and the ones after them: {pairs:?}; both branches return: {both}");
    for next in ["else", "join", "end"] {
        assert!(pairs[&("return", next)] > 200, "return, {next}");
    }
    assert!(pairs[&("var", "end")] > 100, "a method without a line");
    assert!(pairs[&("join", "end")] > 100 && both > 50);
}

/// How many joins have two branches whose last line is a `return`.
fn both_return(words: &[&str]) -> u32 {
    let mut first = Vec::new();
    let mut both = 0;
    for pair in words.windows(2) {
        let returned = pair[0] == "return";
        match pair[1] {
            "else" => first.push(returned),
            "join" => both += u32::from(first.pop().unwrap_or_default() && returned),
            _ => {}
        }
    }
    both
}

/// W5: loops stand in methods and main, in each other and in branches, with
/// branches, calls and returns in them.
#[test]
fn loops_stand_in_every_place() {
    let texts: Vec<Vec<u8>> = (0..2_000).map(gen::accepted).collect();
    let mut counts: BTreeMap<(&str, &str), u32> = BTreeMap::new();
    let mut inside: BTreeMap<(&str, &str), u32> = BTreeMap::new();
    for text in &texts {
        let words = words(text);
        for pair in words.windows(2) {
            *counts.entry((pair[0], pair[1])).or_insert(0) += 1;
        }
        let mut open: Vec<&str> = Vec::new();
        for word in words {
            if matches!(word, "again" | "join") {
                open.pop();
            }
            if let Some(&around) = open.last() {
                *inside.entry((around, word)).or_insert(0) += 1;
            }
            if matches!(word, "loop" | "if") {
                open.push(word);
            }
        }
    }
    println!("inside: {inside:?}");
    for word in [
        "loop", "if", "set", "let", "add", "sub", "new", "call", "return", "assert", "release",
    ] {
        assert!(inside[&("loop", word)] > 40, "{word} in a loop is rare");
    }
    assert!(inside[&("if", "loop")] > 100, "a loop in a branch");
    for pair in [
        ("loop", "again"),
        ("return", "again"),
        ("join", "again"),
        ("again", "again"),
        ("again", "end"),
        ("again", "else"),
    ] {
        assert!(counts[&pair] > 20, "{pair:?} is rare");
    }
}

/// What a run does in loops: the number at its end, the `loop` steps that went
/// in, and those that went on after `again`.
fn rounds(program: &Program, steps: u32) -> (u32, u32, u32) {
    let mut machine = Machine::new(program);
    let (mut inside, mut past) = (0, 0);
    while machine.steps < steps {
        let here = machine.frame().next;
        let looped = matches!(machine.statement().action, Action::Loop(_));
        match machine.step() {
            Err(stop) => return (stop.number(), inside, past),
            Ok(Step::Done) => return (0, inside, past),
            Ok(Step::On) if looped => match machine.frame().next == here + 1 {
                true => inside += 1,
                false => past += 1,
            },
            Ok(Step::On) => {}
        }
    }
    (21, inside, past)
}

/// W5: loops are done no time, once and often; runs with rounds in them end,
/// are out of steps and stop.
#[test]
fn loops_go_round_and_end() {
    let mut ends: BTreeMap<u32, u32> = BTreeMap::new();
    let (mut never, mut once, mut often) = (0, 0, 0);
    for seed in 0..5_000 {
        let text = gen::text(0x3500_0000 + seed);
        let Ok(program) = read(&text) else { continue };
        let (number, inside, past) = rounds(&program, 2_000);
        if inside > 0 {
            *ends.entry(number).or_insert(0) += 1;
        }
        never += u32::from(past > 0 && inside == 0);
        once += u32::from(past > 0 && inside == 1);
        often += u32::from(past > 0 && inside > 3);
    }
    println!("ends of runs with rounds: {ends:?}");
    println!("rounds: none {never}, one {once}, more than three {often}");
    assert!(never > 50 && once > 50 && often > 50);
    for number in [0, 21, 22, 23, 24, 25, 26, 27] {
        assert!(
            ends.get(&number).is_some_and(|&count| count > 3),
            "{number}"
        );
    }
}

/// The first word of a line of the text.
fn word_at(text: &[u8], line: u32) -> Option<&[u8]> {
    let at = (line as usize).checked_sub(1)?;
    let line = text.split(|&byte| byte == b'\n').nth(at)?;
    line.split(|&byte| byte == b'\t').next()
}

/// W5: each number that a `loop` or an `again` can get occurs there.
#[test]
fn every_number_of_a_loop_occurs() {
    let mut rng = Rng::new(0x3600_0000);
    for (number, of_again) in [
        (4, true),
        (5, true),
        (6, false),
        (7, false),
        (10, false),
        (12, true),
        (13, true),
    ] {
        let (mut of_loop, mut others) = (0, 0);
        for _ in 0..1_500 {
            let text = gen::text_of(&mut rng, gen::Kind::Miss(number));
            let (found, line) = check(&text);
            match word_at(&text, line) {
                Some(b"loop") if found == number => of_loop += 1,
                Some(b"again") if found == number => others += 1,
                _ => {}
            }
        }
        println!("{number}: {of_loop} at a `loop`, {others} at an `again`");
        assert!(of_loop > 5 && (others > 5) == of_again, "{number}");
    }
}

/// W5: trials stop at a `loop` with each number that they can get there.
#[test]
fn every_stop_of_a_loop_occurs() {
    let mut stops: BTreeMap<u32, u32> = BTreeMap::new();
    for seed in 0..6_000 {
        let text = gen::text(0x3700_0000 + seed);
        let stop = trial(&text, 2_000);
        if stop.number > 21 && word_at(&text, stop.line) == Some(b"loop") {
            *stops.entry(stop.number).or_insert(0) += 1;
        }
    }
    println!("stopped at a `loop`: {stops:?}");
    assert!(stops.keys().eq(&[24, 25, 26]) && stops.values().all(|&count| count > 3));
}

/// How many calls lead from a method back to it, at least; none if none do.
fn ring(program: &Program, block: usize, first: usize) -> Option<usize> {
    let mut reached = vec![first];
    for length in 1..=program.blocks.len() {
        if reached.contains(&block) {
            return Some(length);
        }
        let calls = reached.iter().flat_map(|&at| program.body(at));
        reached = calls
            .filter_map(|statement| match statement.action {
                Action::Call(call) => Some(call.method),
                _ => None,
            })
            .collect();
        reached.sort_unstable();
        reached.dedup();
    }
    None
}

/// W6: bounds are given and refused: with 15 at a loop, at a call of the method
/// itself and at one into a ring of two or three, and with 16.
#[test]
fn every_number_of_bound_occurs() {
    let mut numbers: BTreeMap<u32, u32> = BTreeMap::new();
    let (mut loops, mut rings) = (0, [0; 5]);
    let (mut near, mut passed, mut longest) = (0, 0, 0);
    for seed in 0..6_000 {
        let text = gen::text(0x3800_0000 + seed);
        let found = bound(&text);
        *numbers.entry(found.number).or_insert(0) += 1;
        near += u32::from(found.bound.abs_diff(1_000_000) < 5);
        passed += u32::from(found.number == 16);
        longest = longest.max(found.frames);
        if found.number != 15 {
            continue;
        }
        let program = read(&text).expect("an accepted text");
        let block = (0..program.blocks.len())
            .rfind(|&at| program.body(at)[0].line <= found.line)
            .expect("a block");
        let mut lines = program.body(block).iter();
        match lines.find(|statement| statement.line == found.line) {
            Some(Statement {
                action: Action::Loop(_),
                ..
            }) => loops += 1,
            Some(Statement {
                action: Action::Call(call),
                ..
            }) => {
                let length = ring(&program, block, call.method).expect("a way back");
                rings[length.min(4)] += 1;
            }
            other => panic!("15 at {other:?}"),
        }
    }
    println!("bound: {numbers:?}; {near} near 1,000,000; at most {longest} frames");
    println!("15 at {loops} loops, and in rings by their length {rings:?}");
    assert!(numbers.keys().copied().eq([0].into_iter().chain(2..=16)));
    assert!(loops > 100 && rings[1..=3].iter().all(|&count| count > 10));
    assert!(near > 5 && passed > 100 && longest == 65);
    let mut rng = Rng::new(0x3a00_0000);
    let mut passed = || gen::text_of(&mut rng, gen::Kind::Miss(16));
    let found = (0..200).filter(|_| bound(&passed()).number == 16).count();
    assert!(found > 180, "{found} beyond the limit");
}

/// W4: numbers of both signs, those that are the last to have the form and
/// those that have it not.
#[test]
fn numbers_of_both_signs_occur() {
    let mut values: BTreeMap<Vec<u8>, u32> = BTreeMap::new();
    let mut rng = Rng::new(0x3400_0000);
    for _ in 0..2_000 {
        let text = gen::text_of(&mut rng, gen::Kind::Miss(4));
        let lets = text.split(|&byte| byte == b'\n');
        for line in lets.filter_map(|line| line.strip_prefix(b"let\t")) {
            let value = line.rsplit(|&byte| byte == b'\t').next();
            *values
                .entry(value.unwrap_or_default().to_vec())
                .or_insert(0) += 1;
        }
    }
    let formed = ["-2147483648", "-1", "0", "1", "2147483647"];
    let others = ["-0", "00", "-01", "-", "+1", "2147483648", "-2147483649"];
    for number in formed.iter().chain(&others) {
        let count = values.get(number.as_bytes()).copied().unwrap_or_default();
        println!("let x {number}: {count}");
        assert!(count >= 5, "{number} is rare");
    }
}
