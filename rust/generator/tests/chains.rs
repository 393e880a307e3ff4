//! W9: the generator makes chains, `open` and `shut`: in accepted texts, in texts that
//! are refused with each number, and in runs that stop with 24, 25 and 26.

use generator::{self as gen, rng::Rng, Kind};
use model::machine::{Machine, Step};
use model::names::{Action, Atom};
use model::number::*;
use model::text::{self, Share};
use model::watch::Halt;
use model::{check, read};
use std::collections::BTreeMap;

type Counts = BTreeMap<String, u32>;

/// The fields of each line of a text.
fn lines(text: &[u8]) -> impl Iterator<Item = Vec<&[u8]>> {
    let lines = text.split(|&byte| byte == b'\n');
    lines.map(|line| line.split(|&byte| byte == b'\t').collect())
}

/// Does the line ask for a chain?
fn asks(line: &[&[u8]]) -> bool {
    let atoms = line.iter().skip(1).step_by(3);
    let formula = !matches!(line[0], b"class" | b"field" | b"method" | b"var" | b"call");
    formula && atoms.into_iter().any(|word| *word == b"chain")
}

/// What a line has of chains: its word, or that of the line of a formula.
fn kind(line: &[&[u8]]) -> Option<String> {
    let word = String::from_utf8_lossy(line[0]).into_owned();
    match line[0] {
        b"open" | b"shut" => Some(word),
        _ => asks(line).then(|| format!("chain in {word}")),
    }
}

fn count(text: &[u8], counts: &mut Counts) -> bool {
    let kinds: Vec<String> = lines(text).filter_map(|line| kind(&line)).collect();
    for kind in &kinds {
        *counts.entry(kind.clone()).or_insert(0) += 1;
    }
    !kinds.is_empty()
}

#[test]
fn chains_stand_in_every_formula() {
    let mut counts = Counts::new();
    let mut texts = 0;
    for seed in 0..2_000 {
        texts += u32::from(count(&gen::accepted(seed), &mut counts));
    }
    println!("{texts} accepted texts with chains: {counts:?}");
    assert!(texts > 500);
    for word in ["requires", "ensures", "assert", "release", "join", "loop"] {
        let found = counts[&format!("chain in {word}")];
        assert!(found > 100, "a chain in {word} is rare");
    }
    assert!(counts["open"] > 300 && counts["shut"] > 500);
}

/// What the steps of a run did with chains.
#[derive(Debug, Default)]
struct Steps {
    opened: u32,
    shut: u32,
    /// Frames of one method that have a chain in its requires: the most at once.
    deepest: usize,
    /// The most cards on a chain that was walked over.
    longest: usize,
}

/// The cards on a chain; none if it is a ring.
fn cards(machine: &Machine, first: i32, slot: usize) -> Option<usize> {
    let (mut card, mut count) = (first, 0);
    while card != 0 {
        count += 1;
        card = machine.heap[machine.objects[card as usize - 1].first + slot];
        if count > machine.objects.len() {
            return None;
        }
    }
    Some(count)
}

fn steps_of(text: &[u8], seen: &mut Steps) -> u32 {
    let program = read(text).expect("an accepted text");
    let mut machine = Machine::new(&program);
    while machine.steps < 3_000 {
        let action = &machine.statement().action;
        if let Action::Open(model::names::Open { path, .. }) | Action::Shut(path) = action {
            let first = machine.frame().values[path.var];
            let cards = cards(&machine, first, path.slot);
            seen.longest = seen.longest.max(cards.unwrap_or_default());
        }
        match machine.step() {
            Ok(Step::On) => {}
            Ok(Step::Done) => return DONE,
            Err(stop) => return stop.number(),
        }
        seen.opened += u32::from(matches!(action, Action::Open(_)));
        seen.shut += u32::from(matches!(action, Action::Shut(_)));
        let block = machine.frame().block;
        let requires = &program.blocks[block].requires;
        let chain = |atom: &Atom| matches!(atom, Atom::Permission(Share::Chain, _));
        if requires.iter().any(chain) {
            let same = machine.frames.iter().filter(|frame| frame.block == block);
            seen.deepest = seen.deepest.max(same.count());
        }
    }
    OUT_OF_STEPS
}

/// Accepted texts open and shut chains of many cards, and walk over them by methods
/// that call themselves and in loops; they stop with none of 24, 25 and 26.
#[test]
fn accepted_texts_walk_over_chains() {
    let mut seen = Steps::default();
    let (mut texts, mut ends) = (0, BTreeMap::new());
    for seed in 0..4_000 {
        let text = gen::text(0x6000_0000 + seed);
        if check(&text).0 == DONE && lines(&text).any(|line| kind(&line).is_some()) {
            texts += 1;
            *ends.entry(steps_of(&text, &mut seen)).or_insert(0) += 1;
        }
    }
    println!("{texts} accepted texts with chains of 4000: {seen:?}, {ends:?}");
    assert!(texts > 250);
    let stops = [PERMISSION_MISSING, NULL_FOLLOWED, FORMULA_FALSE];
    assert!(stops.iter().all(|stop| !ends.contains_key(stop)));
    assert!(seen.opened > 1_000 && seen.shut > 1_000);
    assert!(seen.deepest > 10 && seen.longest > 30);
}

/// How often lines with chains are refused with the number, of so many texts.
fn refused(rng: &mut Rng, number: u32, texts: u32) -> Counts {
    let mut counts = Counts::new();
    for _ in 0..texts {
        let text = gen::text_of(rng, Kind::Miss(number));
        let (found, line) = check(&text);
        if found == number && line > 0 {
            let line = lines(&text).nth(line as usize - 1).expect("a line");
            *counts.entry(kind(&line).unwrap_or_default()).or_insert(0) += 1;
        }
    }
    println!("{number}: {counts:?}");
    counts
}

/// Each number that a line with a chain can get occurs there.
#[test]
fn every_number_of_a_chain_occurs() {
    let mut rng = Rng::new(0x6100_0000);
    let formulas = ["requires", "ensures", "assert", "join", "loop"];
    let formulas = formulas.map(|word| format!("chain in {word}"));
    for (number, kinds) in [
        (FORM, &["open", "shut"][..]),
        (NAME, &["open", "shut"]),
        (TYPE, &["open", "shut"]),
        (ASSIGNED, &["open"]),
        (NO_PERMISSION, &["open", "shut"]),
        (NOT_SHOWN, &["open"]),
        (STATE_FULL, &["open"]),
    ] {
        let counts = refused(&mut rng, number, 1_500);
        let of = |kind: &str| counts.get(kind).copied().unwrap_or_default();
        assert!(kinds.iter().all(|kind| of(kind) > 15), "{number}");
        let named = matches!(number, FORM | NAME | TYPE);
        let rare = formulas.iter().find(|kind| named && of(kind) < 2);
        assert_eq!(rare, None, "{number}");
    }
    let counts = refused(&mut rng, NO_PERMISSION, 1_000);
    for word in ["assert", "release", "join", "loop"] {
        assert!(counts[&format!("chain in {word}")] > 2, "12 in {word}");
    }
    let counts = refused(&mut rng, UNFRAMED, 1_000);
    for word in ["requires", "ensures", "join", "loop"] {
        assert!(counts[&format!("chain in {word}")] > 5, "10 in {word}");
    }
}

/// Where a run stopped, and the cards of the ring that its walk came to.
fn stopped(text: &[u8]) -> Option<(Halt<'_>, String, usize)> {
    let lines = text::lines(text).ok()?;
    let program = model::names::resolve(&lines).ok()?;
    let mut machine = Machine::new(&program);
    while machine.steps < 3_000 && machine.step() == Ok(Step::On) {}
    let halt = machine.halt?;
    let word = lines_word(text, machine.statement().line);
    let mut ring = 0;
    if let (Some(first), Some(path)) = (halt.ring, halt.path) {
        let mut at = first;
        loop {
            ring += 1;
            at = machine.objects[machine.heap[at] as usize - 1].first + path.slot;
            if at == first {
                break;
            }
        }
    }
    Some((halt, word, ring))
}

fn lines_word(text: &[u8], line: u32) -> String {
    let line = lines(text).nth(line as usize - 1).expect("a line");
    String::from_utf8_lossy(line[0]).into_owned()
}

/// What stopped walks over chains.
#[derive(Debug, Default)]
struct Stops {
    /// By the cards of the ring that the walk came to.
    rings: BTreeMap<usize, u32>,
    /// By the number and the word of the line, `open` and `shut` whatever they lack.
    lines: BTreeMap<(u32, String), u32>,
    /// By the halves of the link that were held and taken.
    lacks: BTreeMap<(u8, u8), u32>,
}

impl Stops {
    fn look(&mut self, text: &[u8]) {
        let Some((halt, word, ring)) = stopped(text) else {
            return;
        };
        let missing = halt.missing.filter(|missing| missing.share == Share::Chain);
        if let Some(missing) = missing {
            let lack = (missing.held, missing.taken);
            *self.lacks.entry(lack).or_insert(0) += 1;
        }
        if ring > 0 {
            *self.rings.entry(ring).or_insert(0) += 1;
        }
        let line = matches!(word.as_str(), "open" | "shut");
        if ring > 0 || missing.is_some() || line {
            *self.lines.entry((halt.stop.number(), word)).or_insert(0) += 1;
        }
    }
}

/// Trials stop at every kind of line with 26 at rings of many sizes, and with 24 at a
/// link that is missing, half held or taken.
#[test]
fn every_stop_of_a_walk_occurs() {
    let mut stops = Stops::default();
    let mut rng = Rng::new(0x6300_0000);
    (0..4_000).for_each(|_| stops.look(&gen::rings::rings(&mut rng)));
    println!("{stops:?}");
    for size in 1..=8 {
        let found = stops.rings.get(&size);
        assert!(found.is_some_and(|&count| count > 5), "a ring of {size}");
    }
    assert!(stops.rings.keys().any(|&size| size > 200));
    for lack in [(0, 0), (1, 0), (2, 1), (2, 2)] {
        let found = stops.lacks.get(&lack);
        assert!(found.is_some_and(|&count| count > 20), "{lack:?}");
    }
    for word in [
        "assert", "release", "call", "loop", "join", "open", "shut", "end",
    ] {
        for number in [PERMISSION_MISSING, FORMULA_FALSE] {
            let found = stops.lines.get(&(number, word.to_string()));
            assert!(found.is_some_and(|&count| count > 5), "{number} at {word}");
        }
    }
    for word in ["open", "shut"] {
        assert!(stops.lines[&(NULL_FOLLOWED, word.to_string())] > 10);
    }
}

/// They are no rarity among all texts.
#[test]
fn walks_stop_among_all_texts() {
    let mut stops = Stops::default();
    (0..6_000).for_each(|seed| stops.look(&gen::text(0x6500_0000 + seed)));
    println!("{stops:?}");
    assert!(stops.rings.values().sum::<u32>() > 30);
    assert!(stops.lacks.values().sum::<u32>() > 30);
}
