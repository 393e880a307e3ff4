//! The Rust API beside the model: kinds, lines, main's variables by name.

use generator::{self as gen, rng::Rng};
use model::names::{Atom, Declared, Type, THIS};
use nuyardi::{AcceptedEnding, AcceptedStop, Ending, Excess, Filled, Kind, Lack, NoBound};
use nuyardi::{NotCounted, NotFilled, Outcome, Share, Station, Stop, Value};
use std::collections::BTreeSet;

/// Every number that a call returns is explained: 0, 1, and those of the kinds,
/// excesses, lacks, counts and stops, each of which is found by its number.
#[test]
fn numbers_and_kinds() {
    let kinds = Kind::ALL.iter().map(|kind| kind.number());
    let excesses = Excess::ALL.iter().map(|excess| excess.number());
    let lacks = Lack::ALL.iter().map(|lack| lack.number());
    let stops = Stop::ALL.iter().map(|stop| stop.number());
    let texts = [0, 1].into_iter().chain(kinds).chain(excesses);
    let counts = NotCounted::ALL.iter().map(|none| none.number());
    let returned: Vec<u32> = texts.chain(lacks).chain(counts).chain(stops).collect();
    assert!(returned.windows(2).all(|pair| pair[0] < pair[1]));
    let explained: Vec<u32> = nuyardi::EXPLANATIONS
        .iter()
        .map(|known| known.number)
        .collect();
    assert_eq!(explained, returned);
    for number in (0..100).chain([u32::MAX]) {
        let kind = Kind::of(number).map(Kind::number);
        let excess = Excess::of(number).map(Excess::number);
        let lack = Lack::of(number).map(Lack::number);
        let none = NotCounted::of(number).map(NotCounted::number);
        let stop = Stop::of(number).map(Stop::number);
        assert_eq!(
            kind.or(excess).or(lack).or(none).or(stop),
            returned[2..].contains(&number).then_some(number)
        );
    }
    for known in nuyardi::EXPLANATIONS {
        for words in [known.title, known.meaning, known.advice] {
            assert!(words.len() > 10 && !words.contains("  "), "{words}");
            assert!(!words.contains("`station "), "{words}");
        }
    }
}

/// An accepted text's stops are stops, and those of which the explanation says
/// that an accepted text never stops so are not among them.
#[test]
fn stops_of_accepted_texts() {
    for &stop in Stop::ALL {
        let accepted = AcceptedStop::of(stop.number());
        let known = nuyardi::explain(stop.number()).expect("an explanation");
        let never = known.meaning.contains("An accepted text never stops so.");
        assert_eq!(accepted.is_none(), never, "{}", known.meaning);
        assert_eq!(accepted.map(Stop::from), accepted.map(|_| stop));
    }
}

/// The sizes that the explanations name are those of the machine.
#[test]
fn sizes_in_words() {
    use nuyardi::limits::*;
    let said = |number: u32, sizes: &[usize]| {
        let known = nuyardi::explain(number).expect("an explanation");
        let words = format!("{} {}", known.meaning, known.advice).replace(',', "");
        let words: Vec<&str> = words.split_whitespace().collect();
        for size in sizes {
            assert!(
                words.contains(&size.to_string().as_str()),
                "{size} in {words:?}"
            );
        }
    };
    said(1, &[WORK_BYTES, RESULTS_BYTES, BOUNDS_BYTES, PLACES_BYTES]);
    said(1, &[COUNT_BYTES]);
    said(2, &[TEXT_BYTES]);
    said(4, &[ATOMS, NAME_BYTES]);
    said(
        5,
        &[CLASSES, CLASS_FIELDS, METHODS, LOCALS, STATEMENTS, BRANCHES],
    );
    said(14, &[PERMISSIONS, FACTS]);
    said(16, &[BOUND]);
    said(17, &[FILLED]);
    said(19, &[SCRIPTS, OBJECTS]);
    said(22, &[OBJECTS, FIELDS, FIELDS_EACH]);
    said(23, &[FRAMES, FRAMES - 1]);
}

/// Answers, kinds and variables for generated texts, by an API that keeps its
/// areas and by one that makes new ones.
#[test]
fn generated_texts() {
    let mut station = Station::new();
    let mut stops = BTreeSet::new();
    let mut accepted_stops = BTreeSet::new();
    for seed in 1_000_000..1_004_000 {
        let text = gen::text(seed);
        let steps = gen::steps(&mut Rng::new(seed));
        let (number, line) = model::check(&text);
        let checked = station.check(&text);
        assert_eq!(checked, nuyardi::check(&text));
        match checked {
            Ok(accepted) => {
                assert_eq!((number, accepted.text()), (0, &text[..]));
                let outcome = accepted.run(&mut station, steps);
                assert_eq!(Ok(outcome), station.run(&text, steps));
                assert_eq!(Outcome::from(outcome), station.trial(&text, steps));
                assert_eq!(Ok(outcome), station.lean(&text, steps));
                if let AcceptedEnding::Stopped(stop) = outcome.ending() {
                    accepted_stops.insert(stop);
                }
            }
            Err(refusal) => {
                assert_eq!((refusal.number(), refusal.line()), (number, line));
                assert_eq!(station.run(&text, steps), Err(refusal));
                assert_eq!(station.lean(&text, steps), Err(refusal));
                assert_eq!(nuyardi::lean(&text, steps), Err(refusal));
                assert_eq!(Some(refusal.kind()), Kind::of(number));
                let shown = refusal.to_string();
                assert!(line == 0 || shown.starts_with(&format!("line {line}: ")));
                assert!(shown.contains(&format!("(number {number}); ")), "{shown}");
            }
        }
        let outcome = station.trial(&text, steps);
        let run = model::trial(&text, steps);
        assert_eq!(
            (outcome.number(), outcome.line(), outcome.steps()),
            (run.number, run.line, run.steps)
        );
        assert_eq!(outcome.finished(), run.number == 0);
        let declared = model::read(&text).map(|program| program.main().locals.clone());
        let declared = declared.unwrap_or_default();
        assert_eq!(outcome.variables().count(), declared.len());
        for ((variable, Declared { name, kind, .. }), value) in
            outcome.variables().zip(&declared).zip(run.values)
        {
            assert_eq!(variable.name.as_bytes(), *name);
            let (kind, value) = match kind {
                Type::Int => (&b"int"[..], Value::Int(value)),
                Type::Class(class) if value == 0 => (*class, Value::Null),
                Type::Class(class) => (*class, Value::Object(value as u32)),
            };
            assert_eq!((variable.kind.as_bytes(), variable.value), (kind, value));
            assert_eq!(outcome.variable(variable.name), Some(variable));
        }
        assert_eq!(outcome.variable("no name"), None);
        match outcome.ending() {
            Ending::Finished => assert!(outcome.to_string().starts_with("finished at line ")),
            Ending::Stopped(stop) => {
                assert!(outcome.to_string().starts_with("stopped at line "));
                stops.insert(stop);
            }
            Ending::Refused(kind) => {
                assert_eq!(Some(kind), Kind::of(number));
                let start = if line == 0 {
                    "not run: ".to_string()
                } else {
                    format!("not run, line {line}: ")
                };
                assert!(outcome.to_string().starts_with(&start), "{outcome}");
            }
            other => panic!("an ending that the model does not know: {other:?}"),
        }
    }
    assert!(stops.iter().eq(Stop::ALL), "{stops:?}");
    assert!(
        accepted_stops.iter().eq(AcceptedStop::ALL),
        "{accepted_stops:?}"
    );
}

/// The bounds of generated texts; with so many steps no run lacks any.
#[test]
fn generated_bounds() {
    let mut station = Station::new();
    let mut excesses = BTreeSet::new();
    for seed in 1_100_000..1_104_000 {
        let text = gen::text(seed);
        let model = model::bound(&text);
        let found = station.bound(&text);
        assert_eq!(found, nuyardi::bound(&text));
        match found {
            Ok(bound) => {
                let numbers = (0, 0, bound.steps, bound.frames);
                let modelled = (model.number, model.line, model.bound, model.frames);
                assert_eq!(numbers, modelled);
                let accepted = station.check(&text).expect("accepted");
                let outcome = accepted.run(&mut station, bound.steps);
                assert!(outcome.steps() <= bound.steps);
                let want = AcceptedEnding::Stopped(AcceptedStop::OutOfSteps);
                assert_ne!(outcome.ending(), want);
            }
            Err(none) => {
                assert_eq!((none.number(), none.line()), (model.number, model.line));
                match none {
                    NoBound::Refused(refusal) => {
                        assert_eq!(station.check(&text), Err(refusal));
                        assert_eq!(none.to_string(), refusal.to_string());
                    }
                    NoBound::Accepted { excess, .. } => {
                        assert!(station.check(&text).is_ok());
                        excesses.insert(excess);
                    }
                    other => panic!("a reason that the model does not know: {other:?}"),
                }
            }
        }
    }
    assert!(excesses.iter().eq(Excess::ALL), "{excesses:?}");
}

/// A bound in words, and one that there is not.
#[test]
fn bounds_in_words() {
    let said = |text: &[u8]| match nuyardi::bound(text) {
        Ok(bound) => bound.to_string(),
        Err(none) => none.to_string(),
    };
    assert_eq!(said(b"main\nend\n"), "at most 1 step, 1 frame");
    let worked = include_bytes!("../../../examples/worked.txt");
    assert_eq!(said(worked), "at most 9 steps, 2 frames");
    let looped = said(b"main\nloop\teq\t1\t2\nagain\nend\n");
    assert!(looped.starts_with("line 2: a loop, or a call"), "{looped}");
}

/// The places of a method's `requires`, as the model reads it: by the variable and the
/// field's own place in its class.
fn places_read(text: &[u8], star: u32) -> Vec<u8> {
    let program = model::read(text).expect("a text that the reader takes");
    let lines = text.split(|&byte| byte == b'\n').take(star as usize);
    let methods = lines.filter(|line| line.starts_with(b"method\t")).count();
    let block = &program.blocks[methods - 1];
    let class = program.class(block.header.expect("a method").class);
    let own = program.classes[class.expect("a class")].fields.len();
    let place = |atom: &Atom| match atom {
        Atom::Permission(_, path) if path.var == THIS => path.slot + 1,
        Atom::Permission(_, path) => own + path.slot + 1,
        other => panic!("no permission: {other:?}"),
    };
    let places = block.requires.iter().map(place);
    places.map(|place| place as u8).collect()
}

/// A text that is filled in: accepted, with one line changed, whose permissions have
/// the places that are given.
fn is_filled_in(station: &mut Station, text: &[u8], filled: &Filled) {
    let fixed = filled.text();
    if fixed.len() <= nuyardi::limits::TEXT_BYTES {
        assert!(station.check(&fixed).is_ok(), "{}", text.escape_ascii());
        assert_eq!(places_read(&fixed, filled.line()), filled.places());
    }
    let lines = |text: &[u8]| -> Vec<Vec<u8>> {
        let lines = text.split(|&byte| byte == b'\n');
        lines.map(<[u8]>::to_vec).collect()
    };
    let (mut before, after) = (lines(text), lines(&fixed));
    let star = &mut before[filled.line() as usize - 1];
    assert_eq!(star, b"requires\t*");
    *star = filled.to_string().into_bytes();
    assert_eq!(before, after);
    assert_eq!(filled.permissions().count(), filled.places().len());
}

/// Texts with a `requires` line to be filled in.
#[test]
fn generated_fills() {
    let mut station = Station::new();
    let (mut lacks, mut sizes) = (BTreeSet::new(), BTreeSet::new());
    for seed in 1_200_000..1_202_000 {
        let text = gen::starred(seed);
        let model = model::fill(&text);
        let found = station.fill(&text);
        assert_eq!(found, nuyardi::fill(&text));
        match found {
            Ok(filled) => {
                let mut places = model.places.to_vec();
                places.retain(|&place| place != 0);
                assert_eq!((model.number, places.as_slice()), (0, filled.places()));
                is_filled_in(&mut station, &text, &filled);
                sizes.insert(places.len());
            }
            Err(none) => {
                assert_eq!((none.number(), none.line()), (model.number, model.line));
                match none {
                    NotFilled::Refused(refusal) => assert!(refusal.number() < 10),
                    NotFilled::Read { lack, .. } => {
                        lacks.insert(lack);
                    }
                    other => panic!("a reason that the model does not know: {other:?}"),
                }
            }
        }
    }
    assert!(lacks.iter().eq(Lack::ALL), "{lacks:?}");
    assert!(sizes.into_iter().eq(0..=nuyardi::limits::FILLED));
}

/// A set in words, and one that there is not.
#[test]
fn fills_in_words() {
    let said = |text: &[u8]| match nuyardi::fill(text) {
        Ok(filled) => format!("{filled:?} {filled}").replace('\t', " "),
        Err(none) => none.to_string(),
    };
    assert_eq!(
        said(include_bytes!("../../../examples/fill.script")),
        "Filled { line: 6, places: [1, 2, 6], .. } requires acc this prev acc this tag acc old seen"
    );
    let starts = "line 4: no permissions with which a `requires *` is accepted (number 17); ";
    let none = said(include_bytes!("../../../examples/refused-17.script"));
    assert!(none.starts_with(starts), "{none}");
    assert!(said(b"main\nend\n").starts_with("no `requires *` to be filled in, or a second one"));
    assert!(said(b"main\nend").starts_with("line 2: a byte that is not allowed in a text"));
}

/// Counts of up to four scripts: each as run has it alone, where the share is the
/// whole heap or the run stays within it.
#[test]
fn generated_counts() {
    let mut station = Station::new();
    let (mut counted, mut alone, mut refused) = (0, 0, 0);
    for seed in 1_300_000..1_301_500 {
        let day = gen::count_day(seed);
        let scripts = day.texts.iter().zip(day.shares).cycle();
        let scripts = scripts.map(|(text, share)| Share::new(text, share));
        let scripts: Vec<Share> = scripts.take(day.scripts.min(5) as usize).collect();
        let texts = day.texts.each_ref().map(Vec::as_slice);
        let model = model::count(day.scripts.min(5), day.rounds, texts, day.shares);
        let found = station.count(&scripts, day.rounds);
        assert_eq!(found, nuyardi::count(&scripts, day.rounds));
        let Ok(found) = found else {
            assert_eq!(found, Err(NotCounted::Shares));
            assert_eq!(model.number, NotCounted::Shares.number());
            refused += 1;
            continue;
        };
        assert_eq!((model.number, found.scripts().count()), (0, scripts.len()));
        for ((ended, script), run) in found.scripts().zip(&scripts).zip(model.scripts) {
            let answer = match ended {
                Ok(outcome) => (outcome.number(), outcome.line(), outcome.steps()),
                Err(refusal) => (refusal.number(), refusal.line(), 0),
            };
            assert_eq!(answer, (run.number, run.line, run.steps));
            counted += 1;
            if run.number != Stop::HeapFull.number() {
                assert_eq!(ended, station.run(script.text, day.rounds));
                alone += 1;
            }
        }
    }
    assert!(refused > 20 && alone > 2_000 && counted - alone > 100);
}

/// No script, a fifth, and shares that do not fit.
#[test]
fn counts_that_are_none() {
    let share = |objects| Share::new(b"main\nend\n", objects);
    let five = [share(1); 5];
    let all: [&[Share]; 5] = [
        &[],
        &five,
        &[share(0)],
        &[share(257)],
        &[share(u32::MAX); 2],
    ];
    for scripts in all {
        assert_eq!(nuyardi::count(scripts, 9), Err(NotCounted::Shares));
    }
    let counted = nuyardi::count(&five[..4], 9).expect("shares that fit");
    let shown = format!("{counted:?}");
    assert_eq!(
        shown.matches("ending: Finished, line: 2, steps: 1").count(),
        4,
        "{shown}"
    );
    let none = NotCounted::Shares.to_string();
    assert!(
        none.starts_with("a count without scripts, or with shares that do not fit (number 19); ")
    );
}

/// A refusal is an error that can be passed on.
#[test]
fn a_refusal_is_an_error() {
    fn checked(text: &[u8]) -> Result<u32, Box<dyn std::error::Error + '_>> {
        let mut station = Station::new();
        Ok(station.run(text, 10)?.steps())
    }
    assert_eq!(checked(b"main\nend\n").expect("accepted"), 1);
    let error = checked(b"main\nend").expect_err("the last line is not ended");
    let words = "line 2: a byte that is not allowed in a text (number 3); separate fields by tabs";
    assert!(error.to_string().starts_with(words), "{error}");
}
