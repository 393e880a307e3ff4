//! The library beside the model: cases, examples, a million generated texts.

#[path = "support/cases.rs"]
mod cases;
#[path = "support/compare.rs"]
mod compare;
#[path = "support/days.rs"]
mod days;

use cases::{Case, Given};
use compare::{
    compare_seeds, lean_of, run_of, trial_of, Call, Comparer, Counts, Runs, Texts, BOUND, CHECK,
    FILLED,
};
use days::{compare_days, DayComparer};
use generator::days::CountDay;
use nuyardi::calls::raw;
use nuyardi::limits::WORK_BYTES;
use nuyardi::limits::{BOUNDS_BYTES, COUNT_BYTES, PLACES_BYTES, RESULTS_BYTES, TEXT_BYTES};
use nuyardi::Returned;
use std::ops::RangeInclusive;
use std::path::Path;

/// The call of a case on one text; none if it is of a program or of a count.
fn call_of(case: &Case) -> Option<(&[u8], Call)> {
    let mut lengths = case.lengths.iter().copied();
    let mut length = |usual| lengths.next().unwrap_or(usual);
    let work = length(WORK_BYTES);
    Some(match (case.call.as_str(), &case.given) {
        ("check", Given::Text(text)) => (text, Call::Check { work }),
        ("bound", Given::Text(text)) => {
            let bounds = length(BOUNDS_BYTES);
            (text, Call::Bound { work, bounds })
        }
        ("fill", Given::Text(text)) => {
            let places = length(PLACES_BYTES);
            (text, Call::Fill { work, places })
        }
        (name, Given::Steps(steps, text)) => {
            let call = Call::Run {
                by: Runs::named(name)?,
                work,
                steps: *steps,
                results: length(RESULTS_BYTES),
            };
            (text, call)
        }
        _ => return None,
    })
}

/// The count of a case, with the lengths of its areas.
fn day_of(case: &Case) -> Option<(&CountDay, [usize; 2])> {
    let mut lengths = case.lengths.iter().copied();
    let mut length = |usual| lengths.next().unwrap_or(usual);
    match &case.given {
        Given::Count(day) if case.call == "count" => {
            Some((day, [length(WORK_BYTES), length(COUNT_BYTES)]))
        }
        _ => None,
    }
}

/// Library and model on a case; false if it is of a program.
fn compared(case: &Case, comparer: &mut Comparer, days: &mut DayComparer) -> bool {
    if let Some((text, call)) = call_of(case) {
        if let Err(difference) = comparer.call(text, call) {
            panic!("{difference}");
        }
    } else if let Some((day, lengths)) = day_of(case) {
        if let Err(difference) = days.call(day, lengths) {
            panic!("{difference}");
        }
    } else {
        return false;
    }
    true
}

/// Every line of the model's files, but for those of the programs, which have
/// tests of their own (`program.rs`). The model's tests hold it to the answers that
/// stand there.
#[test]
fn every_case() {
    let (mut comparer, mut days) = (Comparer::new(1), DayComparer::new(1));
    for file in cases::files() {
        let mut all = 0;
        for case in file.cases() {
            let known = compared(&case, &mut comparer, &mut days);
            all += usize::from(known || case.is_program());
        }
        let (name, lines) = (&file.name, file.lines.len());
        assert_eq!(
            all, lines,
            "not every line of {name} is compared: does it name a call?"
        );
        println!("{name}: {all} compared");
    }
}

#[test]
fn lines_that_are_no_case() {
    let known = |line: &str| {
        Case::of(line).is_some_and(|case| call_of(&case).is_some() || day_of(&case).is_some())
    };
    for line in [
        "check 6d = 0 0",
        "check/9 - = 1 0",
        "run/9/8 7 6d = 1 0",
        "trial 7 6d = 0",
        "lean/9/8 7 6d = 1 0",
        "bound/9/8 6d = 1 0",
        "fill/9/8 6d = 1 0",
        "count 1 2 3 4 5 6 6d 6d - 6d = 0 0",
        "count/9/8 1 2 3 4 5 6 6d 6d - 6d = 1 0",
    ] {
        assert!(known(line), "{line}");
    }
    for line in [
        "check 6d",
        "check = 0 0",
        "check 6 = 0 0",
        "check/x 6d = 0 0",
        "check 7 6d = 0 0",
        "run 6d = 0",
        "run x 6d = 0",
        "lean 6d = 0",
        "leen 7 6d = 0",
        "fill 7 6d = 0",
        "chek 6d = 0 0",
        "count 1 2 3 4 5 6d 6d - 6d = 0 0",
        "count 1 2 3 4 5 6 6d 6d - x = 0 0",
        "count 6d = 0 0",
        "run 1 2 3 4 5 6 6d 6d - 6d = 0 0",
        "small 6d = 0a",
        "program = 0a",
    ] {
        assert!(!known(line), "{line}");
        let program = Case::of(line).is_some_and(|case| case.is_program());
        assert!(!program, "{line}");
    }
    let test = "include_str!(\"cases/a.tsv\"), include_str!(\"cases/b.tsv\")";
    assert_eq!(Vec::from_iter(cases::taken_in(test)), ["a.tsv", "b.tsv"]);
}

#[test]
fn every_example() {
    let folder = Path::new(env!("CARGO_MANIFEST_DIR")).join("../../examples");
    let mut comparer = Comparer::new(2);
    let mut examples = 0;
    for entry in std::fs::read_dir(folder).expect("examples") {
        let text = std::fs::read(entry.expect("an entry").path()).expect("an example");
        examples += 1;
        let runs = [0, 7, 1_000, 100_000];
        let runs = runs
            .into_iter()
            .flat_map(|steps| [run_of(steps), trial_of(steps), lean_of(steps)]);
        for call in runs.chain([CHECK, BOUND, FILLED]) {
            if let Err(difference) = comparer.call(&text, call) {
                panic!("{difference}");
            }
        }
    }
    assert!(examples >= 20, "only {examples} examples");
}

/// Texts of every length around the longest one, and all of one byte.
#[test]
fn lengths_and_single_bytes() {
    let mut comparer = Comparer::new(3);
    let mut texts: Vec<Vec<u8>> = (0..=255).map(|byte| vec![byte]).collect();
    for length in [TEXT_BYTES - 1, TEXT_BYTES, TEXT_BYTES + 1, 2 * TEXT_BYTES] {
        for byte in [b'a', b'\n', b'\t', 0] {
            texts.push(vec![byte; length]);
        }
        let filled = b"class\tC\nfield\tint\tn\nmain\nend\n".iter().cycle();
        texts.push(filled.copied().take(length).collect());
    }
    for text in texts {
        for call in [CHECK, run_of(10), trial_of(10), lean_of(10), BOUND, FILLED] {
            if let Err(difference) = comparer.call(&text, call) {
                panic!("{difference}");
            }
        }
    }
}

/// Texts of so many seeds; a fortieth of them without optimisation. How often
/// each call gave each number.
fn seeds_compared(texts: Texts, seeds: u64) -> Counts {
    let seeds = if cfg!(debug_assertions) {
        seeds / 40
    } else {
        seeds
    };
    let counts = match compare_seeds(texts, 0..seeds) {
        Ok(counts) => counts,
        Err(difference) => panic!("{difference}"),
    };
    let texts: u64 = counts[0].iter().sum();
    println!("{texts} texts");
    for (call, counts) in compare::CALLS.iter().zip(counts) {
        println!("{call} {counts:?}");
    }
    assert_eq!(texts, seeds * (1 + compare::MUTATIONS as u64));
    counts
}

/// A call gave each of these numbers, and no other.
fn gave(call: &str, counts: &[u64], numbers: &[RangeInclusive<usize>]) {
    for (number, &count) in counts.iter().enumerate() {
        let given = numbers.iter().any(|numbers| numbers.contains(&number));
        assert_eq!(count > 0, given, "{call} gave {number} {count} times");
    }
}

#[test]
fn a_million_texts() {
    let [checks, runs, trials, bounds, leans, fills] = seeds_compared(Texts::Any, 50_000);
    let texts: u64 = checks.iter().sum();
    assert!(cfg!(debug_assertions) || texts >= 1_000_000);
    assert_eq!(leans, runs, "lean's numbers are run's");
    gave("check", &checks, &[0..=0, 2..=14]);
    gave("run", &runs, &[0..=0, 2..=14, 21..=23, 27..=27]);
    gave("trial", &trials, &[0..=0, 2..=9, 21..=27]);
    gave("bound", &bounds, &[0..=0, 2..=16]);
    // None of these texts has a star.
    gave("fill", &fills, &[2..=9, 18..=18]);
}

/// W11: a hundred thousand texts with a `requires` line to be filled in; more by
/// `make soak`.
#[test]
fn texts_to_be_filled_in() {
    let [checks, .., fills] = seeds_compared(Texts::Starred, 5_000);
    gave("check", &checks, &[0..=0, 2..=14]);
    gave("fill", &fills, &[0..=0, 2..=9, 17..=18]);
}

/// W12: counts of up to four scripts, 25,000 of them: a hundred thousand scripts;
/// a tenth of them without optimisation, more by `make soak`.
#[test]
fn scripts_in_counts() {
    let days = if cfg!(debug_assertions) {
        2_500
    } else {
        25_000
    };
    let [calls, scripts] = match compare_days(0..days) {
        Ok(counts) => counts,
        Err(difference) => panic!("{difference}"),
    };
    println!("count {calls:?}\nscripts {scripts:?}");
    gave("count", &calls, &[0..=0, 19..=19]);
    let numbers = [0..=0, 2..=14, 21..=23, 27..=27];
    gave("a script of a count", &scripts, &numbers);
}

/// A null text is allowed with length 0: it is the empty text.
#[test]
fn a_null_text() {
    let mut work = vec![0xa5; WORK_BYTES];
    let mut results = [0x5a; RESULTS_BYTES];
    let unfinished = nuyardi::check(b"").err();
    assert_eq!(unfinished.map(|refusal| refusal.number()), Some(8));
    // SAFETY: the areas are as long as is said, and a text of length 0 is not read.
    let checked = unsafe { raw::station_check(std::ptr::null(), 0, work.as_mut_ptr(), WORK_BYTES) };
    assert_eq!(Returned::of(checked).refusal(), unfinished);
    assert!(work.iter().all(|&byte| byte == 0));
    let runs: [raw::Runs; 3] = [raw::station_run, raw::station_trial, raw::station_lean];
    for call in runs {
        work.fill(0xa5);
        results.fill(0x5a);
        // SAFETY: as above.
        let ran = unsafe {
            call(
                std::ptr::null(),
                0,
                work.as_mut_ptr(),
                WORK_BYTES,
                5,
                results.as_mut_ptr(),
                RESULTS_BYTES,
            )
        };
        assert_eq!(Returned::of(ran).refusal(), unfinished);
        assert!(work.iter().chain(&results).all(|&byte| byte == 0));
    }
    let tells: [(raw::Tells, usize); 2] = [
        (raw::station_bound, BOUNDS_BYTES),
        (raw::station_fill, PLACES_BYTES),
    ];
    for (call, bytes) in tells {
        work.fill(0xa5);
        let mut area = vec![0x5a; bytes];
        // SAFETY: as above.
        let told = unsafe {
            call(
                std::ptr::null(),
                0,
                work.as_mut_ptr(),
                WORK_BYTES,
                area.as_mut_ptr(),
                bytes,
            )
        };
        assert_eq!(Returned::of(told).refusal(), unfinished);
        assert!(work.iter().chain(&area).all(|&byte| byte == 0));
    }
}

/// Two threads with areas of their own get the answers that one gets.
#[test]
fn two_threads_at_once() {
    let texts = (0..200).map(generator::text);
    let texts: Vec<Vec<u8>> = texts.chain((0..100).map(generator::starred)).collect();
    let answers = || -> Vec<_> {
        let mut station = nuyardi::Station::new();
        let answer = |text| {
            let (ran, tried) = (station.run(text, 500), station.trial(text, 500));
            let told = (station.bound(text), station.fill(text));
            (ran, tried, station.lean(text, 500), told)
        };
        texts
            .iter()
            .map(|text| text.as_slice())
            .map(answer)
            .collect()
    };
    let alone = answers();
    for _ in 0..20 {
        let (one, two) = std::thread::scope(|scope| {
            let other = scope.spawn(answers);
            (answers(), other.join().expect("the other thread ends"))
        });
        assert_eq!(one, alone);
        assert_eq!(two, alone);
    }
}
