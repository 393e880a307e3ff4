//! The C header: its sizes and numbers, C programs that use it, and the stack
//! that each call takes.

#[path = "support/c.rs"]
mod c;
#[path = "support/workloads.rs"]
mod workloads;

use nuyardi::{limits, Excess, Kind, Lack, NotCounted, Stop};
use std::collections::BTreeMap;
use std::path::Path;
use std::process::Command;

/// What the header promises of the stack.
const STACK_BYTES: usize = 64 * 1_024;

fn header() -> String {
    let path = Path::new(env!("CARGO_MANIFEST_DIR")).join("../../include/station.h");
    std::fs::read_to_string(path).expect("the header")
}

/// The header's sizes are those of the type `Machine`.
#[test]
fn sizes() {
    let header = header();
    let sizes: BTreeMap<&str, usize> = header
        .lines()
        .filter_map(|line| line.strip_prefix("#define STATION_")?.split_once(' '))
        .filter_map(|(name, value)| Some((name, value.parse().ok()?)))
        .collect();
    let machine = BTreeMap::from([
        ("WORK_BYTES", limits::WORK_BYTES),
        ("RESULTS_BYTES", limits::RESULTS_BYTES),
        ("TEXT_BYTES", limits::TEXT_BYTES),
        ("BOUNDS_BYTES", limits::BOUNDS_BYTES),
        ("PLACES_BYTES", limits::PLACES_BYTES),
        ("VALUES", limits::VALUES),
        ("BOUND", limits::BOUND),
        ("FILLED", limits::FILLED),
        ("SCRIPTS", limits::SCRIPTS),
        ("SCRIPT_BYTES", limits::SCRIPT_BYTES),
        ("COUNT_BYTES", limits::COUNT_BYTES),
        ("FIELDS_EACH", limits::FIELDS_EACH),
        ("OBJECTS", limits::OBJECTS),
        ("FIELDS", limits::FIELDS),
        ("FRAMES", limits::FRAMES),
        ("STACK_BYTES", STACK_BYTES),
    ]);
    assert_eq!(sizes, machine);
    assert_eq!(limits::RESULTS_BYTES, 4 * (1 + limits::VALUES));
    assert_eq!(limits::SCRIPT_BYTES, 4 + limits::RESULTS_BYTES);
    assert_eq!(limits::COUNT_BYTES, limits::SCRIPTS * limits::SCRIPT_BYTES);
}

/// The model, made from document 01 alone, has the same limits.
#[test]
fn limits_of_the_model() {
    use model::limits as model;
    let pairs = [
        (limits::TEXT_BYTES, model::TEXT_BYTES),
        (limits::CLASSES, model::CLASSES),
        (limits::CLASS_FIELDS, model::FIELDS),
        (limits::METHODS, model::METHODS),
        (limits::LOCALS, model::LOCALS),
        (limits::STATEMENTS, model::STATEMENT_LINES),
        (limits::BRANCHES, model::NESTING),
        (limits::NAME_BYTES, model::NAME_BYTES),
        (limits::ATOMS, model::ATOMS),
        (limits::PERMISSIONS, model::PERMISSIONS),
        (limits::FACTS, model::FACTS),
        (limits::OBJECTS, model::OBJECTS),
        (limits::FIELDS, model::HEAP_FIELDS),
        (limits::FRAMES, model::FRAMES),
        (limits::WORK_BYTES, model::WORK_BYTES),
        (limits::RESULTS_BYTES, model::RESULT_BYTES),
        (limits::VALUES, model::LOCALS),
        (limits::BOUNDS_BYTES, model::BOUND_BYTES),
        (limits::BOUND, model::BOUND as usize),
        (limits::PLACES_BYTES, model::PLACE_BYTES),
        (limits::FILLED, model::FILLED_ATOMS),
        (limits::SCRIPTS, model::SCRIPTS),
        (limits::SCRIPT_BYTES, model::SCRIPT_BYTES),
        (limits::COUNT_BYTES, model::COUNT_BYTES),
        (limits::FIELDS_EACH, model::SHARE_FIELDS),
        (limits::PROGRAM_STEPS, model::PROGRAM_STEPS as usize),
    ];
    for (at, (ours, theirs)) in pairs.into_iter().enumerate() {
        assert_eq!(ours, theirs, "limit {at}");
    }
}

/// `TextTooLong` as the header writes it: `TEXT_TOO_LONG`.
fn in_capitals(name: &str) -> String {
    let mut capitals = String::new();
    for letter in name.chars() {
        if letter.is_uppercase() && !capitals.is_empty() {
            capitals.push('_');
        }
        capitals.push(letter.to_ascii_uppercase());
    }
    capitals
}

/// The header names every number, as the Rust API does.
#[test]
fn numbers() {
    let header = header();
    let named: Vec<(String, u32)> = header
        .lines()
        .filter_map(|line| line.trim().strip_prefix("STATION_")?.split_once(" = "))
        .map(|(name, rest)| {
            let digits: String = rest.chars().take_while(char::is_ascii_digit).collect();
            (name.to_string(), digits.parse().expect("a number"))
        })
        .collect();
    let own = [("DONE".to_string(), 0), ("AREA_LENGTH".to_string(), 1)];
    let kinds = Kind::ALL
        .iter()
        .map(|kind| (format!("{kind:?}"), kind.number()));
    let excesses = Excess::ALL
        .iter()
        .map(|excess| (format!("{excess:?}"), excess.number()));
    let lacks = Lack::ALL
        .iter()
        .map(|lack| (format!("{lack:?}"), lack.number()));
    let counts = NotCounted::ALL
        .iter()
        .map(|none| (format!("{none:?}"), none.number()));
    let stops = Stop::ALL
        .iter()
        .map(|stop| (format!("{stop:?}"), stop.number()));
    let cases = kinds
        .chain(excesses)
        .chain(lacks)
        .chain(counts)
        .chain(stops)
        .map(|(name, number)| (in_capitals(&name), number));
    assert_eq!(named, own.into_iter().chain(cases).collect::<Vec<_>>());
}

/// The names of functions that the header declares.
fn declared() -> Vec<String> {
    let header = header();
    let names = header.lines().filter_map(|line| {
        let (_, rest) = line.split_once(" station_")?;
        let (name, _) = rest.split_once('(')?;
        line.starts_with(|letter: char| letter.is_ascii_lowercase())
            .then(|| name.to_string())
    });
    names.collect()
}

/// The library defines the header's functions and no other global name; they are
/// the exported functions of `station_c`.
#[test]
fn global_names() {
    let output = Command::new("nm")
        .args(["--extern-only", "--defined-only", "--format=posix"])
        .arg(concat!(env!("OUT_DIR"), "/libnuyardi.a"))
        .output()
        .expect("nm");
    let printed = String::from_utf8_lossy(&output.stdout);
    let mut names: Vec<&str> = printed
        .lines()
        .filter_map(|line| line.split_once(" T "))
        .map(|(name, _)| name)
        .collect();
    names.sort();
    // The lines that define names: the archive's own line has none.
    assert_eq!(printed.lines().count(), names.len() + 1, "{printed}");
    let mut functions: Vec<String> = declared();
    functions.sort();
    let with_prefix: Vec<String> = functions
        .iter()
        .map(|name| format!("station_{name}"))
        .collect();
    assert_eq!(names, with_prefix);
    let sources = Path::new(env!("CARGO_MANIFEST_DIR")).join("../../crates/station_c/src");
    let source: String = std::fs::read_dir(sources)
        .expect("the sources")
        .map(|entry| std::fs::read_to_string(entry.expect("a file").path()).expect("a source"))
        .collect();
    let mut exported: Vec<&str> = source
        .lines()
        .filter_map(|line| line.split_once("pub extern \"C\" fn ")?.1.split_once('('))
        .map(|(name, _)| name)
        .collect();
    exported.sort();
    assert_eq!(exported, functions);
}

/// The header alone, by the strictest words: C99, and C++ where there is a compiler of it.
#[test]
fn header_by_itself() {
    let header = Path::new(env!("CARGO_MANIFEST_DIR")).join("../../include/station.h");
    for (compiler, words) in [
        ("gcc", ["-std=c99", "-xc"]),
        ("g++", ["-std=c++11", "-xc++"]),
    ] {
        let output = Command::new(compiler)
            .args(["-pedantic", "-Wall", "-Wextra", "-Werror", "-fsyntax-only"])
            .args(words)
            .arg(&header)
            .output();
        match output {
            Ok(output) => assert!(
                output.status.success(),
                "{compiler}: {}",
                String::from_utf8_lossy(&output.stderr)
            ),
            Err(error) => assert_ne!(compiler, "gcc", "{error}"),
        }
    }
}

#[test]
fn called_from_c() {
    let output = Command::new(c::compiled("calls"))
        .output()
        .expect("the program");
    let printed = String::from_utf8_lossy(&output.stdout);
    assert_eq!(
        (printed.as_ref(), output.status.code()),
        ("right\n", Some(0))
    );
}

/// The answers of a C program with areas fresh from malloc are the model's.
#[test]
fn replayed() {
    let texts = (0..150).map(generator::text);
    let texts: Vec<Vec<u8>> = texts.chain((0..150).map(generator::starred)).collect();
    c::as_expected(
        Command::new(c::compiled("replay")),
        "replay-texts",
        &texts,
        500,
    );
}

/// Each call takes less than 64 KB of stack, on every text that is timed and
/// on generated ones; and the measure itself sees something.
#[test]
fn stack() {
    let timed = workloads::all().into_iter().map(|workload| workload.text);
    let generated = (0..200).map(generator::text);
    let generated = generated.chain((0..100).map(generator::starred));
    let names = c::files("stack-texts", timed.chain(generated));
    let output = Command::new(c::compiled("stack"))
        .arg("2000")
        .args(&names)
        .output();
    let output = output.expect("the program");
    assert!(output.status.success());
    let printed = String::from_utf8_lossy(&output.stdout);
    let mut most =
        ["check", "run", "trial", "bound", "lean", "fill", "count"].map(|call| (call, 0));
    let mut rows = 0;
    for line in printed.lines() {
        let mut words = line.split(' ').map(|word| word.parse::<usize>());
        for (_, bytes) in &mut most {
            let measured = words.next().and_then(Result::ok).expect("bytes");
            *bytes = measured.max(*bytes);
        }
        rows += 1;
    }
    println!("stack, bytes: {most:?}");
    assert_eq!(rows, names.len());
    for (call, bytes) in most {
        assert!((256..STACK_BYTES).contains(&bytes), "{call} takes {bytes}");
    }
}
