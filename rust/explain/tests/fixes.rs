//! What the fixes are worth: of every accepted example one line or one atom is
//! deleted, and of the texts that are then refused those are counted that
//! `fix` makes accepted. None may be made worse.

use explain::fix::{fix, ONE_STEP, WHOLE};
use std::path::Path;
use std::time::Instant;

/// The accepted scripts of `examples/`.
fn accepted() -> Vec<(String, String)> {
    let folder = Path::new(env!("CARGO_MANIFEST_DIR")).join("../../examples");
    let mut found = Vec::new();
    for entry in std::fs::read_dir(folder).expect("examples") {
        let path = entry.expect("an entry").path();
        if path.extension().is_some_and(|end| end == "script") {
            let text = std::fs::read_to_string(&path).expect("a script");
            if model::check(text.as_bytes()).0 == 0 {
                let name = path.file_stem().expect("a name").to_string_lossy();
                found.push((name.into_owned(), text));
            }
        }
    }
    found.sort();
    found
}

/// The text without each of its lines, and each line without each of its atoms.
fn shortened(text: &str) -> Vec<String> {
    let lines: Vec<&str> = text.lines().collect();
    let mut found = Vec::new();
    for at in 0..lines.len() {
        let mut fewer = lines.clone();
        fewer.remove(at);
        found.push(fewer.join("\n") + "\n");
        let fields: Vec<&str> = lines[at].split('\t').collect();
        let first = match fields[0] {
            "requires" | "ensures" | "join" | "assert" | "release" => 1,
            "loop" => 4,
            _ => continue,
        };
        for atom in (first..fields.len()).step_by(3) {
            let rest = [&fields[..atom], &fields[atom + 3..]].concat().join("\t");
            let mut fewer = lines.clone();
            fewer[at] = &rest;
            found.push(fewer.join("\n") + "\n");
        }
    }
    found.retain(|text| model::check(text.as_bytes()).0 != 0);
    found.sort();
    found.dedup();
    found
}

/// The order in which the tests of a text are made.
fn stage(number: u32) -> u32 {
    match number {
        3..=5 => 1,
        8 => 2,
        6 | 7 | 9 => 3,
        10 => 4,
        0 => 9,
        _ => 5,
    }
}

#[test]
fn deleted_lines_and_atoms() {
    let (mut all, mut whole, mut stepped, mut in_one) = (0, 0, 0, 0);
    let mut slowest = 0;
    for (name, text) in accepted() {
        for short in shortened(&text) {
            all += 1;
            let before = model::check(short.as_bytes());
            let start = Instant::now();
            let found = fix(short.as_bytes(), WHOLE);
            slowest = slowest.max(start.elapsed().as_millis());
            let one = fix(short.as_bytes(), ONE_STEP);
            in_one += usize::from(one.as_ref().is_some_and(|fix| fix.accepted()));
            stepped += usize::from(one.is_some());
            for fix in [&found, &one].into_iter().flatten() {
                assert_eq!(model::check(&fix.text), fix.answer, "{name}");
                assert!(
                    stage(fix.answer.0) >= stage(before.0),
                    "{name}: worse\n{short}"
                );
            }
            if std::env::var_os("SHOW_FIXES").is_some() {
                println!(
                    "=== {name} {before:?} {}",
                    found.as_ref().map_or(String::new(), |fix| fix.said())
                );
            }
            if found.as_ref().is_some_and(|fix| fix.accepted()) {
                whole += 1;
            } else if std::env::var_os("SHOW_UNFIXED").is_some() {
                println!(
                    "--- {name}: {before:?} {:?}\n{short}",
                    found.map(|fix| fix.said())
                );
            }
        }
    }
    println!(
        "{all} texts: {whole} accepted after all fixes, {in_one} after the first, {stepped} with \
         a first fix; the slowest took {slowest} ms"
    );
    assert!(all >= 222, "{all}");
    assert!(whole * 100 >= all * 97, "{whole} of {all}");
    assert!(in_one * 100 >= all * 85, "{in_one} of {all}");
}
