//! The numbers that the assurance states are those of the sources.

use sources::{believed, functions, root, sources, Document};
use std::fs;

fn assurance() -> String {
    Document::of("docs/ASSURANCE.md").text
}

/// The number that stands before or after these words on the page, wherever they stand.
fn numbers(page: &str, before: &str, after: &str) -> Vec<usize> {
    let mut found = Vec::new();
    for (at, _) in page.match_indices(before) {
        let rest = &page[at + before.len()..];
        let digits = rest
            .find(|c: char| !c.is_ascii_digit())
            .unwrap_or(rest.len());
        if rest[digits..].starts_with(after) {
            found.extend(rest[..digits].parse::<usize>());
        }
    }
    found
}

fn expect_all(told: Vec<usize>, right: usize, words: &str) {
    assert!(
        !told.is_empty(),
        "docs/ASSURANCE.md no longer says: {words}"
    );
    let wrong: Vec<usize> = told.into_iter().filter(|n| *n != right).collect();
    assert!(wrong.is_empty(), "{words}: {right}, not {wrong:?}");
}

#[test]
fn numbers_are_found_between_words() {
    let page = "has functions=12 sum, 3 of 45 mutants and 6 of 45 more";
    assert_eq!(numbers(page, "functions=", " sum"), [12]);
    assert_eq!(numbers(page, " of ", " mutants"), [45]);
    assert_eq!(numbers(page, " of ", " cards"), []);
}

/// The line that `rt check` prints of `station` has the count of its functions.
#[test]
fn functions_of_station() {
    let all = sources();
    let station = all.iter().filter(|source| source.crate_name == "station");
    let count = station.map(|source| functions(source).len()).sum();
    expect_all(
        numbers(&assurance(), "logic=proved functions=", " sum="),
        count,
        "functions of station",
    );
}

#[test]
fn files_that_must_be_believed() {
    let words = " files of definitions and statements";
    expect_all(numbers(&assurance(), ": ", words), believed().len(), words);
}

#[test]
fn wrong_definitions() {
    let tables = fs::read_dir(root().join("tools/mutants")).expect("the tables");
    let tables = tables.map(|entry| entry.expect("an entry").path());
    let edits = tables.filter(|path| path.extension().is_some_and(|end| end == "edits"));
    let texts = edits.map(|path| fs::read_to_string(path).expect("a table"));
    let count: usize = texts
        .map(|text| text.lines().filter(|l| l.starts_with("mutant: ")).count())
        .sum();
    let page = assurance();
    expect_all(
        numbers(&page, " have ", " wrong definitions"),
        count,
        "wrong definitions",
    );
    expect_all(numbers(&page, " of ", " mutants refused"), count, "mutants");
    expect_all(
        numbers(&page, "each of ", " wrong definitions"),
        count,
        "mutants told apart",
    );
}
