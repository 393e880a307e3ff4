//! Each must-fail edit, and each wrong definition of `tools/mutants`, has the place that it edits. `rt must-fail` and `make mutants` say so
//! too, but only after minutes.

use sources::{edit_fault, edits, expect_none, root, sources, Source};
use std::collections::BTreeMap;
use std::fs;

#[test]
fn every_edit_has_its_place() {
    let files = sources().into_iter();
    let texts: BTreeMap<String, String> = files.map(|file| (file.path(), file.text)).collect();
    let edits = edits();
    assert!(!edits.is_empty(), "no edit is found");
    let faults = edits.iter().filter_map(|edit| {
        let path = |place: &str| format!("crates/{}/{place}", edit.crate_name);
        edit_fault(edit, |place| texts.get(&path(place)).cloned())
    });
    let faults: Vec<String> = faults.collect();
    expect_none(
        &faults,
        "each `old:` must stand in its file exactly once: make the edit again",
    );
}

/// The faults of a table of wrong definitions, each named by its first line.
fn table_faults(table: &str, text: impl Fn(&str) -> Option<String>) -> Vec<String> {
    let mutants = table.split("\nmutant: ").skip(1);
    let faults = mutants.filter_map(|mutant| {
        let (name, lines) = mutant.split_once('\n')?;
        let lines = lines.lines().map(|line| match line.strip_prefix("file: ") {
            Some(file) => format!("file: specs/{file}.antt\n"),
            None => format!("{line}\n"),
        });
        let edit = Source::of("rules", "mutant.edit", &lines.collect::<String>());
        let fault = edit_fault(&edit, &text)?;
        Some(format!("{name}: {fault}"))
    });
    faults.collect()
}

#[test]
fn every_wrong_definition_has_its_place() {
    let tables = fs::read_dir(root().join("tools/mutants")).expect("the tables");
    let paths = tables.map(|entry| entry.expect("an entry").path());
    let edits = paths.filter(|path| path.extension().is_some_and(|end| end == "edits"));
    let rules = root().join("crates/rules");
    let faults = edits.flat_map(|path| {
        let table = fs::read_to_string(&path).expect("a table");
        assert!(table.contains("\nmutant: "), "{path:?} has no mutant");
        table_faults(&table, |place| fs::read_to_string(rules.join(place)).ok())
    });
    let faults: Vec<String> = faults.collect();
    expect_none(
        &faults,
        "each `old:` must stand in its file exactly once: write the edit again",
    );
}

#[test]
fn a_wrong_definition_without_its_place_is_found() {
    let text = |place: &str| (place == "specs/Two.antt").then(|| "a b\nb c\n".to_string());
    let table = "# two\n\nmutant: one\nfile: Two\nold: a\nnew: d\n\nmutant: two\nfile: Two\nold: d\nnew: e\n";
    let told = "two: crates/rules/mutant.edit:3: specs/Two.antt no longer has: d";
    assert_eq!(table_faults(table, text), [told]);
}

/// The fault of an edit of a crate with one file.
fn fault(edit: &str) -> Option<String> {
    let edit = Source::of("one", "must-fail/e.edit", edit);
    let text = |place: &str| (place == "src/lib.rt").then(|| "a b\nb c\n".to_string());
    edit_fault(&edit, text)
}

#[test]
fn an_edit_without_its_place_is_found() {
    for (edit, told) in [
        (
            "file: src/lib.rt\nold: d\nnew: e\n",
            "3: src/lib.rt no longer has: d",
        ),
        (
            "file: src/lib.rt\nold: b\nnew: e\n",
            "3: src/lib.rt has 2 times: b",
        ),
        (
            "file: src/lib.rt\nold: a\nnew: a\n",
            "3: old and new are the same: a",
        ),
        (
            "file: src/lib.rt\nold: a\nnew: d\nold: a\nnew: e\n",
            "5: src/lib.rt no longer has: a",
        ),
        (
            "file: src/more.rt\nold: a\nnew: d\n",
            "1: the crate has no file src/more.rt",
        ),
        (
            "file: proofs/Laws.antt\nold: a\nnew: d\n",
            "1: edit code or definitions, not proofs/Laws.antt",
        ),
        ("old: a\nnew: d\n", "2: no `file:` above"),
        (
            "file: src/lib.rt\nnew: d\n",
            "2: a `new:` without its `old:`",
        ),
        (
            "file: src/lib.rt\nold: a\nold: b\n",
            "3: the `old:` before it has no `new:`",
        ),
        (
            "file: src/lib.rt\nold:a\n",
            "2: neither `file: `, `old: ` nor `new:`: old:a",
        ),
    ] {
        let told = format!("crates/one/must-fail/e.edit:{told}");
        assert_eq!(fault(edit), Some(told));
    }
    for edit in [
        "",
        "file: src/lib.rt\n",
        "file: src/lib.rt\nold: a\nnew: d\nold: c\n",
    ] {
        let told = "crates/one/must-fail/e.edit: an `old:` and its `new:` are missing";
        assert_eq!(fault(edit), Some(told.to_string()), "{edit}");
    }
    let other = Source::of("one", "must-fail/e.edits", "");
    let told = edit_fault(&other, |_| None);
    assert_eq!(
        told,
        Some("crates/one/must-fail/e.edits: its name must end in .edit".to_string())
    );
}

#[test]
fn an_edit_goes_on_from_what_is_above() {
    for edit in [
        "file: src/lib.rt\nold: a\nnew:\n",
        "# c and a change places\n\nfile: src/lib.rt\nold: a\nnew:  c\nold: b c\nnew: b a\n",
    ] {
        assert_eq!(fault(edit), None, "{edit}");
    }
}
