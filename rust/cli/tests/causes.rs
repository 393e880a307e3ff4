//! Messages by cause: scripts as new users wrote them, each with one mistake,
//! and what check says of each, kept in `scripts/answers.txt`.
//!
//! `UPDATE_ANSWERS=1 cargo test -p cli --test causes` writes the answers again.

mod common;

use common::{root, said};
use std::path::PathBuf;

const FOLDER: &str = "rust/cli/tests/scripts";

fn scripts() -> Vec<String> {
    let entries = std::fs::read_dir(root().join(FOLDER)).expect("the scripts");
    let names = entries.map(|entry| entry.expect("an entry").file_name());
    let mut names: Vec<String> = names
        .map(|name| name.into_string().expect("a name"))
        .filter(|name| name.ends_with(".script"))
        .collect();
    names.sort();
    names
}

#[test]
fn answers() {
    let mut fresh = String::new();
    for name in scripts() {
        let file = format!("{FOLDER}/{name}");
        let (out, error, _) = said(&["check", &file], b"");
        assert_eq!(error, "");
        fresh.push_str(&out.replace(&format!("{FOLDER}/"), ""));
    }
    let path: PathBuf = root().join(FOLDER).join("answers.txt");
    if std::env::var_os("UPDATE_ANSWERS").is_some() {
        std::fs::write(path, fresh).expect("the answers are written");
        return;
    }
    let kept = std::fs::read_to_string(path).expect("the answers");
    for (at, (kept, fresh)) in kept.lines().zip(fresh.lines()).enumerate() {
        assert_eq!(kept, fresh, "line {} of the answers", at + 1);
    }
    assert_eq!(kept, fresh);
}

/// The first line of every refusal names its cause, and not the number's row of the
/// table.
#[test]
fn every_refusal_has_a_cause() {
    let mut refused = 0;
    for name in scripts() {
        let (out, _, status) = said(&["check", &format!("{FOLDER}/{name}")], b"");
        if status == 1 {
            refused += 1;
            for line in out.lines().filter(|line| line.contains("refused, number ")) {
                let (number, why) = line
                    .split_once("number ")
                    .and_then(|(_, rest)| rest.split_once(": "))
                    .expect("a number and words");
                let number = number.parse().expect("a number");
                let known = nuyardi::explain(number).expect("it is explained");
                assert!(!why.is_empty() && why != known.title, "{line}");
            }
            assert!(!out.contains("   what: "), "{out}");
        }
    }
    assert!(refused > 65, "{refused}");
}

/// Random texts of every kind: each refusal that the reader or a rule gives has
/// a cause, whose marks stand in the line.
#[test]
fn causes_of_random_texts() {
    let folder = common::folder("random");
    let count = 400;
    for seed in 0..count {
        let text = generator::text(0x5000_0000 + seed);
        std::fs::write(folder.join(format!("{seed:04}.script")), text).expect("written");
    }
    let (out, error, _) = said(&["check", "--json", folder.to_str().expect("a name")], b"");
    assert_eq!(error, "");
    let (mut refused, mut causes) = (0, 0);
    for line in out
        .lines()
        .filter(|line| line.contains("\"accepted\":false"))
    {
        refused += 1;
        causes += usize::from(line.contains("\"cause\":"));
    }
    assert_eq!(out.lines().count() as u64, count);
    assert_eq!(causes, refused, "every refusal has a cause");
    assert!(refused > 100, "{refused}");
}
