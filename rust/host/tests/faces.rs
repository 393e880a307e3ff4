//! The package for R says what the header says. (That for Python has tests of its own.)

use std::path::Path;

fn text(name: &str) -> String {
    let path = Path::new(env!("CARGO_MANIFEST_DIR"))
        .join("../..")
        .join(name);
    std::fs::read_to_string(path).unwrap_or_else(|error| panic!("{name}: {error}"))
}

/// The header's sizes, by name with its prefix.
fn sizes(header: &str) -> Vec<(&str, &str)> {
    let lines = header.lines().filter_map(|line| {
        let (name, value) = line.strip_prefix("#define ")?.split_once(' ')?;
        let digits = value.chars().all(|letter| letter.is_ascii_digit());
        digits.then_some((name, value))
    });
    // A name that begins another comes after it.
    let mut sizes: Vec<_> = lines.collect();
    sizes.sort_by_key(|(name, _)| std::cmp::Reverse(name.len()));
    sizes
}

/// Number and meaning of each case of the header, with sizes in place of their names.
fn meanings_of_the_header() -> Vec<(String, String)> {
    let header = text("include/station.h");
    let sizes = sizes(&header);
    let case = |line: &str| {
        let (_, rest) = line.trim().strip_prefix("STATION_")?.split_once(" = ")?;
        let (number, comment) = rest.split_once("/* ")?;
        let meaning = comment.strip_suffix(" */")?.to_string();
        let filled = sizes.iter().fold(meaning, |meaning, (name, value)| {
            meaning.replace(name, value)
        });
        let number = number.trim_end_matches([',', ' ']);
        Some((number.to_string(), filled))
    };
    header.lines().filter_map(case).collect()
}

#[test]
fn meanings() {
    let source = text("R/nuyardi/R/answers.R");
    let row = |line: &str| {
        let (number, meaning) = line.strip_prefix("  \"")?.split_once("\" = \"")?;
        let meaning = meaning.trim_end_matches(',').strip_suffix('"')?;
        Some((number.to_string(), meaning.to_string()))
    };
    let theirs: Vec<_> = source.lines().filter_map(row).collect();
    assert!(theirs.len() > 20, "{theirs:?}");
    assert_eq!(theirs, meanings_of_the_header());
}

#[test]
fn version() {
    let described = text("R/nuyardi/DESCRIPTION");
    let version = format!("Version: {}", text("VERSION").trim());
    assert!(
        described.lines().any(|line| line == version),
        "{version} in R/nuyardi/DESCRIPTION"
    );
}
