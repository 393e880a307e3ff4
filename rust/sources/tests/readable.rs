//! Every file says what it is for, and every line can be read.

use sources::{expect_none, sources};

/// The most characters of a line; a list of names to unfold stands on one line, however long.
const MOST: usize = 400;

#[test]
fn no_line_is_too_long() {
    let long: Vec<_> = sources()
        .iter()
        .flat_map(|source| {
            source
                .text
                .lines()
                .enumerate()
                .filter_map(|(number, line)| {
                    let length = line.chars().count();
                    let names = line.trim_start().starts_with("unfolding ");
                    (length > MOST && !names).then(|| format!("{}: {length}", source.line(number)))
                })
        })
        .collect();
    expect_none(&long, &format!("over {MOST} characters: break the line"));
}

#[test]
fn every_file_says_what_it_is_for() {
    let silent: Vec<_> = sources()
        .iter()
        .filter(|source| !source.place.ends_with("/Lib.antt") && !source.is_answer())
        .filter(|source| {
            let mark = if source.is_code() { "//" } else { "--" };
            !source.text.trim().is_empty() && !source.text.starts_with(mark)
        })
        .map(|source| source.path())
        .collect();
    expect_none(&silent, "no comment at the head: say what the file is for");
}
