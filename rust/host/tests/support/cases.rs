//! The files of cases that the model's tests hold it to, line by line.
#![allow(dead_code)]

use generator::days::CountDay;
use std::collections::BTreeSet;
use std::path::{Path, PathBuf};

/// A line of a file: `run/W/R 9 TEXT = ANSWER`, with W and R where the areas
/// have not the usual lengths.
pub struct Case {
    pub call: String,
    pub lengths: Vec<usize>,
    pub given: Given,
}

/// What a call is given beside its areas.
pub enum Given {
    Nothing,
    Text(Vec<u8>),
    Steps(u32, Vec<u8>),
    Count(CountDay),
}

fn bytes(hex: &str) -> Option<Vec<u8>> {
    if hex == "-" {
        return Some(Vec::new());
    }
    let digits = |at: usize| u8::from_str_radix(hex.get(at..at + 2)?, 16).ok();
    (0..hex.len()).step_by(2).map(digits).collect()
}

/// The count of scripts, the rounds and the shares, and the texts.
fn day(numbers: [&str; 6], texts: [&str; 4]) -> Option<CountDay> {
    let all = |numbers: &[&str]| -> Option<Vec<u32>> {
        numbers.iter().map(|number| number.parse().ok()).collect()
    };
    let numbers = all(&numbers)?;
    let texts: Vec<Vec<u8>> = texts.into_iter().map(bytes).collect::<Option<_>>()?;
    Some(CountDay {
        scripts: numbers[0],
        rounds: numbers[1],
        shares: numbers[2..].try_into().ok()?,
        texts: texts.try_into().ok()?,
    })
}

impl Given {
    fn of(fields: &[&str]) -> Option<Given> {
        Some(match *fields {
            [] => Given::Nothing,
            [text] => Given::Text(bytes(text)?),
            [steps, text] => Given::Steps(steps.parse().ok()?, bytes(text)?),
            [n, rounds, a, b, c, d, one, two, three, four] => {
                let texts = [one, two, three, four];
                Given::Count(day([n, rounds, a, b, c, d], texts)?)
            }
            _ => return None,
        })
    }
}

impl Case {
    pub fn of(line: &str) -> Option<Case> {
        let (left, _) = line.split_once(" = ")?;
        let fields: Vec<&str> = left.split(' ').collect();
        let (call, rest) = fields.split_first()?;
        let mut parts = call.split('/');
        let name = parts.next()?.to_string();
        let lengths = parts.map(|length| length.parse().ok());
        Some(Case {
            call: name,
            lengths: lengths.collect::<Option<_>>()?,
            given: Given::of(rest)?,
        })
    }

    /// Is it of W14's program, which reads nothing?
    pub fn is_small(&self) -> bool {
        self.call == "small" && matches!(self.given, Given::Nothing)
    }

    /// Is it of a program and not of a call?
    pub fn is_program(&self) -> bool {
        self.is_small() || self.of_program().is_some()
    }

    /// The text, if it is of document 01's program.
    pub fn of_program(&self) -> Option<&[u8]> {
        match &self.given {
            Given::Text(text) if self.call == "program" => Some(text),
            _ => None,
        }
    }
}

/// A file of cases: its name, and its lines but for comments.
pub struct File {
    pub name: String,
    pub lines: Vec<String>,
}

impl File {
    pub fn cases(&self) -> impl Iterator<Item = Case> + '_ {
        let name = &self.name;
        let case = move |line: &String| {
            Case::of(line).unwrap_or_else(|| panic!("{name} has a line that is no case: {line}"))
        };
        self.lines.iter().map(case)
    }
}

fn tests() -> PathBuf {
    Path::new(env!("CARGO_MANIFEST_DIR")).join("../model/tests")
}

/// The files that a test takes in by their names.
pub fn taken_in(test: &str) -> BTreeSet<String> {
    let names = test.split("include_str!(\"cases/").skip(1);
    names
        .filter_map(|rest| Some(rest.split_once('"')?.0.to_string()))
        .collect()
}

/// Every file of cases. They are those that the model's test takes in: none is
/// passed over here or there.
pub fn files() -> Vec<File> {
    let test = std::fs::read_to_string(tests().join("cases.rs")).expect("the model's test");
    let folder = std::fs::read_dir(tests().join("cases")).expect("the cases");
    let names = folder.map(|entry| entry.expect("an entry").file_name());
    let names: BTreeSet<String> = names
        .map(|name| name.into_string().expect("a plain name"))
        .collect();
    let to_do = "the model's test must take in each file of cases, and each must be there";
    assert_eq!(names, taken_in(&test), "{to_do}");
    names.into_iter().map(file).collect()
}

fn file(name: String) -> File {
    let text = std::fs::read_to_string(tests().join("cases").join(&name)).expect("a file");
    let lines = text.lines().filter(|line| !line.starts_with('#'));
    let lines: Vec<String> = lines.map(str::to_string).collect();
    assert!(!lines.is_empty(), "{name} has no case");
    File { name, lines }
}
