//! How long the files, functions and contracts of the code are.

use crate::{functions, Clause, Source};

/// The most lines of a file.
const FILE: usize = 300;

/// The most lines of a function, its contract with it.
const FUNCTION: usize = 39;

/// The most characters of a clause of a contract, from brace to brace, with single blanks.
const CLAUSE: usize = 200;

fn code(sources: &[Source]) -> impl Iterator<Item = &Source> {
    sources.iter().filter(|source| source.is_code())
}

pub fn long_files(sources: &[Source]) -> Vec<String> {
    let lengths = code(sources).map(|source| (source, source.text.lines().count()));
    lengths
        .filter(|(_, lines)| *lines > FILE)
        .map(|(source, lines)| format!("{}: {lines} lines, at most {FILE}", source.path()))
        .collect()
}

pub fn long_functions(sources: &[Source]) -> Vec<String> {
    let mut long = Vec::new();
    for source in code(sources) {
        for function in functions(source) {
            let (place, name) = (source.line(function.lines.start), &function.name);
            let lines = function.lines.len();
            if lines > FUNCTION {
                long.push(format!(
                    "{place}: {name} has {lines} lines, at most {FUNCTION}"
                ));
            }
        }
    }
    long
}

fn long_clause(source: &Source, name: &str, clause: &Clause) -> Option<String> {
    let (place, word) = (source.line(clause.line), clause.word);
    let length = clause.text.chars().count();
    let told = || format!("{place}: `{word}` of {name} has {length} characters, at most {CLAUSE}");
    (length > CLAUSE).then(told)
}

pub fn long_clauses(sources: &[Source]) -> Vec<String> {
    let mut long = Vec::new();
    for source in code(sources) {
        for function in functions(source) {
            let clauses = function.clauses.iter();
            long.extend(clauses.filter_map(|clause| long_clause(source, &function.name, clause)));
        }
    }
    long
}
