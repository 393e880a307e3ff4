//! The sources of the proved crates as text: what each file declares, imports and names.
//!
//! The tests of this crate hold the sources to what no prover asks: nothing stands there that nobody uses, every line can be
//! read, no file, function or contract is long, numbers have names, each must-fail edit has its place, and the documents name
//! what there is. Names go by module: a name counts as used by another file only if that file imports it.

use std::collections::{BTreeMap, BTreeSet};
use std::fs;
use std::path::{Path, PathBuf};

mod believed;
mod declared;
mod documents;
mod edits;
mod functions;
mod imports;
mod index;
mod named;
mod numbers;
mod papers;
mod quotes;
mod shape;
mod unused;
mod words;

pub use believed::{believed, closure, imported, listed};
pub use declared::{declarations, Declaration};
pub use documents::{
    crates_not_told, documents, files_told, listed_crates, proved_crates, shown_counts, Counts,
    Document,
};
pub use edits::{edit_fault, edits};
pub use functions::{functions, Clause, Function};
pub use imports::{imports, Import};
pub use index::Index;
pub use named::Names;
pub use numbers::bare_numbers;
pub use papers::{papers, plain, Paper, Sentence};
pub use quotes::{quotes, Quote};
pub use shape::{long_clauses, long_files, long_functions};
pub use unused::{unused_declarations, unused_imports, File};
pub use words::{avoided_words, texts_for_people, Avoided, AVOIDED};

/// Names that open all others of their file, so that standing there is no use.
const UMBRELLAS: [&str; 2] = ["opened", "computing"];

/// Names that a `do` block uses without saying so.
const SEQUENCING: [&str; 2] = ["◌>>=◌", "◌>>◌"];

/// Where the arguments of an infix name stand.
const PLACE: char = '◌';

/// Folders that a build makes: cargo's, and that of a proved crate.
const MADE: [&str; 2] = ["target", "out"];

/// The files of a function's proof.
const ANSWERS: [&str; 3] = ["/Answers.antt", "/Invariants.antt", "/Proof.antt"];

/// One file below `crates/`.
pub struct Source {
    pub crate_name: String,
    /// The path within the crate, as `specs/Base.antt`.
    pub place: String,
    pub text: String,
}

impl Source {
    pub fn of(crate_name: &str, place: &str, text: &str) -> Source {
        Source {
            crate_name: crate_name.to_string(),
            place: place.to_string(),
            text: text.to_string(),
        }
    }

    /// Its path from the repository's root.
    pub fn path(&self) -> String {
        format!("crates/{}/{}", self.crate_name, self.place)
    }

    /// One of its lines, counted from 0, as messages name it.
    pub fn line(&self, number: usize) -> String {
        format!("{}:{}", self.path(), number + 1)
    }

    /// The module that other files import: `specs.Base`, `proofs.Lists`.
    pub fn module(&self) -> Option<String> {
        let stem = self.place.strip_suffix(".antt")?;
        Some(stem.replace('/', "."))
    }

    pub fn is_answer(&self) -> bool {
        self.place.starts_with("proofs/") && ANSWERS.iter().any(|name| self.place.ends_with(name))
    }

    pub fn is_code(&self) -> bool {
        self.place.ends_with(".rt")
    }
}

/// The repository's root.
pub fn root() -> PathBuf {
    Path::new(env!("CARGO_MANIFEST_DIR")).join("../..")
}

/// Does a build make this folder?
fn is_made(path: &Path) -> bool {
    path.file_name()
        .is_some_and(|name| MADE.iter().any(|made| name == *made))
}

/// What stands in a folder, by name.
fn entries(folder: &Path) -> Vec<PathBuf> {
    let mut entries: Vec<_> = fs::read_dir(folder)
        .unwrap_or_else(|error| panic!("{}: {error}", folder.display()))
        .map(|entry| entry.expect("an entry").path())
        .collect();
    entries.sort();
    entries
}

fn files(folder: &Path, found: &mut Vec<PathBuf>) {
    for path in entries(folder) {
        if is_made(&path) {
            continue;
        } else if path.is_dir() {
            files(&path, found);
        } else {
            found.push(path);
        }
    }
}

/// Every file below `crates/` but for what a check makes: its crate, its place there and its text.
fn crate_files(wanted: impl Fn(&Path) -> bool) -> Vec<Source> {
    let top = root().join("crates");
    let mut found = Vec::new();
    files(&top, &mut found);
    found.retain(|path| wanted(path));
    let read = |path: &PathBuf| {
        let inner = path.strip_prefix(&top).expect("below crates/");
        let inner = inner.to_str().expect("a plain name");
        let (crate_name, place) = inner.split_once('/').expect("a crate's file");
        let text = fs::read_to_string(path).expect("a readable file");
        Source::of(crate_name, place, &text)
    };
    found.iter().map(read).collect()
}

/// Every source below `crates/`.
pub fn sources() -> Vec<Source> {
    crate_files(|path| {
        path.extension()
            .is_some_and(|end| end == "antt" || end == "rt")
    })
}

/// Fails with what is to be done, and where.
#[track_caller]
pub fn expect_none(faults: &[String], to_do: &str) {
    assert!(faults.is_empty(), "{to_do}\n{}", faults.join("\n"));
}

/// A line without its comment.
pub fn code(line: &str, is_code: bool) -> &str {
    let mark = if is_code { "//" } else { "--" };
    match line.find(mark) {
        Some(at) if at == 0 || line[..at].ends_with([' ', '(']) => &line[..at],
        _ => line,
    }
}

/// The words of a line: what stands between blanks, brackets and points.
pub fn words(line: &str) -> impl Iterator<Item = &str> {
    line.split(|c: char| c.is_whitespace() || "()[]{},;:.!\"`⌜⌝⟦⟧«»⟨⟩".contains(c))
        .map(|word| match word.strip_prefix('&') {
            Some(lent) if lent.starts_with(char::is_alphabetic) => lent,
            _ => word,
        })
        .filter(|word| !word.is_empty())
}

/// The words by which a declared name is used: of an infix one, its signs.
pub fn signs(name: &str) -> Vec<&str> {
    let parts: Vec<_> = name.split(PLACE).filter(|part| !part.is_empty()).collect();
    let infix = name.starts_with(PLACE) || name.ends_with(PLACE);
    if infix && !parts.is_empty() {
        parts
    } else {
        vec![name]
    }
}

/// The words of a file, each with the declarations in whose text it stands.
pub struct Uses {
    by_word: BTreeMap<String, BTreeSet<usize>>,
}

/// The place in the text that belongs to no declaration.
const NOWHERE: usize = usize::MAX;

impl Uses {
    pub fn of(source: &Source, declared: &[Declaration]) -> Uses {
        let mut by_word: BTreeMap<String, BTreeSet<usize>> = BTreeMap::new();
        let imported = imports(&source.text);
        for (number, line) in source.text.lines().enumerate() {
            if imported.iter().any(|import| import.covers(number)) {
                continue;
            }
            let owner = declared
                .iter()
                .rposition(|one| one.first <= number && number < one.end)
                .unwrap_or(NOWHERE);
            for word in words(code(line, source.is_code())) {
                by_word.entry(word.to_string()).or_default().insert(owner);
            }
        }
        Uses { by_word }
    }

    /// Does the word stand outside the text of the declaration with this number and of umbrellas?
    fn has(&self, word: &str, declared: &[Declaration], but: Option<usize>) -> bool {
        let umbrella = |owner: &usize| {
            declared
                .get(*owner)
                .is_some_and(|one| UMBRELLAS.contains(&one.name.as_str()))
        };
        self.by_word.get(word).is_some_and(|owners| {
            owners
                .iter()
                .any(|owner| Some(*owner) != but && !umbrella(owner))
        })
    }

    /// Does the file use the name there, whole or by its signs?
    pub fn names(&self, name: &str, declared: &[Declaration], but: Option<usize>) -> bool {
        let whole = self.has(name, declared, but);
        let by_signs = || {
            signs(name).iter().all(|sign| {
                [
                    sign.to_string(),
                    format!("{sign}{PLACE}"),
                    format!("{PLACE}{sign}"),
                ]
                .iter()
                .any(|word| self.has(word, declared, but))
            })
        };
        let in_block = || SEQUENCING.contains(&name) && self.has("do", declared, but);
        whole || by_signs() || in_block()
    }
}
