//! A text as the search for a fix sees it: its lines as fields, and where a block
//! begins, has its variables and ends.

use super::edit::Edit;
use super::fields::ATOM_WORDS;
use std::collections::BTreeSet;

/// A possible fix: what it does in words, its changes, and how many lines it
/// inserts after the refused one.
#[derive(Clone, Debug)]
pub struct Candidate {
    pub words: String,
    pub edits: Vec<Edit>,
    pub after: u32,
}

/// The lines of a text; places count from 0.
pub struct Draft {
    pub lines: Vec<Vec<String>>,
}

/// Names that no variable may have.
const RESERVED: [&str; 4] = ["int", "null", "this", "result"];

impl Draft {
    pub fn of(text: &[u8]) -> Draft {
        let text = String::from_utf8_lossy(text);
        let fields = |line: &str| line.split('\t').map(str::to_string).collect();
        Draft {
            lines: text.lines().map(fields).collect(),
        }
    }

    pub fn word(&self, at: usize) -> &str {
        self.lines.get(at).map_or("", |line| line[0].as_str())
    }

    fn starts(&self, at: usize) -> bool {
        matches!(self.word(at), "method" | "main")
    }

    /// The first and the last line of the block that a line is in.
    pub fn block(&self, at: usize) -> Option<(usize, usize)> {
        let first = (0..=at).rev().find(|&line| self.starts(line))?;
        let ends = |line: &usize| self.word(*line) == "end" || self.starts(*line);
        let last = (first + 1..self.lines.len()).find(ends);
        Some((first, last.unwrap_or(self.lines.len())))
    }

    /// Where a further `var` line of the block goes.
    pub fn vars_end(&self, first: usize) -> usize {
        let declares = |line: &usize| matches!(self.word(*line), "requires" | "ensures" | "var");
        first + 1 + (first + 1..self.lines.len()).take_while(declares).count()
    }

    /// The classes that the text declares, and `int`.
    pub fn types(&self) -> Vec<String> {
        let classes = self.lines.iter().filter(|line| line[0] == "class");
        let names = classes.filter_map(|line| line.get(1).cloned());
        ["int".to_string()].into_iter().chain(names).collect()
    }

    /// Names of types that are used and not declared.
    pub fn missing_types(&self) -> BTreeSet<String> {
        let known = self.types();
        let used = self.lines.iter().flat_map(|line| {
            let places: &[usize] = match line[0].as_str() {
                "field" | "var" => &[1],
                "method" => &[1, 3],
                "new" => &[2],
                _ => &[],
            };
            places.iter().filter_map(|&at| line.get(at).cloned())
        });
        used.filter(|name| !known.contains(name) && named(name))
            .collect()
    }

    /// The variables that a block declares, its parameter among them, with types.
    pub fn variables(&self, first: usize) -> Vec<(String, String)> {
        let mut found = Vec::new();
        if let [word, _, _, kind, name] = &self.lines[first][..] {
            if word == "method" {
                found.push((name.clone(), kind.clone()));
            }
        }
        for line in &self.lines[first + 1..self.vars_end(first)] {
            if let [word, kind, name] = &line[..] {
                if word == "var" {
                    found.push((name.clone(), kind.clone()));
                }
            }
        }
        found
    }

    /// Names in the lines that may be variables.
    pub fn names(&self, lines: std::ops::Range<usize>) -> BTreeSet<String> {
        let mut found = BTreeSet::new();
        for line in self.lines.get(lines).unwrap_or_default() {
            for field in line.iter().skip(1) {
                let name = field.split('.').next().unwrap_or("");
                if named(name) && !ATOM_WORDS.contains(&name) {
                    found.insert(name.to_string());
                }
            }
        }
        found
    }

    /// A name that the block does not have.
    pub fn fresh(&self, first: usize, last: usize) -> String {
        let used = self.names(first..last.min(self.lines.len()));
        let letters = ["v", "k", "n", "p", "q", "u", "w"].map(str::to_string);
        let numbered = (1..1_000).map(|at| format!("v{at}"));
        let mut names = letters.into_iter().chain(numbered);
        names.find(|name| !used.contains(name)).unwrap_or_default()
    }
}

/// May it be a name that a script declares?
pub fn named(name: &str) -> bool {
    model::text::name(name.as_bytes()).is_some() && !RESERVED.contains(&name)
}

/// A line as messages show it.
pub fn shown(line: &str) -> String {
    line.replace('\t', " ")
}

/// A line in front of another; its number is that of the text.
pub fn insert(before: usize, line: &str) -> Candidate {
    Candidate {
        words: format!("insert `{}` before line {}", shown(line), before + 1),
        edits: vec![Edit::Insert(before as u32 + 1, line.to_string())],
        after: 0,
    }
}

/// A line in the place of another.
pub fn replace(at: usize, line: &str) -> Candidate {
    Candidate {
        words: format!("write line {} as `{}`", at + 1, shown(line)),
        edits: vec![Edit::Replace(at as u32 + 1, line.to_string())],
        after: 0,
    }
}

/// A line left out.
pub fn delete(at: usize) -> Candidate {
    Candidate {
        words: format!("delete line {}", at + 1),
        edits: vec![Edit::Delete(at as u32 + 1)],
        after: 0,
    }
}

/// One after the other: changes of different lines, or insertions in order.
pub fn both(one: Candidate, other: Candidate) -> Candidate {
    Candidate {
        words: format!("{}, and {}", one.words, other.words),
        edits: [one.edits, other.edits].concat(),
        after: one.after + other.after,
    }
}
