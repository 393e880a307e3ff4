//! Names in the documents that look like a path of the repository, or like an item of a crate or a type: is there such a one?

use crate::documents::quoted;
use crate::{entries, is_made, root, Document, MADE};
use std::collections::{BTreeMap, BTreeSet};
use std::fs;
use std::path::Path;

/// A name with one of these endings is a file's.
const ENDINGS: [&str; 5] = [".rt", ".antt", ".rs", ".md", ".h"];

/// The words that declare an item.
const DECLARING: [&str; 6] = ["fn", "const", "struct", "enum", "mod", "type"];

/// The words that may stand before them.
const BEFORE: [&str; 5] = ["pub", "crate", "unsafe", "extern", "C"];

/// The words that open a type.
const OPENING: [&str; 3] = ["impl", "enum", "struct"];

/// What a file with macros declares may be declared of any type.
const MACRO: &str = "macro_rules!";

/// What documents may name.
#[derive(Default)]
pub struct Names {
    /// Files and folders by their parts.
    paths: Vec<Vec<String>>,
    folders: BTreeSet<String>,
    /// What each crate or type declares.
    items: BTreeMap<String, BTreeSet<String>>,
}

/// Does a part of a path match? `*` stands for any letters, and so does a part in capitals; `.antt` may be left out.
fn matches(part: &str, named: &str) -> bool {
    if named.chars().all(|letter| letter.is_ascii_uppercase()) {
        return true;
    }
    match named.split_once('*') {
        Some((first, last)) => part.starts_with(first) && part.ends_with(last),
        None => part == named || part.strip_suffix(".antt") == Some(named),
    }
}

/// The type that a line at the margin opens: `impl State {`, `pub enum Kind {`, `impl Display for Kind {`.
fn opened(line: &str) -> Option<&str> {
    let line = line.strip_suffix(" {")?;
    let bare = line.strip_prefix("pub ").unwrap_or(line);
    let opens = OPENING.iter().any(|word| bare.starts_with(word));
    let name = line.rsplit(' ').next()?;
    name.split('<').next().filter(|_| opens)
}

/// The name that a line declares; in a type also that of a case or a field.
fn declared(line: &str, in_type: bool) -> Option<&str> {
    let words: Vec<&str> = line
        .split(|letter: char| !(letter.is_alphanumeric() || letter == '_'))
        .filter(|word| !word.is_empty())
        .collect();
    let before = |word: &&str| DECLARING.contains(word) || BEFORE.contains(word);
    let name = words.iter().position(|word| !before(word))?;
    let item = name > 0 && DECLARING.contains(&words[name - 1]);
    (item || in_type).then(|| words[name])
}

impl Names {
    /// A file or a folder.
    pub fn path(&mut self, path: &str) {
        let parts: Vec<String> = path.split('/').map(str::to_string).collect();
        self.folders.extend(parts.iter().rev().skip(1).cloned());
        self.paths.push(parts);
    }

    fn items(&mut self, owner: &str, names: impl Iterator<Item = impl Into<String>>) {
        let items = self.items.entry(owner.to_string()).or_default();
        items.extend(names.map(Into::into));
    }

    /// What a source declares, at its margin for its crate, and in each type for the type.
    pub fn source(&mut self, crate_name: &str, text: &str) {
        if text.contains(MACRO) {
            self.items(MACRO, text.lines().filter_map(|line| declared(line, false)));
        }
        let mut open: Option<&str> = None;
        for line in text.lines().filter(|line| !line.trim().is_empty()) {
            let (owner, name) = match (line.strip_prefix("    "), open) {
                (None, _) => {
                    open = opened(line);
                    (crate_name, declared(line, false))
                }
                (Some(inner), Some(owner)) if !inner.starts_with([' ', '/']) => {
                    (owner, declared(inner, true))
                }
                _ => continue,
            };
            self.items(owner, name.into_iter());
        }
    }

    /// Everything that the repository has.
    pub fn of_the_repository() -> Names {
        let mut names = Names::default();
        names.folder(&root(), "");
        names
    }

    fn folder(&mut self, folder: &Path, above: &str) {
        for path in entries(folder) {
            let name = path
                .file_name()
                .expect("a name")
                .to_string_lossy()
                .into_owned();
            if is_made(&path) || name == ".git" {
                continue;
            }
            let place = format!("{above}{name}");
            self.path(&place);
            if path.is_dir() {
                self.folder(&path, &format!("{place}/"));
            } else if place.contains("/src/") && (name.ends_with(".rt") || name.ends_with(".rs")) {
                let text = fs::read_to_string(&path).expect("a readable file");
                let crate_name = place.split('/').nth(1).expect("a crate's folder");
                self.source(crate_name, &text);
            }
        }
    }

    fn has_path(&self, name: &str) -> bool {
        let named: Vec<&str> = name.trim_end_matches('/').split('/').collect();
        let ends = |path: &Vec<String>| {
            let last = path.iter().rev().zip(named.iter().rev());
            path.len() >= named.len() && last.into_iter().all(|(part, named)| matches(part, named))
        };
        self.paths.iter().any(ends)
    }

    /// Does a name look like a path? It ends as one, or its first part is a folder's name. What a build makes is not asked for.
    fn looks_like_path(&self, name: &str) -> bool {
        let (first, _) = name.split_once('/').unwrap_or_default();
        let file = ENDINGS.iter().any(|end| name.ends_with(end));
        (file || self.folders.contains(first)) && !name.split('/').any(|part| MADE.contains(&part))
    }

    /// A name that looks like something of the repository, which is not there.
    fn is_lost(&self, name: &str) -> bool {
        if let Some((owner, item)) = name.split_once("::") {
            let item = item.rsplit("::").next().unwrap_or(item);
            let has = |owner: &str| Some(self.items.get(owner)?.contains(item));
            let made = owner.starts_with(char::is_uppercase) && has(MACRO) == Some(true);
            return has(owner) == Some(false) && !made;
        }
        self.looks_like_path(name) && !self.has_path(name)
    }

    /// The names in backquotes that are lost, each with its line; blocks of code are left out.
    pub fn lost(&self, page: &Document) -> Vec<String> {
        let mut lost = Vec::new();
        let mut block = false;
        for (number, line) in page.text.lines().enumerate() {
            if line.starts_with("```") {
                block = !block;
            }
            if block || line.starts_with("```") || line.starts_with("    ") {
                continue;
            }
            let words = quoted(line).flat_map(str::split_whitespace);
            let words = words.filter(|word| self.is_lost(word));
            lost.extend(words.map(|word| format!("{}:{}: `{word}`", page.path, number + 1)));
        }
        lost
    }
}
