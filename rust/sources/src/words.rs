//! Words that a native engineer would not use, in what people read.

use crate::{entries, plain, root};
use std::fs;
use std::path::Path;

/// A word to avoid, and what to write instead.
pub struct Avoided {
    pub word: &'static str,
    pub instead: &'static str,
}

const fn avoid(word: &'static str, instead: &'static str) -> Avoided {
    Avoided { word, instead }
}

pub const AVOIDED: [Avoided; 38] = [
    avoid("mend", "fix"),
    avoid("mends", "fixes"),
    avoid("mended", "fixed"),
    avoid("mending", "fixing"),
    avoid("anew", "again"),
    avoid("afresh", "again"),
    avoid("parted by", "separated by"),
    avoid("part fields", "separate fields"),
    avoid("heed", "respect"),
    avoid("heeds", "respects"),
    avoid("heeded", "respected"),
    avoid("heeding", "respecting"),
    avoid("whilst", "while"),
    avoid("lest", "so that .. not"),
    avoid("wherein", "in which"),
    avoid("thereof", "of it"),
    avoid("hereby", "by this"),
    avoid("whence", "from where"),
    avoid("thence", "from there"),
    avoid("hence", "so"),
    avoid("albeit", "although"),
    avoid("upon", "on"),
    avoid("likewise", "also"),
    avoid("dear", "expensive"),
    avoid("dearest", "most expensive"),
    avoid("dearer", "more expensive"),
    avoid("can not", "cannot"),
    avoid("till", "until"),
    avoid("none the less", "nonetheless"),
    avoid("known no more", "no longer known"),
    avoid("for else", "because otherwise"),
    avoid("told by", "described by"),
    avoid("stands beside", "is next to"),
    avoid("at most so many", "at most that many"),
    avoid("first so many", "that many of the first"),
    avoid("its length apart", "apart from its length"),
    avoid("not its form", "not the right form"),
    avoid("not their form", "not the right form"),
];

/// Folders and files with texts for people. The papers stay as received, and scripts keep their own names.
const READ: [&str; 15] = [
    "README.md",
    "CONTRIBUTING.md",
    "Makefile",
    "docs",
    "editors",
    "hosts",
    "include",
    "packaging",
    "python",
    "R",
    "rust/cli",
    "rust/explain",
    "rust/explain-c",
    "rust/host",
    "tools",
];

/// Folders below them that hold received or generated files.
const LEFT_OUT: [&str; 4] = ["papers", "target", "node_modules", "__pycache__"];

/// The texts that people read: path from the root, and text. Files that are not text are skipped, and so are patches, which quote the sources.
pub fn texts_for_people() -> Vec<(String, String)> {
    let mut texts = Vec::new();
    for place in READ {
        gather(&root().join(place), &mut texts);
    }
    texts
}

fn gather(path: &Path, texts: &mut Vec<(String, String)>) {
    if path.is_dir() {
        let name = path.file_name().map(|name| name.to_string_lossy());
        if !name.is_some_and(|name| LEFT_OUT.contains(&name.as_ref())) {
            entries(path).iter().for_each(|entry| gather(entry, texts));
        }
    } else if path.extension().is_some_and(|end| end == "patch") {
    } else if let Ok(text) = fs::read_to_string(path) {
        let place = path.strip_prefix(root()).unwrap_or(path);
        texts.push((place.to_string_lossy().into_owned(), text));
    }
}

/// Where the line has the word on its own, with no letter, digit or `_` next to it.
fn stands(line: &str, word: &str) -> Option<usize> {
    let part = |c: char| c.is_alphanumeric() || c == '_';
    line.match_indices(word).map(|(at, _)| at).find(|&at| {
        let (before, after) = (&line[..at], &line[at + word.len()..]);
        !before.ends_with(part) && !after.starts_with(part)
    })
}

/// Whether the place is between quotation marks around words of a paper.
fn is_quoted(line: &str, at: usize, papers: &str) -> bool {
    let mut marks = line.match_indices('"').map(|(mark, _)| mark);
    let Some(begin) = marks.by_ref().take_while(|&mark| mark < at).last() else {
        return false;
    };
    let end = line[at..].find('"').map_or(line.len(), |end| at + end);
    let words = plain(&line[begin + 1..end]);
    papers.contains(words.trim_end_matches(['.', ';', ':', ',']))
}

/// Whether the line is one of the six of the look back, whose form was given with their words.
fn has_given_form(path: &str, line: &str) -> bool {
    path == "docs/LOOK-BACK.md" && line.get(1..9) == Some(": finds ")
}

/// Words to avoid in a text, each with its line and what to write instead; quotes of a paper are left alone, and lines of a given form.
pub fn avoided_words(path: &str, text: &str, papers: &str) -> Vec<String> {
    let mut found = Vec::new();
    for (number, line) in text.lines().enumerate() {
        if has_given_form(path, line) {
            continue;
        }
        let lower = line.to_lowercase();
        for avoided in &AVOIDED {
            let Some(at) = stands(&lower, avoided.word) else {
                continue;
            };
            if !(lower.len() == line.len() && is_quoted(line, at, papers)) {
                let (word, instead) = (avoided.word, avoided.instead);
                found.push(format!(
                    "{path}:{}: `{word}`: write `{instead}`",
                    number + 1
                ));
            }
        }
    }
    found
}
