//! The documents, and what their tables list.

use crate::{entries, root};
use std::fs;

/// A page of the documents.
pub struct Document {
    /// Its path from the repository's root.
    pub path: String,
    pub text: String,
}

impl Document {
    pub fn of(path: &str) -> Document {
        let text = fs::read_to_string(root().join(path));
        Document {
            path: path.to_string(),
            text: text.unwrap_or_else(|error| panic!("{path}: {error}")),
        }
    }
}

/// `README.md` and the pages of `docs`; the papers are as they were received.
pub fn documents() -> Vec<Document> {
    let pages = entries(&root().join("docs")).into_iter();
    let pages = pages.filter(|path| path.extension().is_some_and(|end| end == "md"));
    let names = pages.map(|path| {
        let name = path.file_name().expect("a name").to_string_lossy();
        format!("docs/{name}")
    });
    let names = names.chain(["README.md".to_string()]);
    names.map(|name| Document::of(&name)).collect()
}

/// What stands in backquotes.
pub(crate) fn quoted(text: &str) -> impl Iterator<Item = &str> {
    text.split('`').skip(1).step_by(2)
}

/// A row of a table: the heading above it, the first cell of the table's head, and its own first cell.
struct Row<'a> {
    line: usize,
    heading: &'a str,
    head: &'a str,
    cell: &'a str,
}

fn rows(page: &str) -> Vec<Row<'_>> {
    let (mut heading, mut head) = ("", None);
    let mut rows = Vec::new();
    for (line, text) in page.lines().enumerate() {
        let cell = text
            .strip_prefix('|')
            .and_then(|rest| rest.split('|').next());
        match (cell.map(str::trim), head) {
            (None, _) => head = None,
            (Some(cell), None) => head = Some(cell),
            (Some(cell), Some(head)) if !cell.starts_with("--") => rows.push(Row {
                line,
                heading,
                head,
                cell,
            }),
            _ => {}
        }
        if let Some(words) = text.strip_prefix('#') {
            heading = words.trim_start_matches('#').trim();
        }
    }
    rows
}

/// The crate of a line of `crates.txt`, and what it depends on. A static library has the word after its name.
fn listed_crate(line: &str) -> Option<(&str, &str)> {
    let (head, needs) = line.split('#').next()?.split_once(':')?;
    Some((head.split_whitespace().next()?, needs))
}

/// The crates that `crates.txt` lists.
pub fn listed_crates(list: &str) -> Vec<&str> {
    let lines = list.lines().filter_map(listed_crate);
    lines.map(|(name, _)| name).collect()
}

/// How many crates a check of one with all below it proves: itself and those of the list that it depends on.
pub fn proved_crates(list: &str, name: &str) -> Option<usize> {
    let listed = listed_crates(list);
    let mut lines = list.lines().filter_map(listed_crate);
    let (_, needs) = lines.find(|(listed, _)| *listed == name)?;
    let needs = needs.split_whitespace();
    Some(1 + needs.filter(|need| listed.contains(need)).count())
}

/// The rows that show `rt check` in the folder of a crate, and where the number of crates is another than it proves.
pub struct Counts {
    pub rows: usize,
    pub wrong: Vec<String>,
}

pub fn shown_counts(list: &str, page: &str) -> Counts {
    let told = |line: &str| {
        let begins = line.starts_with("| `rt check` in ");
        let mut quoted = quoted(line).skip(1);
        let name = quoted.next()?.strip_prefix("crates/")?.to_string();
        let count = quoted.find(|text| text.ends_with(" crates"));
        begins.then(|| (name, count.unwrap_or("no number").to_string()))
    };
    let told: Vec<(String, String)> = page.lines().filter_map(told).collect();
    let wrong = told.iter().filter_map(|(name, count)| {
        let right = format!("{} crates", proved_crates(list, name).unwrap_or(0));
        (*count != right).then(|| format!("`rt check` in `crates/{name}`: {right}, not {count}"))
    });
    Counts {
        rows: told.len(),
        wrong: wrong.collect(),
    }
}

/// How the tables of crates differ from the list: each crate has one row, and each row a crate.
pub fn crates_not_told(listed: &[&str], page: &str) -> Vec<String> {
    let rows = rows(page).into_iter().filter(|row| row.head == "Crate");
    let told: Vec<&str> = rows.flat_map(|row| quoted(row.cell)).collect();
    let count = |name: &str| told.iter().filter(|other| **other == name).count();
    let rows_of = |name: &&str| match count(name) {
        1 => None,
        count => Some(format!("`{name}` has {count} rows")),
    };
    let gone = told.iter().filter(|name| !listed.contains(name));
    let gone = gone.map(|name| format!("`{name}` is no crate of crates.txt"));
    listed.iter().filter_map(rows_of).chain(gone).collect()
}

/// The files that tables list by their names: below a heading with a crate, where the head says `File of` one of its folders.
pub fn files_told(page: &str) -> Vec<(usize, String)> {
    let mut told = Vec::new();
    for row in rows(page) {
        let folder = row
            .head
            .strip_prefix("File of ")
            .and_then(|rest| quoted(rest).next());
        if let (Some(name), Some(folder)) = (quoted(row.heading).next(), folder) {
            let path = |file: &str| (row.line, format!("crates/{name}/{folder}{file}.antt"));
            told.extend(quoted(row.cell).map(path));
        }
    }
    told
}
