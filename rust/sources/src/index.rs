//! From each sentence of a paper to the definitions that quote it, and on to the laws and the code about them.
//!
//! A law is about a definition if its statement names it, code if its contract does. Where none does, those count that are about
//! the nearest definition over it. What a proof quotes itself, as an example does, is shown apart.

mod meaning;
mod page;

use crate::{declarations, imports, quotes, Declaration, Import, Paper, Quote, Source};
use meaning::named_by;
use std::collections::{BTreeMap, BTreeSet};

/// A declaration: the number of its file and its own number there.
type Node = (usize, usize);

/// The crates with the theorems about the language: their laws are named first.
const THEOREMS: [&str; 3] = ["station", "soundness", "rules"];

struct File {
    source: Source,
    declared: Vec<Declaration>,
    imported: Vec<Import>,
    quotes: Vec<Quote>,
}

impl File {
    fn is_definition(&self) -> bool {
        self.source.place.starts_with("specs/")
    }

    fn is_law(&self) -> bool {
        self.source.place.starts_with("proofs/") && !self.source.is_answer()
    }

    /// The lines that say what a declaration is: of a definition all, of a law its type, of a function its contract.
    fn said(&self, one: &Declaration) -> Vec<&str> {
        let lines = self.source.text.lines().skip(one.first);
        let lines = lines.take(one.end.saturating_sub(one.first));
        let (definition, code) = (self.is_definition(), self.source.is_code());
        let clause = format!("{} ", one.name);
        let stated = |at: usize, line: &str| match (definition, code) {
            (true, _) => true,
            (_, true) => line != "{",
            _ => at == 0 || !line.trim_start().starts_with(&clause),
        };
        let lines = lines.enumerate().take_while(|(at, line)| stated(*at, line));
        lines.map(|(_, line)| crate::code(line, code)).collect()
    }

    /// A line of it, counted from 0, as editors find it.
    fn line(&self, number: usize) -> String {
        let (name, place) = (&self.source.crate_name, &self.source.place);
        format!("crates/{name}/{place}:{}", number + 1)
    }

    /// The name of a declaration: of code with its crate's.
    fn called(&self, one: &Declaration) -> String {
        match self.source.is_code() {
            true => format!("`{}::{}`", self.source.crate_name, one.name),
            false => format!("`{}`", one.name),
        }
    }
}

pub struct Index {
    files: Vec<File>,
    papers: Vec<Paper>,
    /// The declarations that name each declaration in what they say.
    over: BTreeMap<Node, BTreeSet<Node>>,
    /// The definitions and the code that quote each sentence, by the paper's number and its own.
    quoting: BTreeMap<(usize, usize), BTreeSet<Node>>,
    /// The proofs that do, each with the line of its quote.
    proving: BTreeMap<(usize, usize), BTreeSet<(Node, usize)>>,
    /// Quotes that no paper has, and comments that can't be read.
    pub faults: Vec<String>,
    /// How many quotes there are.
    pub count: usize,
}

/// A single word between quotation marks may be one of code, and need not be a paper's.
fn is_word(text: &str) -> bool {
    text.split_whitespace().count() < 2
}

impl Index {
    pub fn of(sources: Vec<Source>, papers: Vec<Paper>) -> Index {
        let mut faults = Vec::new();
        let kept = |source: &Source| !source.is_answer();
        let files = sources.into_iter().filter(kept).map(|source| {
            let declared = declarations(&source);
            let quotes = quotes(&source, &declared).unwrap_or_else(|fault| {
                faults.push(fault);
                Vec::new()
            });
            File {
                imported: imports(&source.text),
                declared,
                quotes,
                source,
            }
        });
        let files: Vec<File> = files.collect();
        let mut index = Index {
            over: named_by(&files),
            quoting: BTreeMap::new(),
            proving: BTreeMap::new(),
            count: files.iter().map(|file| file.quotes.len()).sum(),
            files,
            papers,
            faults,
        };
        index.quote();
        index
    }

    fn quote(&mut self) {
        for (at, file) in self.files.iter().enumerate() {
            for quote in &file.quotes {
                let mut known = is_word(&quote.text);
                let papers = self.papers.iter().enumerate();
                // The first paper that has it is the one that is quoted.
                let found = papers
                    .filter_map(|(number, paper)| Some((number, paper.quoted(&quote.text)?)))
                    .next();
                if let Some((number, sentences)) = found {
                    known = true;
                    // A comment at the head of a file speaks of all that it declares; it is shown by the file's name.
                    let node = (at, quote.owner.unwrap_or(usize::MAX));
                    for sentence in sentences.into_iter().map(|sentence| (number, sentence)) {
                        if file.is_law() {
                            let proofs = self.proving.entry(sentence).or_default();
                            proofs.insert((node, quote.line));
                        } else {
                            self.quoting.entry(sentence).or_default().insert(node);
                        }
                    }
                }
                if !known {
                    let place = file.source.line(quote.line);
                    self.faults
                        .push(format!("{place}: no paper has \"{}\"", quote.text));
                }
            }
        }
    }

    /// What orders the declarations about this one: the theorems' crates first, then what is public, what has its name or one
    /// that begins so, and what speaks of little else.
    fn order(&self, about: Node, (file, number): Node) -> (usize, bool, usize, usize) {
        let letters = |(file, number): Node| {
            let name = &self.files[file].declared[number].name;
            name.replace(['-', '_'], "").to_lowercase()
        };
        let (found, crate_name) = (&self.files[file], &self.files[file].source.crate_name);
        let theorems = THEOREMS.iter().position(|name| name == crate_name);
        let name = match (letters((file, number)), letters(about)) {
            (name, its) if name == its => 0,
            (name, its) if name.starts_with(&its) => 1,
            _ => 2,
        };
        let names = |over: &&BTreeSet<Node>| over.contains(&(file, number));
        (
            theorems.unwrap_or(THEOREMS.len()),
            !found.declared[number].public,
            name,
            self.over.values().filter(names).count(),
        )
    }

    /// The nearest declarations of a kind that are about this one.
    fn nearest(&self, node: Node, kind: impl Fn(&File, &Declaration) -> bool) -> Vec<Node> {
        let is =
            |(file, number): &Node| kind(&self.files[*file], &self.files[*file].declared[*number]);
        let mut level = BTreeSet::from([node]);
        let mut seen = level.clone();
        while !level.is_empty() {
            let over = level
                .iter()
                .filter_map(|node| self.over.get(node))
                .flatten();
            let over: BTreeSet<Node> = over.copied().collect();
            let mut found: Vec<Node> = over.iter().copied().filter(is).collect();
            if !found.is_empty() {
                found.sort_by_cached_key(|one| self.order(node, *one));
                return found;
            }
            let definitions = over
                .into_iter()
                .filter(|(file, _)| self.files[*file].is_definition());
            level = definitions.filter(|node| seen.insert(*node)).collect();
        }
        Vec::new()
    }

    fn is_quoted(&self, sentence: (usize, usize)) -> bool {
        self.quoting.contains_key(&sentence) || self.proving.contains_key(&sentence)
    }

    /// The sentences of a paper that nothing quotes, by their numbers, but for those of requests that have not landed.
    pub fn unquoted(&self, paper: usize) -> Vec<usize> {
        self.left(paper, true)
    }

    fn left(&self, paper: usize, landed: bool) -> Vec<usize> {
        let sentences = self.papers[paper].sentences.iter().enumerate();
        sentences
            .filter(|(number, one)| one.landed == landed && !self.is_quoted((paper, *number)))
            .map(|(number, _)| number)
            .collect()
    }
}
