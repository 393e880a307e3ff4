//! Which declarations name which: what a word means in the file where it stands.

use super::{File, Node};
use crate::words;
use std::collections::{BTreeMap, BTreeSet};

/// The names that mean a declaration in a file.
#[derive(Default)]
struct Names {
    /// Those that stand alone.
    bare: BTreeMap<String, Node>,
    /// Those of a module that is taken whole, by the name that it gets here and their own.
    under: BTreeMap<(String, String), Node>,
}

impl Names {
    /// The declarations that a line names.
    fn named_in<'a>(&'a self, line: &'a str) -> impl Iterator<Item = Node> + 'a {
        words(line).filter_map(|word| {
            let at = word.as_ptr() as usize - line.as_ptr() as usize;
            let (before, after) = (&line[..at], line[at + word.len()..].trim_start());
            if is_told_here(before, after) {
                return None;
            }
            match before.strip_suffix('.') {
                None => self.bare.get(word).copied(),
                // `A.name` is a name of the module A; `r.name`, a part of a record.
                Some(module) => {
                    let module = words(module).last().filter(|name| module.ends_with(name))?;
                    let name = (module.to_string(), word.to_string());
                    self.under.get(&name).copied()
                }
            }
        })
    }
}

/// Is the word between these one that is told there: a variable or a part before its type, or a part before its value?
fn is_told_here(before: &str, after: &str) -> bool {
    let part = before.trim_end().ends_with(['{', ';']);
    after.starts_with(": ") || (part && after.starts_with("= "))
}

/// The names of a file: those that it imports, and, but for code, those that it declares. A contract speaks of definitions, so
/// a function does not hide the definition that has its name.
fn names_in(files: &[File], modules: &BTreeMap<(&str, String), usize>, at: usize) -> Names {
    let mut names = Names::default();
    for import in &files[at].imported {
        let Some(crate_name) = import.crate_name.as_deref() else {
            continue;
        };
        let Some(&from) = modules.get(&(crate_name, import.module.clone())) else {
            continue;
        };
        for (number, one) in files[from].declared.iter().enumerate() {
            let taken = import.names.iter().flatten();
            let taken = taken.filter(|(name, _)| *name == one.name);
            names
                .bare
                .extend(taken.map(|(_, here)| (here.clone(), (from, number))));
            if let Some(alias) = &import.alias {
                let name = (alias.clone(), one.name.clone());
                names.under.insert(name, (from, number));
            }
        }
    }
    if !files[at].source.is_code() {
        let own = files[at].declared.iter().enumerate();
        names
            .bare
            .extend(own.map(|(number, one)| (one.name.clone(), (at, number))));
    }
    names
}

/// For each declaration of a definition those that name it, in its file or where it is imported.
pub(super) fn named_by(files: &[File]) -> BTreeMap<Node, BTreeSet<Node>> {
    let mut modules: BTreeMap<(&str, String), usize> = BTreeMap::new();
    for (at, file) in files.iter().enumerate() {
        if let Some(module) = file.source.module() {
            modules.insert((&file.source.crate_name, module), at);
        }
    }
    let mut over: BTreeMap<Node, BTreeSet<Node>> = BTreeMap::new();
    for (at, file) in files.iter().enumerate() {
        let names = names_in(files, &modules, at);
        for (number, one) in file.declared.iter().enumerate() {
            let said = file.said(one);
            let named = said.iter().flat_map(|line| names.named_in(line));
            for node in named.filter(|node| *node != (at, number)) {
                over.entry(node).or_default().insert((at, number));
            }
        }
    }
    over
}
