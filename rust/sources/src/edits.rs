//! The edits that the prover must refuse (`crates/NAME/must-fail`): has each the place that it edits?

use crate::{crate_files, Source};
use std::collections::BTreeMap;

/// The files of the folders `must-fail`.
pub fn edits() -> Vec<Source> {
    crate_files(|path| {
        path.components()
            .any(|part| part.as_os_str() == "must-fail")
    })
}

/// An edit as far as it is read.
struct Reading<F> {
    /// The text of a file of the crate.
    text: F,
    /// The texts that are edited already.
    edited: BTreeMap<String, String>,
    place: String,
    old: Option<String>,
    pairs: usize,
}

impl<F: Fn(&str) -> Option<String>> Reading<F> {
    fn file(&mut self, place: &str) -> Result<(), String> {
        if !place.starts_with("src/") && !place.starts_with("specs/") {
            return Err(format!("edit code or definitions, not {place}"));
        }
        if !self.edited.contains_key(place) {
            let text = (self.text)(place).ok_or(format!("the crate has no file {place}"))?;
            self.edited.insert(place.to_string(), text);
        }
        self.place = place.to_string();
        Ok(())
    }

    fn old(&mut self, old: &str) -> Result<(), String> {
        match self.old.replace(old.to_string()) {
            Some(_) => Err("the `old:` before it has no `new:`".to_string()),
            None => Ok(()),
        }
    }

    fn new_words(&mut self, new: &str) -> Result<(), String> {
        let old = self.old.take().ok_or("a `new:` without its `old:`")?;
        let text = self.edited.get_mut(&self.place).ok_or("no `file:` above")?;
        let place = &self.place;
        match text.matches(&old).count() {
            _ if old == new => return Err(format!("old and new are the same: {old}")),
            1 => *text = text.replacen(&old, new, 1),
            0 => return Err(format!("{place} no longer has: {old}")),
            times => return Err(format!("{place} has {times} times: {old}")),
        }
        self.pairs += 1;
        Ok(())
    }

    fn line(&mut self, line: &str) -> Result<(), String> {
        if let Some(place) = line.strip_prefix("file: ") {
            self.file(place)
        } else if let Some(old) = line.strip_prefix("old: ") {
            self.old(old)
        } else if let Some(new) = line.strip_prefix("new:") {
            self.new_words(new.strip_prefix(' ').unwrap_or(new))
        } else if line.trim().is_empty() || line.starts_with('#') {
            Ok(())
        } else {
            Err(format!("neither `file: `, `old: ` nor `new:`: {line}"))
        }
    }
}

/// What is wrong with an edit over the files of its crate, read as `rt must-fail` does: each pair edits what those above left.
pub fn edit_fault(edit: &Source, text: impl Fn(&str) -> Option<String>) -> Option<String> {
    if !edit.place.ends_with(".edit") {
        return Some(format!("{}: its name must end in .edit", edit.path()));
    }
    let mut reading = Reading {
        text,
        edited: BTreeMap::new(),
        place: String::new(),
        old: None,
        pairs: 0,
    };
    for (number, line) in edit.text.lines().enumerate() {
        if let Err(fault) = reading.line(line) {
            return Some(format!("{}: {fault}", edit.line(number)));
        }
    }
    let whole = reading.pairs > 0 && reading.old.is_none();
    (!whole).then(|| format!("{}: an `old:` and its `new:` are missing", edit.path()))
}
