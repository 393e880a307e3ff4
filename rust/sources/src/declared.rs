//! What a file declares.

use crate::{code, Source};

/// A law, a definition, a type or a function, from its first line to the line after its text.
pub struct Declaration {
    pub name: String,
    pub public: bool,
    pub first: usize,
    pub end: usize,
    indent: usize,
}

fn indent(line: &str) -> usize {
    line.len() - line.trim_start().len()
}

/// The name that a line of antt declares, whether it is public, and whether members follow (a record or a data type).
fn declared(line: &str) -> Option<(String, bool, bool)> {
    let mut rest = line.trim_start();
    let mut public = false;
    let mut members = false;
    loop {
        let (word, after) = rest.split_once(' ')?;
        match word {
            "ruleset" => return Some((after.split(' ').next()?.to_string(), public, false)),
            "abbrev" | "unfoldable" => {}
            "pub" => public = true,
            "record" | "data" => members = true,
            "use" | "mod" | "module" | "infixl" | "infixr" | "infix" | "let" | "in"
            | "unfolding" => return None,
            name => {
                let after = after.trim_start();
                let signed = after == ":"
                    || after.starts_with(": ")
                    || (members && after.starts_with(['(', '{']));
                return (signed && !name.starts_with(['(', '{']))
                    .then(|| (name.to_string(), public, members));
            }
        }
        rest = after.trim_start();
    }
}

/// The function that a line of Rattle declares.
fn function(line: &str) -> Option<(String, bool)> {
    let rest = line.trim_start();
    let public = rest.starts_with("pub ");
    let at = rest.find("fn ")?;
    let before = rest[..at].trim();
    if !matches!(before, "" | "pub" | "pub extern \"C\"") {
        return None;
    }
    let name = rest[at + 3..].split(['(', '<']).next()?;
    Some((name.to_string(), public))
}

fn antt(text: &str) -> Vec<Declaration> {
    let lines: Vec<_> = text.lines().collect();
    let mut found: Vec<Declaration> = Vec::new();
    let mut members: Option<usize> = None;
    for (number, raw) in lines.iter().enumerate() {
        let line = code(raw, false);
        if line.trim().is_empty() {
            continue;
        }
        let depth = indent(line);
        if members.is_some_and(|record| depth > record) {
            continue;
        }
        members = None;
        let Some((name, public, has_members)) = declared(line) else {
            continue;
        };
        for one in found
            .iter_mut()
            .filter(|one| one.end == usize::MAX && one.indent >= depth)
        {
            one.end = number;
        }
        if has_members {
            members = Some(depth);
        }
        found.push(Declaration {
            name,
            public,
            first: number,
            end: usize::MAX,
            indent: depth,
        });
    }
    found
}

fn rattle(text: &str) -> Vec<Declaration> {
    let mut found: Vec<Declaration> = Vec::new();
    for (number, line) in text.lines().enumerate() {
        let Some((name, public)) = function(code(line, true)) else {
            continue;
        };
        if let Some(last) = found.last_mut() {
            last.end = number;
        }
        found.push(Declaration {
            name,
            public,
            first: number,
            end: usize::MAX,
            indent: indent(line),
        });
    }
    found
}

pub fn declarations(source: &Source) -> Vec<Declaration> {
    if source.is_code() {
        rattle(&source.text)
    } else {
        antt(&source.text)
    }
}
