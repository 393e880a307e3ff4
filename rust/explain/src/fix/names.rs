//! Possible fixes of the numbers 6, 7, 9 and 10: a name that is near, a
//! declaration that is missing, another type, a variable of its own.

use super::chains;
use super::draft::{both, delete, insert, named, replace, Candidate, Draft};
use super::form::rewritten;
use crate::nearest::nearest;
use crate::script::shown;
use model::faults::{Fault, Role};
use model::names::{declarations, resolve_noted};
use model::text::{self, Line};

/// Numbers 6, 7 and 9.
pub fn candidates(text: &[u8], draft: &Draft, at: usize) -> Vec<Candidate> {
    let Ok(lines) = text::lines(text) else {
        return Vec::new();
    };
    let Err(noted) = resolve_noted(&lines) else {
        return Vec::new();
    };
    match noted.fault {
        Fault::Undeclared(name, Role::Variable) => variable(draft, at, &shown(name)),
        Fault::Undeclared(name, Role::Class) => class(draft, at, &shown(name)),
        Fault::Undeclared(name, Role::Field(class)) => {
            field(draft, at, &shown(name), &shown(class))
        }
        Fault::Undeclared(name, Role::Method(class)) => {
            method(&lines, draft, at, &shown(name), class)
        }
        Fault::Twice(name) => twice(draft, at, &shown(name)),
        Fault::Assigned(name) => own(draft, at, &shown(name)),
        Fault::Same(name) => result(draft, at, &shown(name)),
        Fault::NoLink(x, field, _) => {
            let linked = chains::linked(draft, at, &shown(x), &shown(field));
            linked.into_iter().chain(types(draft, at)).collect()
        }
        _ => types(draft, at),
    }
}

/// The line with each field of one name given another.
fn renamed(line: &[String], from: &str, to: &str) -> Vec<String> {
    let field = |field: &String| match field.split_once('.') {
        Some((x, f)) if x == from => format!("{to}.{f}"),
        Some((x, f)) if f == from => format!("{x}.{to}"),
        None if field == from => to.to_string(),
        _ => field.clone(),
    };
    line.iter().map(field).collect()
}

/// The line with a name that is near.
fn near(draft: &Draft, at: usize, name: &str, known: &[String]) -> Option<Candidate> {
    let near = nearest(name, known.iter().map(String::as_str))?;
    Some(rewritten(at, &renamed(&draft.lines[at], name, near)))
}

fn variable(draft: &Draft, at: usize, name: &str) -> Vec<Candidate> {
    let Some((first, _)) = draft.block(at) else {
        return Vec::new();
    };
    let mut known: Vec<String> = draft
        .variables(first)
        .into_iter()
        .map(|var| var.0)
        .collect();
    if draft.word(first) == "method" {
        known.extend(["this", "result"].map(str::to_string));
    }
    let mut found: Vec<Candidate> = near(draft, at, name, &known).into_iter().collect();
    if named(name) {
        let slot = draft.vars_end(first);
        let var = |kind: String| insert(slot, &format!("var\t{kind}\t{name}"));
        found.extend(draft.types().into_iter().map(var));
        let header = &draft.lines[first];
        if header.len() == 5 {
            let mut header = header.clone();
            header[4] = name.to_string();
            found.push(rewritten(first, &header));
        }
    }
    found.extend(atom_moved(draft, at, name));
    found
}

/// An atom of `requires` that names `result`, moved to `ensures`.
fn atom_moved(draft: &Draft, at: usize, name: &str) -> Option<Candidate> {
    let line = &draft.lines[at];
    if line[0] != "requires" || name != "result" {
        return None;
    }
    let atoms: Vec<&[String]> = line[1..].chunks(3).collect();
    let names = |atom: &&[String]| {
        let mut fields = atom.iter();
        fields.any(|field| field.split('.').next() == Some("result"))
    };
    let (moved, kept): (Vec<_>, Vec<_>) = atoms.into_iter().partition(names);
    let head = |word: &str| vec![word.to_string()];
    let requires = [head("requires"), kept.concat()].concat();
    let ensures = [draft.lines.get(at + 1)?.clone(), moved.concat()].concat();
    Some(both(rewritten(at, &requires), rewritten(at + 1, &ensures)))
}

fn class(draft: &Draft, at: usize, name: &str) -> Vec<Candidate> {
    let mut found = Vec::new();
    let line = &draft.lines[at];
    if let [_, kind, other] = &line[..] {
        if draft.types().contains(other) {
            let turned = [line[0].clone(), other.clone(), kind.clone()];
            found.push(rewritten(at, &turned));
        }
    }
    found.extend(near(draft, at, name, &draft.types()));
    if named(name) {
        let may =
            |place: &usize| matches!(draft.word(*place), "field" | "method" | "main" | "class");
        let places = (0..draft.lines.len()).filter(may);
        found.extend(places.map(|place| insert(place, &format!("class\t{name}"))));
    }
    found
}

fn field(draft: &Draft, at: usize, name: &str, class: &str) -> Vec<Candidate> {
    let lines = &draft.lines;
    let declares =
        |line: &Vec<String>| line[0] == "class" && line.get(1).is_some_and(|c| c == class);
    let Some(start) = lines.iter().position(declares) else {
        return Vec::new();
    };
    let fields = lines[start + 1..]
        .iter()
        .take_while(|line| line[0] == "field");
    let known: Vec<String> = fields.filter_map(|line| line.get(2).cloned()).collect();
    let end = start + 1 + known.len();
    let mut found: Vec<Candidate> = near(draft, at, name, &known).into_iter().collect();
    if named(name) {
        let line = |kind: String| insert(end, &format!("field\t{kind}\t{name}"));
        found.extend(draft.types().into_iter().map(line));
    }
    found
}

fn method(lines: &[Line], draft: &Draft, at: usize, name: &str, class: &[u8]) -> Vec<Candidate> {
    let program = declarations(lines);
    let own = program.class(class).map(|at| &program.classes[at].methods);
    let blocks = own.into_iter().flatten();
    let headers = blocks.filter_map(|&block| program.blocks[block].header);
    let known: Vec<String> = headers.map(|header| shown(header.name)).collect();
    let mut found: Vec<Candidate> = near(draft, at, name, &known).into_iter().collect();
    // A class line that is missing gives a method to the class before it.
    let missing = draft.missing_types();
    let may = |place: &usize| matches!(draft.word(*place), "field" | "method");
    for place in (0..draft.lines.len()).filter(may) {
        found.extend(
            missing
                .iter()
                .map(|name| insert(place, &format!("class\t{name}"))),
        );
    }
    found
}

fn twice(draft: &Draft, at: usize, name: &str) -> Vec<Candidate> {
    let mut found = vec![delete(at)];
    if let Some((first, last)) = draft.block(at) {
        let fresh = draft.fresh(first, last);
        found.push(rewritten(at, &renamed(&draft.lines[at], name, &fresh)));
    }
    for missing in draft.missing_types() {
        found.push(insert(at, &format!("class\t{missing}")));
    }
    found
}

/// A variable of its own for a parameter, or for `this` or `result`, from the line
/// on to the end of the block.
fn own(draft: &Draft, at: usize, name: &str) -> Vec<Candidate> {
    let Some((first, last)) = draft.block(at) else {
        return Vec::new();
    };
    let fresh = draft.fresh(first, last);
    let slot = draft.vars_end(first);
    let lines = at..last.min(draft.lines.len());
    let names = |line: &usize| renamed(&draft.lines[*line], name, &fresh) != draft.lines[*line];
    let replaced = |line: usize| rewritten(line, &renamed(&draft.lines[line], name, &fresh));
    let rest = lines.filter(names).map(replaced).reduce(both);
    let mut found = Vec::new();
    if name == "result" {
        if let [word, _, value] = &draft.lines[at][..] {
            if word == "let" && named(value) {
                found.push(replace(at, &format!("return\t{value}")));
            }
        }
    }
    for kind in draft.types() {
        let var = insert(slot, &format!("var\t{kind}\t{fresh}"));
        let rest = rest.clone().map(|rest| both(var, rest));
        found.extend(rest.map(|fix| Candidate {
            words: format!("give `{fresh}` the value in the place of `{name}`: `var {kind} {fresh}`, and `{fresh}` for `{name}` from line {} on", at + 1),
            ..fix
        }));
    }
    found
}

/// Another variable for the result of a call.
fn result(draft: &Draft, at: usize, name: &str) -> Vec<Candidate> {
    let Some((first, last)) = draft.block(at) else {
        return Vec::new();
    };
    let mut line = draft.lines[at].clone();
    let fresh = draft.fresh(first, last);
    let known = draft.variables(first);
    let kind = known.iter().find(|var| var.0 == name).map(|var| &var.1);
    let slot = draft.vars_end(first);
    line[1].clone_from(&fresh);
    let taken = rewritten(at, &line);
    let declared = kind.map(|kind| insert(slot, &format!("var\t{kind}\t{fresh}")));
    declared.map(|var| both(var, taken)).into_iter().collect()
}

/// Number 7: another type for what the line names, or `null` for 0.
fn types(draft: &Draft, at: usize) -> Vec<Candidate> {
    let line = &draft.lines[at];
    let mut found = Vec::new();
    for place in (1..line.len()).filter(|&place| line[place] == "0") {
        let mut line = line.clone();
        line[place] = "null".to_string();
        found.push(rewritten(at, &line));
    }
    let names = draft.names(at..at + 1);
    let block = draft.block(at);
    for (place, declared) in draft.lines.iter().enumerate() {
        let inside = block.is_some_and(|(first, last)| (first..last).contains(&place));
        let name = declared.last().filter(|name| names.contains(*name));
        let own = declared[0] == "var" && inside && name.is_some();
        let field = declared[0] == "field";
        let field = field
            && line[1..].iter().any(|used| {
                let last = used.rsplit('.').next();
                last == declared.last().map(String::as_str)
            });
        if own || field {
            found.extend(retyped(draft, place, 1));
        }
        let called = declared[0] == "method" && line.get(3) == declared.get(2);
        let within = block.is_some_and(|(first, _)| first == place);
        if declared[0] == "method" && (called || within) {
            found.extend(retyped(draft, place, 1));
            found.extend(retyped(draft, place, 3));
        }
    }
    found
}

/// A declaration with each other type.
fn retyped(draft: &Draft, at: usize, place: usize) -> Vec<Candidate> {
    let line = &draft.lines[at];
    let kinds = draft.types().into_iter();
    let kinds = kinds.filter(|kind| line.get(place) != Some(kind));
    let with = |kind: String| {
        let mut line = line.clone();
        line[place] = kind;
        rewritten(at, &line)
    };
    kinds.map(with).collect()
}

/// Number 10: the permission before the atom, or after the condition of a `loop`.
pub fn framed(text: &[u8], draft: &Draft, at: usize) -> Vec<Candidate> {
    let lines = text::lines(text).unwrap_or_default();
    let Some((atom, x, f)) = lines.get(at).and_then(model::framing::unframed_in) else {
        return Vec::new();
    };
    let line = &draft.lines[at];
    let first = 1 + 3 * atom;
    if line[1..]
        .chunks(3)
        .any(|atom| *atom == ["chain".to_string(), shown(x), shown(f)])
    {
        return chains::unread(line, at, first);
    }
    let half = ["read".to_string(), shown(x), shown(f)];
    let acc = match line[first..].chunks(3).any(|atom| *atom == half) {
        true => half,
        false => ["acc".to_string(), shown(x), shown(f)],
    };
    let place = if line[0] == "loop" && atom == 0 {
        line.len()
    } else {
        first
    };
    let mut without: Vec<String> = line.clone();
    let mut moved = place;
    let later = line[1..].chunks(3).position(|atom| *atom == acc);
    if let Some(later) = later.filter(|later| 1 + 3 * later > first) {
        without.drain(1 + 3 * later..4 + 3 * later);
        moved = place.min(without.len());
    }
    let put = |line: &[String], place: usize| {
        let mut line = line.to_vec();
        line.splice(place..place, acc.clone());
        line
    };
    let said = format!("put `{}` into line {}", acc.join(" "), at + 1);
    let named = |fix: Candidate| Candidate {
        words: said.clone(),
        ..fix
    };
    let own = named(rewritten(at, &put(&without, moved)));
    let mut found = vec![own.clone()];
    // What a method asks for it usually gives back, and what it gives back it needs.
    for other in [at.wrapping_sub(1), at + 1] {
        if matches!(draft.word(other), "requires" | "ensures") && line[0] != "join" {
            let contract = put(&draft.lines[other], 1);
            let words = format!("put it into line {}", other + 1);
            let contract = Candidate {
                words,
                ..rewritten(other, &contract)
            };
            found.push(both(own.clone(), contract));
        }
    }
    found
}
