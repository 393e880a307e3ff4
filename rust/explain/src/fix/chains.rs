//! Possible fixes of what has to do with chains: lines that shut or open one, and
//! what lets a `shut` know where its link leads.

use super::draft::{both, delete, insert, Candidate, Draft};
use super::form::rewritten;
use super::rules::Refused;
use crate::cause::chains::{way, End};
use crate::script::shown;
use model::checker::Term;
use model::names::{Action, Atom, Expr, Path, Type, Var, FIRST_LOCAL, PARAM, RESULT, THIS};
use model::text::Share;
use model::watch::Purpose;

impl Refused<'_, '_> {
    /// Does the line at a place give a variable a value?
    fn assigns(&self, place: usize, var: Var) -> bool {
        match self.unshown.script.program.statements[place].action {
            Action::Let(x, _) | Action::New(x, _) => x == var,
            Action::Call(call) => call.x == var,
            Action::Open(open) => open.y == var,
            _ => false,
        }
    }
}

/// So many places before the line are tried.
const PLACES: usize = 14;

/// What is tried first: what is held made one chain, or the link of a chain that is
/// held taken out, by the line itself or before it.
pub fn first(refused: &Refused) -> Vec<Candidate> {
    let mut found: Vec<Candidate> = whole(refused).into_iter().collect();
    found.extend(instead(refused));
    found.extend(taken_out(refused));
    let asked = found.iter().filter_map(|fix| not_null(refused, fix));
    let asked: Vec<Candidate> = asked.collect();
    found.extend(asked);
    found
}

/// The same in a method that then asks for a card, where the chain may be null.
fn not_null(refused: &Refused, fix: &Candidate) -> Option<Candidate> {
    let Atom::Permission(_, path) = refused.wanted() else {
        return None;
    };
    let script = refused.unshown.script;
    let own = matches!(path.var, THIS | PARAM);
    let method = script.program.blocks[refused.block()].header.is_some();
    let (requires, _) = script.contract_lines(refused.block());
    let atom = format!("ne {} null", refused.name(path.var));
    let asks = refused.with_atom(requires as usize - 1, &atom)?;
    (own && method).then(|| both(fix.clone(), asks))
}

/// What is tried last: lines that shut, open or begin a chain.
pub fn last(refused: &Refused) -> Vec<Candidate> {
    let mut found = shut(refused);
    found.extend(opened(refused));
    found.extend(began(refused));
    found
}

/// Where the links that are known make a ring: the line that closed it left out, and
/// what is then a chain shut. Nothing else is tried for a ring.
pub fn unclosed(refused: &Refused) -> Option<Vec<Candidate>> {
    let path = wanted(refused)?;
    let state = &refused.unshown.asked.state;
    let way = way(state, path);
    let End::Ring(first) = way.end else {
        return None;
    };
    let names = refused.unshown.names();
    let statements = &refused.unshown.script.program.statements;
    let mut found = Vec::new();
    for &place in refused.places.iter().rev() {
        let Action::Set(set, _) = statements[place].action else {
            continue;
        };
        let equal = state.equals(Term::Var(set.var));
        let card = |card: &Var| equal.contains(&Term::Var(*card)) && set.field == path.field;
        let Some(at) = way.cards.iter().position(card).filter(|&at| at >= first) else {
            continue;
        };
        let own = usize::from(refused.unshown.asked.rest.is_some());
        let cards = way.cards[own.min(at + 1)..=at].iter().rev();
        let line = |&var: &Var| format!("shut\t{}\t{}", names.var(var), shown(path.field));
        let lines = cards.map(|var| insert(here(refused), &line(var)));
        found.extend(
            [delete(refused.line_of(place))]
                .into_iter()
                .chain(lines)
                .reduce(both),
        );
    }
    Some(found)
}

/// Number 7: a field by which a chain can go, in the place of one by which none can.
pub fn linked(draft: &Draft, at: usize, x: &str, field: &str) -> Vec<Candidate> {
    let mut class = "";
    let mut found = Vec::new();
    for declared in &draft.lines {
        match &declared[..] {
            [word, name] if word == "class" => class = name,
            [word, kind, name] if word == "field" && kind == class => {
                let mut line = draft.lines[at].clone();
                let pairs = 1..line.len();
                for place in pairs.filter(|&place| draft.lines[at][place - 1] == x) {
                    if line[place] == field {
                        line[place].clone_from(name);
                    }
                }
                found.push(rewritten(at, &line));
            }
            _ => {}
        }
    }
    found
}

/// Number 10: the line without the atom that reads a link of a chain.
pub fn unread(line: &[String], at: usize, first: usize) -> Vec<Candidate> {
    let condition = line[0] == "loop" && first == 1;
    let atom = line[first..first + 3].join(" ");
    let rest = [&line[..first], &line[first + 3..]].concat();
    let fix = Candidate {
        words: format!("leave `{atom}` out of line {}", at + 1),
        ..rewritten(at, &rest)
    };
    Some(fix).filter(|_| !condition).into_iter().collect()
}

/// Would a line with a further atom ask for a link and for the chain that it is in?
pub fn clashes(line: &[String], further: &[String]) -> bool {
    let chain = |atom: &[String]| atom[0] == Share::Chain.word();
    let path = |atom: &[String]| Share::named(atom[0].as_bytes()).is_some();
    let atoms = line.get(1..).unwrap_or_default().chunks(3);
    atoms
        .filter(|atom| path(atom) && path(further))
        .any(|atom| atom[1..] == further[1..] && chain(atom) != chain(further))
}

/// Further atoms that would let a `shut` pass: that its link leads to a card whose
/// chain is held.
pub fn ways<'a>(refused: &Refused<'_, 'a>) -> Vec<Atom<'a>> {
    let asked = refused.unshown.asked;
    let Some(path) = asked.rest else {
        return Vec::new();
    };
    let names = refused.unshown.names();
    let held = asked.state.permissions.iter().filter(|held| {
        (held.share, held.field) == (Share::Chain, path.field)
            && names.kind(held.var) == names.kind(path.var)
    });
    held.map(|held| Atom::Eq(Expr::Path(path), Expr::Var(held.var)))
        .collect()
}

/// The path whose chain is wanted: an atom's, or that of a `shut` itself.
fn wanted<'a>(refused: &Refused<'_, 'a>) -> Option<Path<'a>> {
    match (refused.unshown.asked.rest, refused.wanted()) {
        (Some(path), _) => Some(path),
        (_, Atom::Permission(Share::Chain, path)) => Some(path),
        _ => None,
    }
}

/// The line, from 0, at whose end the state is asked: that of the first branch ends
/// with its `else`.
fn here(refused: &Refused) -> usize {
    refused.line_of(refused.unshown.target())
}

/// The places to try, the nearest first.
fn places(refused: &Refused) -> Vec<usize> {
    let before = refused.places.iter().rev().take(PLACES);
    let mut places = vec![here(refused)];
    places.extend(before.map(|&place| refused.line_of(place)));
    places.dedup();
    places
}

/// The `shut` lines that make one chain of what is held.
fn whole(refused: &Refused) -> Option<Candidate> {
    let path = wanted(refused)?;
    let mut way = way(&refused.unshown.asked.state, path);
    if refused.unshown.asked.rest.is_some() {
        // The line itself shuts the first card.
        way.cards.remove(0);
    }
    let lines = way.shut(&refused.unshown.names(), path.field).into_iter();
    let lines = lines.map(|line| insert(here(refused), &line.replace(' ', "\t")));
    lines.reduce(both).filter(|_| way.end == End::Held)
}

/// A `shut` of any card of the block, at lines before, where it may have been whole.
fn shut(refused: &Refused) -> Vec<Candidate> {
    let Some(path) = wanted(refused) else {
        return Vec::new();
    };
    let names = refused.unshown.names();
    let mut found = Vec::new();
    for var in refused.of_kind(names.kind(path.var)) {
        let line = format!("shut\t{}\t{}", names.var(var), shown(path.field));
        found.extend(places(refused).iter().map(|&at| insert(at, &line)));
    }
    found
}

/// `open` at lines before, where a path or a chain is wanted.
fn opened(refused: &Refused) -> Vec<Candidate> {
    let names = refused.unshown.names();
    let mut found: Vec<Candidate> = Vec::new();
    let permission = match (refused.wanted(), refused.unshown.asked.rest) {
        (Atom::Permission(_, path), _) | (_, Some(path)) => path,
        _ => return found,
    };
    let kind = names.kind(permission.var);
    let local = |var: &Var| (FIRST_LOCAL..RESULT).contains(var);
    let cards = refused.of_kind(kind);
    for &y in cards.iter().filter(|var| local(var)) {
        for &x in cards.iter().filter(|&&x| x != y) {
            let field = shown(permission.field);
            let line = format!("open\t{}\t{}\t{field}", names.var(y), names.var(x));
            found.extend(places(refused).iter().map(|&at| insert(at, &line)));
        }
    }
    found
}

/// `let y x.f` written as `open y x f`.
fn instead(refused: &Refused) -> Option<Candidate> {
    let path = refused.unshown.read?;
    let Action::Let(y, _) = refused.unshown.action() else {
        return None;
    };
    let names = refused.unshown.names();
    let (y, x) = (names.var(*y), names.var(path.var));
    let fields = ["open", &y, &x, &shown(path.field)].map(str::to_string);
    let value = refused.unshown.asked.purpose == Purpose::Value;
    value.then(|| rewritten(refused.here(), &fields))
}

/// A variable of its own that takes the next card where a link is wanted of a chain
/// that is held.
fn taken_out(refused: &Refused) -> Option<Candidate> {
    let Atom::Permission(Share::Acc | Share::Read, path) = refused.wanted() else {
        return None;
    };
    let state = &refused.unshown.asked.state;
    let chain = Atom::Permission(Share::Chain, path);
    let held = state.show(&[chain]).is_ok() && refused.unshown.asked.rest.is_none();
    let Some(Type::Class(class)) = refused.unshown.names().kind(path.var).filter(|_| held) else {
        return None;
    };
    let (first, last) = refused.draft.block(refused.here())?;
    let name = refused.draft.fresh(first, last);
    let slot = refused.draft.vars_end(first);
    let var = insert(slot, &format!("var\t{}\t{name}", shown(class)));
    let (x, f) = (refused.name(path.var), shown(path.field));
    Some(both(
        var,
        insert(here(refused), &format!("open\t{name}\t{x}\t{f}")),
    ))
}

/// A chain that is begun: with null, or with a card that is made and shut at once.
fn began(refused: &Refused) -> Vec<Candidate> {
    let Atom::Permission(Share::Chain, path) = refused.wanted() else {
        return Vec::new();
    };
    let fresh = !refused
        .places
        .iter()
        .any(|&place| refused.assigns(place, path.var));
    let local = (FIRST_LOCAL..RESULT).contains(&path.var) && fresh;
    let Some(Type::Class(class)) = refused.unshown.names().kind(path.var).filter(|_| local) else {
        return Vec::new();
    };
    let (x, f) = (refused.name(path.var), shown(path.field));
    let none = format!("let\t{x}\tnull");
    let mut found: Vec<Candidate> = places(refused)
        .iter()
        .map(|&at| insert(at, &none))
        .collect();
    found.extend(places(refused).iter().map(|&at| {
        let made = insert(at, &format!("new\t{x}\t{}", shown(class)));
        both(made, insert(at, &format!("shut\t{x}\t{f}")))
    }));
    found
}
