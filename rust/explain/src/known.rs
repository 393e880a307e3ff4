//! What the checker knows before and after a line.

use crate::json::Json;
use crate::objects;
use crate::report::Report;
use crate::script::{quoted, Script};
use crate::show::{rows, wrapped, Paint};
use model::checker::{simple, Fact, Permission, State, Term};
use model::limits;
use model::names::{Action, Statement};
use model::text::Share;
use model::watch::Record;
use std::fmt::Write;

/// What is known around one statement line.
#[derive(Clone, Debug, Default, PartialEq, Eq)]
pub struct Known {
    /// The line.
    pub line: u32,
    /// The atoms before it; none if the check did not come there.
    pub before: Option<Vec<String>>,
    /// The atoms after it.
    pub after: Option<Vec<String>>,
    /// Since before the line; of `else` since before its `if`.
    pub added: Vec<String>,
    /// As for `added`.
    pub dropped: Vec<String>,
    /// Atoms that gave way to others: each with the one that took its place.
    pub turned: Vec<(String, String)>,
    /// The line before ends the method.
    pub returned: bool,
}

impl Known {
    /// Why nothing is known before the line.
    fn absence(&self) -> &'static str {
        match self.returned {
            true => "nothing: no run comes here from the line before, which returns",
            false => "the check did not come here",
        }
    }
}

/// The items of one list that are not in the other; of two alike each counts.
fn without(items: &[String], other: &[String]) -> Vec<String> {
    let mut other = other.to_vec();
    let mut left = Vec::new();
    for item in items {
        match other.iter().position(|one| one == item) {
            Some(at) => {
                other.swap_remove(at);
            }
            None => left.push(item.clone()),
        }
    }
    left
}

/// What takes the place of a term at a statement. The rule itself is asked: a
/// fact that names the term and a number which nothing else names is followed.
fn heir<'a>(
    script: &Script<'a>,
    place: usize,
    before: &State<'a>,
    term: Term<'a>,
) -> Option<Term<'a>> {
    let named = |number: &i32| {
        let number = Term::Number(*number);
        let facts = before.facts.iter();
        facts
            .flat_map(|fact| [fact.left, fact.right])
            .any(|side| side == number)
    };
    let mark = Term::Number((i32::MIN..).find(|number| !named(number))?);
    let room = before.facts.len() < limits::FACTS;
    let mut state = Some(before.clone()).filter(|_| room)?;
    state.facts.insert(
        0,
        Fact {
            equal: false,
            left: term,
            right: mark,
        },
    );
    let block = &script.program.blocks[script.block_of(place)];
    let action = &script.program.statements[place].action;
    simple(&script.program, block, &mut state, action).ok()?;
    let followed = state.facts.first().filter(|fact| fact.right == mark)?;
    Some(followed.left)
}

/// The path of a permission, or the variable of a chain.
fn named<'a>(held: &Permission<'a>) -> Term<'a> {
    held.path().unwrap_or(Term::Var(held.var))
}

/// The shares that a permission may have after a line, its own first: a half may go,
/// or come back.
fn shares(held: &Permission) -> impl Iterator<Item = Share> {
    let path = held.share.lists_path();
    let halves = Share::OF_PATHS.into_iter().filter(move |_| path);
    [held.share].into_iter().chain(halves)
}

/// The atoms that are dropped and have others in their place, which are added:
/// they are taken from both lists.
fn turned<'a>(
    script: &Script<'a>,
    place: usize,
    before: &State<'a>,
    added: &mut Vec<String>,
    dropped: &mut Vec<String>,
) -> Vec<(String, String)> {
    let names = script.names_at(place);
    let heir = |term| heir(script, place, before, term);
    // A chain is no path: it goes with its variable.
    let permission = |held: &Permission<'a>, share| match heir(named(held))? {
        Term::Path(var, field) => Some(names.held(&Permission { share, var, field })),
        Term::Var(var) => Some(names.held(&Permission { var, ..*held })),
        _ => None,
    };
    let fact = |fact: &Fact<'a>| {
        let (left, right) = (heir(fact.left)?, heir(fact.right)?);
        Some(names.fact(&Fact {
            left,
            right,
            ..*fact
        }))
    };
    let mut turned = Vec::new();
    let mut turn = |from: String, to: &dyn Fn() -> Option<String>| {
        let Some(gone) = dropped.iter().position(|atom| *atom == from) else {
            return;
        };
        let new = to().and_then(|to| added.iter().position(|atom| *atom == to));
        if let Some(new) = new {
            dropped.remove(gone);
            turned.push((from, added.remove(new)));
        }
    };
    for held in &before.permissions {
        for share in shares(held) {
            turn(names.held(held), &|| permission(held, share));
        }
    }
    for known in &before.facts {
        turn(names.fact(known), &|| fact(known));
    }
    turned
}

/// The state before the `if` of an `else`, from which its branch starts.
fn opened<'r, 'a>(
    script: &Script<'a>,
    record: &'r Record<'a>,
    place: usize,
) -> Option<&'r State<'a>> {
    let opens = |statement: &Statement| match statement.action {
        Action::If(branch) => branch.other == place,
        _ => false,
    };
    let at = script.program.statements.iter().position(opens)?;
    record.seen[at].before.as_ref()
}

/// What is known around each statement line, in order; lines that the check
/// did not come to know nothing. None at all for a text with number 10.
pub fn all(script: &Script) -> Vec<Known> {
    let Some(record) = Record::of(&script.lines, &script.program) else {
        return Vec::new();
    };
    let statements = script.program.statements.iter().zip(&record.seen);
    let rows = statements.enumerate().map(|(place, (statement, seen))| {
        let names = script.names_at(place);
        let before = seen.before.as_ref().map(|state| names.state(state));
        let after = seen.after.as_ref().map(|state| names.state(state));
        let returned = place
            .checked_sub(1)
            .filter(|&last| record.seen[last].after.is_some())
            .is_some_and(|last| script.returns(last));
        let since = match statement.action {
            Action::Else(_) => opened(script, &record, place).map(|state| names.state(state)),
            _ if returned => Some(Vec::new()),
            _ => before.clone(),
        };
        let (mut added, mut dropped) = match (&since, &after) {
            (Some(since), Some(after)) => (without(after, since), without(since, after)),
            _ => Default::default(),
        };
        let turned = match (&statement.action, &seen.before) {
            (Action::If(_) | Action::Else(_) | Action::Join(_) | Action::End, _) => Vec::new(),
            (Action::Loop(_) | Action::Again(_), _) => Vec::new(),
            (_, Some(state)) => turned(script, place, state, &mut added, &mut dropped),
            _ => Vec::new(),
        };
        Known {
            line: statement.line,
            before,
            after,
            added,
            dropped,
            turned,
            returned,
        }
    });
    rows.collect()
}

/// The statement line at a line, or the next one in the text.
pub fn at(script: &Script, line: u32) -> Option<Known> {
    all(script).into_iter().find(|known| known.line >= line)
}

fn list(out: &mut String, heading: &str, atoms: Result<&Vec<String>, &str>) {
    match atoms {
        Err(absence) => wrapped(out, heading, absence),
        Ok(atoms) if atoms.is_empty() => wrapped(out, heading, "nothing"),
        Ok(atoms) => rows(out, heading, &joined(atoms)),
    }
}

/// Each atom but the last with a comma.
fn joined(atoms: &[String]) -> Vec<String> {
    let last = atoms.len().saturating_sub(1);
    let comma = |at| if at < last { "," } else { "" };
    let atoms = atoms.iter().enumerate();
    atoms
        .map(|(at, atom)| format!("{atom}{}", comma(at)))
        .collect()
}

/// `eq s.n b into eq a b`, for each atom that gave way.
fn turns(known: &Known) -> Vec<String> {
    let turned = known.turned.iter();
    turned
        .map(|(from, to)| format!("{from} into {to}"))
        .collect()
}

/// One line in full.
pub fn full(script: &Script, known: &Known) -> String {
    let mut out = String::new();
    let before = known.before.as_ref().ok_or(known.absence());
    list(&mut out, "  before: ", before);
    if !known.dropped.is_empty() {
        list(&mut out, "  drops:  ", Ok(&known.dropped));
    }
    if !known.turned.is_empty() {
        list(&mut out, "  turns:  ", Ok(&turns(known)));
    }
    if !known.added.is_empty() {
        list(&mut out, "  adds:   ", Ok(&known.added));
    }
    let ends = script
        .statement_at(known.line)
        .is_some_and(|place| matches!(script.program.statements[place].action, Action::End));
    if !ends {
        let after = known.after.as_ref().ok_or("the check did not come here");
        list(&mut out, "  after:  ", after);
    }
    out
}

fn signed(out: &mut String, sign: &str, atoms: &[String]) {
    if !atoms.is_empty() {
        rows(out, &format!("     {sign} "), &joined(atoms));
    }
}

/// Every block with what it starts from, and every line with what it drops, what
/// gives way there and what it adds, or why it is refused.
pub fn changes(script: &Script, all: &[Known], report: &Report, paint: Paint) -> String {
    let mut out = String::new();
    let row = |out: &mut String, line: u32| {
        let number = paint.side(&format!("{line:>4}"));
        let _ = writeln!(out, "{number} {}", quoted(script.text, line));
    };
    for (place, known) in all.iter().enumerate() {
        let block = script.block_of(place);
        if script.program.blocks[block].start == place {
            row(&mut out, script.block_line(block));
            signed(&mut out, "+", known.before.as_deref().unwrap_or_default());
        }
        row(&mut out, known.line);
        if known.before.is_none() && !known.returned {
            wrapped(&mut out, "       ", known.absence());
        }
        signed(&mut out, "-", &known.dropped);
        signed(&mut out, "~", &turns(known));
        signed(&mut out, "+", &known.added);
        let refusal = report.refusal.filter(|found| found.line() == known.line);
        if let Some(refusal) = refusal {
            let why = report.cause.as_ref().map_or("", |cause| &cause.text);
            let said = format!("number {}: {why}", refusal.number());
            wrapped(&mut out, "     ! ", &said);
        }
    }
    out
}

fn json_of(script: &Script, known: &Known) -> Json {
    let turned = known.turned.iter().map(|(from, to)| {
        Json::object()
            .with("from", from.as_str())
            .with("to", to.as_str())
    });
    Json::object()
        .with("line", known.line)
        .with("text", quoted(script.text, known.line))
        .with("before", known.before.clone())
        .with("after", known.after.clone())
        .with("added", known.added.clone())
        .with("dropped", known.dropped.clone())
        .with("turned", Json::List(turned.collect()))
}

/// Check's answer, and what is found at lines, as JSON.
pub fn json(script: &Script, report: &Report, found: &[Known]) -> Json {
    let lines: Vec<Json> = found.iter().map(|known| json_of(script, known)).collect();
    let object = Json::object()
        .with("file", report.file)
        .with("call", "known");
    objects::check(object, report).with("lines", lines)
}
