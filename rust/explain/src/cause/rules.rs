//! Numbers 11 to 14: which atom is not shown, for what, where it went, and what
//! comes nearest to it.

use super::chains;
use super::half_helps;
use super::halves;
use super::heads::head;
use super::helps::help;
use super::limits::limit;
use super::route::{dropped, lost, route, told, told_fact, Step};
use super::Cause;
use crate::script::{field_range, line, listed, shown, Names, Script};
use model::checker::{Permission, State, Term};
use model::limits;
use model::names::{Action, Atom, Expr, Path, Statement};
use model::number::Reason;
use model::text::Share;
use model::watch::{Asked, Purpose, Record};
use std::ops::Range;

/// At most that many known terms are listed.
const LISTED: usize = 6;

/// What is not shown: the atom as asked, and what has to be shown for it, a
/// permission where a path does not resolve.
pub struct Unshown<'s, 'a> {
    pub script: &'s Script<'a>,
    pub asked: &'s Asked<'a>,
    /// The place of the atom in the formula.
    pub place: Option<usize>,
    pub wanted: Atom<'a>,
    /// The path that is read and does not resolve.
    pub read: Option<Path<'a>>,
}

impl<'s, 'a> Unshown<'s, 'a> {
    pub fn of(script: &'s Script<'a>, asked: &'s Asked<'a>) -> Option<Unshown<'s, 'a>> {
        let bare = |expr: Expr<'a>| match expr {
            Expr::Path(path) if asked.state.resolve(expr).is_err() => Some(path),
            _ => None,
        };
        let place = asked.unshown();
        if let Some(path) = asked.rest {
            let wanted = chains::rest(script, &asked.state, asked.place, path);
            return Some(Unshown::wanting(script, asked, wanted));
        }
        let (wanted, read) = match (asked.read, place) {
            (Some(expr), _) if asked.purpose == Purpose::Shut => {
                (Atom::Permission(Share::Acc, bare(expr)?), None)
            }
            (Some(expr), _) => {
                let path = bare(expr)?;
                (Atom::Permission(Share::Read, path), Some(path))
            }
            (None, Some(at)) => {
                let atom = asked.show[at];
                let read = match atom {
                    Atom::Permission(..) => None,
                    Atom::Eq(left, right) | Atom::Ne(left, right) => {
                        bare(left).or_else(|| bare(right))
                    }
                };
                let needed = read.map(|path| Atom::Permission(Share::Read, path));
                (needed.unwrap_or(atom), read)
            }
            (None, None) => return None,
        };
        Some(Unshown {
            script,
            asked,
            place,
            wanted,
            read,
        })
    }

    /// One atom that no formula has.
    fn wanting(script: &'s Script<'a>, asked: &'s Asked<'a>, wanted: Atom<'a>) -> Self {
        Unshown {
            script,
            asked,
            place: None,
            wanted,
            read: None,
        }
    }

    pub fn names(&self) -> Names<'s, 'a> {
        self.script.names_at(self.asked.place)
    }

    pub fn action(&self) -> &'s Action<'a> {
        &self.script.program.statements[self.asked.place].action
    }

    /// Where the states that led here end: at a `join` with the branch.
    pub fn target(&self) -> usize {
        match self.asked.purpose {
            Purpose::FirstEnd => self.branch().map_or(self.asked.place, |branch| branch.1),
            _ => self.asked.place,
        }
    }

    /// The places of the `if` and `else` of the `join` that asks.
    fn branch(&self) -> Option<(usize, usize)> {
        let statements = self.script.program.statements.iter().enumerate();
        let mut branches = statements.filter_map(|(at, statement)| match &statement.action {
            Action::If(branch) if branch.join == self.asked.place => Some((at, branch.other)),
            _ => None,
        });
        branches.next()
    }

    /// The loop whose invariant is asked for at its `again`.
    pub fn round(&self) -> Option<&'s Statement<'a>> {
        match *self.action() {
            Action::Again(start) => Some(&self.script.program.statements[start]),
            _ => None,
        }
    }

    /// The line that is asked, in words.
    fn said(&self) -> String {
        let names = self.names();
        let wanted = names.atom(self.wanted);
        let needs = match self.read {
            Some(path) => format!(
                "reads `{}`, which needs `{}` or `{wanted}`, and neither is held here",
                names.expr(Expr::Path(path)),
                names.atom(Atom::Permission(Share::Acc, path))
            ),
            None => format!("asks for `{wanted}`"),
        };
        let missing = self.missing();
        match self.asked.purpose {
            Purpose::Value => format!("`let` {needs}"),
            Purpose::Condition => format!("`if` {needs}"),
            Purpose::Write => {
                let path = match self.wanted {
                    Atom::Permission(_, path) => names.expr(Expr::Path(path)),
                    _ => wanted.clone(),
                };
                format!("`set` writes `{path}`, which needs `{wanted}`, and it is {missing} here")
            }
            Purpose::Receiver => {
                format!("the receiver of a call is not null, and `{wanted}` is {missing} here")
            }
            Purpose::Requires => self.requires(&wanted, missing),
            Purpose::FirstEnd | Purpose::SecondEnd => self.end_of_branch(&wanted, missing),
            Purpose::Invariant | Purpose::RoundEnd => self.invariant(&wanted, missing),
            Purpose::Ensures => {
                let block = self.script.block_of(self.asked.place);
                let (_, line) = self.script.contract_lines(block);
                format!("`ensures` (line {line}) promises `{wanted}`, which is {missing} here")
            }
            _ if self.read.is_some() => format!("the line {needs}"),
            Purpose::Open | Purpose::Shut => {
                chains::said(self.asked.purpose, &names, self.wanted, missing)
            }
            _ => format!("`{wanted}` is {missing} here"),
        }
    }

    /// "it is .. here".
    fn missing(&self) -> &'static str {
        match (self.wanted, halves::short(self)) {
            (_, Some(short)) => short.missing(),
            (Atom::Permission(..), _) if self.taken().is_some() => "not held a second time",
            (Atom::Permission(..), _) => "not held",
            _ => "not known",
        }
    }

    fn requires(&self, wanted: &str, missing: &str) -> String {
        let Action::Call(call) = self.action() else {
            return format!("`{wanted}` is {missing} here");
        };
        let method = self.script.names(call.method);
        let (line, _) = self.script.contract_lines(call.method);
        let written = self.place.and_then(|at| method.block.requires.get(at));
        let written = written.map_or(String::new(), |&atom| method.atom(atom));
        let name = method.block.header.map_or(&b""[..], |header| header.name);
        let here = match written == wanted {
            true => String::new(),
            false => format!(", here `{wanted}`"),
        };
        format!(
            "`requires` of `{}` (line {line}) asks for `{written}`{here}, which is {missing}",
            shown(name)
        )
    }

    fn end_of_branch(&self, wanted: &str, missing: &str) -> String {
        let line = |place: usize| self.script.program.statements[place].line;
        let Some((from, other)) = self.branch() else {
            return format!("`{wanted}` is {missing} at the end of a branch");
        };
        let (which, from, to) = match self.asked.purpose {
            Purpose::FirstEnd => ("first", from, other),
            _ => ("second", other, self.asked.place),
        };
        let lines = lines_between(line(from), line(to));
        format!("at the end of the {which} branch, {lines}, `{wanted}` is {missing}")
    }

    fn invariant(&self, wanted: &str, missing: &str) -> String {
        let Some(start) = self.round().map(|opened| opened.line) else {
            return format!(
                "the invariant must hold before the first round, and `{wanted}` is {missing} here"
            );
        };
        let again = self.script.program.statements[self.asked.place].line;
        let lines = lines_between(start, again);
        format!(
            "the invariant (line {start}) must hold again at the end of the body, {lines}, and \
             `{wanted}` is {missing} there"
        )
    }

    /// The bytes of the line to point at.
    fn mark(&self, bytes: &[u8]) -> Option<Range<usize>> {
        let at = self.place.unwrap_or(0);
        let fields = match (self.asked.purpose, self.action()) {
            (Purpose::Value, _) => 2..3,
            (Purpose::Condition, Action::If(branch)) => match (branch.condition, self.asked.read) {
                (Atom::Eq(left, _) | Atom::Ne(left, _), Some(read)) if left == read => 2..3,
                _ => 3..4,
            },
            (Purpose::Write, _) => 1..3,
            (Purpose::Receiver, _) => 2..3,
            (Purpose::Requires, _) => 3..4,
            (Purpose::Ensures | Purpose::RoundEnd, _) => 0..1,
            (Purpose::Invariant, _) => 4 + 3 * at..7 + 3 * at,
            (Purpose::Open, _) => 2..4,
            (Purpose::Shut, _) => 1..3,
            _ => 1 + 3 * at..4 + 3 * at,
        };
        field_range(bytes, fields)
    }

    /// An earlier atom of the formula that took the only permission.
    fn taken(&self) -> Option<String> {
        let names = self.names();
        let at = self.place?;
        if self.read.is_some() || self.asked.state.show(&[self.wanted]).is_err() {
            return None;
        }
        let clash = |atom: &&Atom<'a>| {
            matches!(atom, Atom::Permission(..))
                && self.asked.state.show(&[**atom, self.wanted]).is_err()
        };
        let earlier = *self.asked.show[..at].iter().find(clash)?;
        let (one, other) = (names.atom(earlier), names.atom(self.wanted));
        let Atom::Permission(_, wanted) = self.wanted else {
            return None;
        };
        Some(match earlier {
            _ if one == other => format!("`{one}` is asked for twice, and it is held once"),
            Atom::Permission(share, path) => format!(
                "`{one}` and `{other}` ask for two {}, and `{}` and `{}` are known to be one",
                if share == Share::Chain {
                    "chains"
                } else {
                    "cards"
                },
                names.var(path.var),
                names.var(wanted.var)
            ),
            _ => return None,
        })
    }
}

/// The lines between two lines.
fn lines_between(from: u32, to: u32) -> String {
    match (from + 1, to - 1) {
        (first, last) if first > last => "which has no line".to_string(),
        (first, last) if first == last => format!("line {first}"),
        (first, last) => format!("lines {first} to {last}"),
    }
}

/// The permissions that are held for the field of another card of the class.
fn held_like<'a>(names: &Names, state: &State<'a>, share: Share, path: Path<'a>) -> Vec<String> {
    let like = |held: &&Permission| {
        held.share.lists_path() == share.lists_path() && held.field == path.field
    };
    let held = state.permissions.iter().filter(like);
    let held = held.filter(|held| names.kind(held.var) == names.kind(path.var));
    held.map(|held| names.held(held)).collect()
}

/// What comes nearest to the atom in the state.
fn nearest<'a>(names: &Names, state: &State<'a>, wanted: Atom<'a>) -> Option<String> {
    match wanted {
        Atom::Permission(_, path) if state.equals(Term::Var(path.var)).contains(&Term::Null) => {
            Some(format!("`{}` is known to be null", names.var(path.var)))
        }
        Atom::Permission(share, path) => {
            let held = held_like(names, state, share, path);
            let var = names.var(path.var);
            match held.is_empty() {
                true if state.permissions.is_empty() => Some("no permission is held here".into()),
                true => None,
                false => Some(format!(
                    "held here: {}; `{var}` is not known to equal {}",
                    listed(&held, "and"),
                    if held.len() == 1 {
                        "its card"
                    } else {
                        "one of these cards"
                    }
                )),
            }
        }
        Atom::Eq(left, right) if state.show(&[Atom::Ne(left, right)]).is_ok() => Some(format!(
            "the opposite is known: {}",
            values(names, state, left, right)
        )),
        Atom::Ne(left, right) if state.show(&[Atom::Eq(left, right)]).is_ok() => Some(format!(
            "the opposite is known: `{}`",
            names.atom(Atom::Eq(left, right))
        )),
        Atom::Eq(left, right) | Atom::Ne(left, right) => Some(values(names, state, left, right)),
    }
}

/// What two expressions are known to be.
fn values<'a>(names: &Names, state: &State<'a>, left: Expr<'a>, right: Expr<'a>) -> String {
    let of = |expr: Expr<'a>| {
        let name = names.expr(expr);
        if matches!(expr, Expr::Number(_) | Expr::Null) {
            return None;
        }
        let term = state.resolve(expr).ok()?;
        let equal = state.equals(term).into_iter().skip(1).take(LISTED);
        let equal: Vec<String> = equal.map(|term| names.term(term)).collect();
        Some(match equal.is_empty() {
            true => format!("nothing is known to equal `{name}`"),
            false => format!("`{name}` is known to equal {}", listed(&equal, "and")),
        })
    };
    let said: Vec<String> = [left, right].into_iter().filter_map(of).collect();
    said.join(", ")
}

/// What was known last of one of the sides, where it was lost.
fn went(unshown: &Unshown, steps: &[Step]) -> Option<String> {
    let (Atom::Eq(left, right) | Atom::Ne(left, right)) = unshown.wanted else {
        return None;
    };
    let terms = [left, right].map(|side| unshown.asked.state.resolve(side).ok());
    let named = |term: &Term| matches!(term, Term::Var(_) | Term::Path(..));
    let terms: Vec<Term> = terms.into_iter().flatten().filter(named).collect();
    // A side of which nothing is known any more comes first.
    let bare = |term: &&Term| unshown.asked.state.equals(**term).len() == 1;
    let bare: Vec<Term> = terms.iter().filter(bare).copied().collect();
    let found = dropped(steps, &bare).or_else(|| dropped(steps, &terms));
    let (place, fact) = found?;
    Some(told_fact(unshown.script, place, fact))
}

/// Number 14: what is full.
fn full(script: &Script, record: &Record, number: u32) -> Option<Cause> {
    let place = script.statement_at(number)?;
    let state = record.seen[place].before.as_ref()?;
    let (permissions, facts) = (state.permissions.len(), state.facts.len());
    let bytes = line(script.text, number)?;
    let text = format!(
        "{permissions} permissions and {facts} facts are known before this line; {} of each are \
         the most, and the line adds too many",
        limits::FACTS.min(limits::PERMISSIONS)
    );
    let cause = Cause::new(text).mark(field_range(bytes, 0..usize::MAX));
    let opens = matches!(script.program.statements[place].action, Action::Open(_));
    let opens = opens.then_some("`open` takes a chain, and gives a permission, a fact and a chain");
    let cause = cause.or_note(opens.map(str::to_string));
    // A fact of what is released passes on where something is equal to it.
    Some(match permissions < facts {
        true => cause.help("move a part into a method, whose `ensures` says only what is needed"),
        false => cause.help("`release` what is not needed any more, or move a part into a method"),
    })
}

/// The cause of a refusal by the rules.
pub fn cause(text: &[u8], number: u32) -> Option<Cause> {
    let script = Script::of(text)?;
    let record = Record::of(&script.lines, &script.program)?;
    cause_in(&script, &record, number)
}

/// The same, of a check that was written down.
pub fn cause_in(script: &Script, record: &Record, number: u32) -> Option<Cause> {
    match record.refusal?.reason {
        Reason::StateFull => full(script, record, number),
        _ => chains::no_rest(script, record, number).or_else(|| not_shown(script, record, number)),
    }
}

fn not_shown(script: &Script, record: &Record, number: u32) -> Option<Cause> {
    let asked = record.asked.as_ref()?;
    let unshown = Unshown::of(script, asked)?;
    let bytes = line(script.text, number)?;
    let cause = Cause::new(unshown.said()).mark(unshown.mark(bytes));
    if let Some(short) = halves::short(&unshown) {
        let steps = route(script, record, unshown.target());
        return Some(short.told(cause, &unshown, &steps));
    }
    if let Some(taken) = unshown.taken() {
        return Some(cause.or_head(Some(taken)));
    }
    let names = unshown.names();
    let steps = route(script, record, unshown.target());
    let lost_at = lost(&steps, unshown.wanted);
    let cause = cause.or_head(head(&unshown, record, &steps, lost_at));
    if let Some(cause) = chains::broken(&cause, &unshown, &steps) {
        return Some(cause);
    }
    let cause = match lost_at {
        Some(place) => cause.note(told(script, place, unshown.wanted)),
        None => cause.or_note(went(&unshown, &steps)),
    };
    let cause = cause.or_note(nearest(&names, &asked.state, unshown.wanted));
    let cause = cause.or_note(limit(&unshown, &steps));
    let cause = cause.or_note(chains::inside(&names, &asked.state, unshown.wanted));
    let cause = cause.or_note(halves::may_be_one(&names, &asked.state, unshown.wanted));
    let wanted = half_helps::offered(&unshown, &steps, lost_at);
    let unshown = Unshown { wanted, ..unshown };
    Some(cause.or_help(help(&unshown, &steps, lost_at)))
}
