//! Possible fixes of the numbers 11 to 13, by what is not shown: an atom in a
//! contract, `join` or invariant, or a line before the one that needs it.

use super::chains;
use super::draft::{both, insert, Candidate, Draft};
use super::edit::Edit;
use super::form::rewritten;
use super::lines;
use crate::cause::halves::{short, Short};
use crate::cause::route::{route, Step};
use crate::cause::rules::Unshown;
use crate::script::{shown, Script};
use model::checker::Term;
use model::names::{Action, Atom, Call, Expr, Path, Type, Var, PARAM, RESULT, THIS};
use model::text::Share;
use model::watch::{Purpose, Record};

/// What the search knows of the refused line.
pub struct Refused<'s, 'a> {
    pub unshown: &'s Unshown<'s, 'a>,
    pub draft: &'s Draft,
    /// The statements that lead here, the nearest last.
    pub places: Vec<usize>,
}

/// The fixes that may show what is asked.
pub fn candidates(text: &[u8], draft: &Draft) -> Vec<Candidate> {
    let Some(script) = Script::of(text) else {
        return Vec::new();
    };
    let Some(record) = Record::of(&script.lines, &script.program) else {
        return Vec::new();
    };
    let unshown = record.asked.as_ref();
    let Some(unshown) = unshown.and_then(|asked| Unshown::of(&script, asked)) else {
        return Vec::new();
    };
    let steps: Vec<Step> = route(&script, &record, unshown.target());
    let refused = Refused {
        places: steps.iter().map(|step| step.place).collect(),
        unshown: &unshown,
        draft,
    };
    if let Some(found) = chains::unclosed(&refused) {
        return found.into_iter().chain(refused.weaker()).collect();
    }
    let halves = short(&unshown);
    let mut found = match halves {
        // Both halves are held: no further permission brings them together.
        Some(Short::Apart(_)) => Vec::new(),
        _ => refused.formulas(),
    };
    found.splice(0..0, chains::first(&refused));
    found.extend(refused.released());
    // A half that is held is not made whole by another card.
    if halves.is_none() {
        found.extend(lines::candidates(&refused));
    }
    found.extend(chains::last(&refused));
    found.extend(refused.weaker());
    found
}

impl<'a> Refused<'_, 'a> {
    pub fn line_of(&self, place: usize) -> usize {
        self.unshown.script.program.statements[place].line as usize - 1
    }

    pub fn wanted(&self) -> Atom<'a> {
        self.unshown.wanted
    }

    pub fn block(&self) -> usize {
        self.unshown.script.block_of(self.unshown.asked.place)
    }

    /// The line of the refusal, from 0.
    pub fn here(&self) -> usize {
        self.line_of(self.unshown.asked.place)
    }

    /// The terms that are known to equal a variable, itself the first.
    fn equal_vars(&self, var: Var) -> Vec<Var> {
        let equal = self.unshown.asked.state.equals(Term::Var(var));
        let var = |term: Term| match term {
            Term::Var(var) => Some(var),
            _ => None,
        };
        equal.into_iter().filter_map(var).collect()
    }

    /// An atom with each variable given as one that it equals, where that
    /// suits.
    fn with_equals(&self, wanted: Atom<'a>, suits: impl Fn(Var) -> bool) -> Option<Atom<'a>> {
        let var = |var: Var| {
            let equal = self.equal_vars(var);
            let own = [var].into_iter().chain(equal);
            own.into_iter().find(|&var| suits(var))
        };
        mapped(wanted, var)
    }

    /// What shows the wanted atom: itself, for a path that is read the whole
    /// permission too, for one of which a half is held the other half, and for a
    /// card that is not null each permission to one of its fields.
    fn ways(&self) -> Vec<Atom<'a>> {
        let mut ways = vec![self.wanted()];
        ways.extend(chains::ways(self));
        match (self.wanted(), short(self.unshown)) {
            (Atom::Permission(Share::Read, path), _) => {
                ways.push(Atom::Permission(Share::Acc, path));
            }
            (Atom::Permission(_, path), Some(Short::Half)) => {
                ways.insert(0, Atom::Permission(Share::Read, path));
            }
            _ => {}
        }
        let (Atom::Ne(Expr::Var(var), Expr::Null) | Atom::Ne(Expr::Null, Expr::Var(var))) =
            self.wanted()
        else {
            return ways;
        };
        let program = &self.unshown.script.program;
        if let Some(Type::Class(class)) = self.unshown.names().kind(var) {
            let class = program.class(class).map(|class| &program.classes[class]);
            let fields = class.map_or(&[][..], |class| &class.fields).iter();
            ways.extend(fields.enumerate().map(|(slot, field)| {
                let field = field.name;
                Atom::Permission(Share::Acc, Path { var, field, slot })
            }));
        }
        ways
    }

    fn formulas(&self) -> Vec<Candidate> {
        let ways = self.ways().into_iter();
        ways.flat_map(|atom| self.formulas_with(atom)).collect()
    }

    /// An atom added to the formulas that could say it.
    fn formulas_with(&self, wanted: Atom<'a>) -> Vec<Candidate> {
        let mut found = self.contract(wanted);
        let mut open = Vec::new();
        let asked = self.unshown.asked.place;
        let statements = &self.unshown.script.program.statements;
        for &place in self.places.iter().rev().chain([&asked]) {
            match &statements[place].action {
                Action::Join(_) | Action::Loop(_) => open.extend(self.appended(place, wanted)),
                Action::Again(start) => open.extend(self.appended(*start, wanted)),
                Action::Call(call) if place != asked => found.extend(self.ensured(*call, wanted)),
                _ => {}
            }
        }
        let all = open.iter().cloned().reduce(both);
        let all = all.filter(|_| open.len() > 1);
        open.into_iter().chain(all).chain(found).collect()
    }

    /// A line of the script with an atom appended, the permissions to what it
    /// reads before it.
    fn appended(&self, place: usize, atom: Atom<'a>) -> Option<Candidate> {
        let names = self.unshown.script.names_at(place);
        self.with_atom(self.line_of(place), &names.atom(atom))
    }

    /// A line from 0 with `acc` for the `read` of a path, if it has one.
    fn made_whole(&self, line: usize, atom: &str) -> Option<Candidate> {
        let path = atom
            .strip_prefix("read ")
            .or_else(|| atom.strip_prefix("acc "))?;
        let mut fields = self.draft.lines.get(line)?.clone();
        let first = if fields[0] == "loop" { 4 } else { 1 };
        let half = format!("read {path}");
        let mut atoms = fields.get(first..)?.chunks(3);
        let at = atoms.position(|atom| atom.join(" ") == half)?;
        fields[first + 3 * at] = Share::Acc.word().to_string();
        Some(Candidate {
            words: format!(
                "write `acc {path}` for `{half}` in line {}: `{}`",
                line + 1,
                fields[0]
            ),
            ..rewritten(line, &fields)
        })
    }

    /// The same, for a line from 0 and an atom as messages show it.
    pub fn with_atom(&self, line: usize, atom: &str) -> Option<Candidate> {
        if let Some(whole) = self.made_whole(line, atom) {
            return Some(whole);
        }
        let mut fields = self.draft.lines.get(line)?.clone();
        let holds = |fields: &[String], acc: &[String]| {
            fields
                .get(1..)
                .unwrap_or_default()
                .chunks(3)
                .any(|atom| atom == acc)
        };
        let atom: Vec<String> = atom.split(' ').map(str::to_string).collect();
        if chains::clashes(&fields, &atom) {
            return None;
        }
        for side in &atom[1..] {
            if let Some((x, f)) = side.split_once('.') {
                let acc = ["acc", x, f].map(str::to_string);
                let half = ["read", x, f].map(str::to_string);
                if !holds(&fields, &acc) && !holds(&fields, &half) {
                    fields.extend(acc);
                }
            }
        }
        let from = self.draft.lines[line].len();
        fields.extend(atom);
        let added: Vec<String> = fields[from..]
            .chunks(3)
            .map(|atom| atom.join(" "))
            .collect();
        let words = format!(
            "add `{}` to line {}: `{}`",
            added.join(" "),
            line + 1,
            fields[0]
        );
        Some(Candidate {
            words,
            ..rewritten(line, &fields)
        })
    }

    /// The atom in the method's own `requires`, alone or given back too.
    fn contract(&self, wanted: Atom<'a>) -> Vec<Candidate> {
        let script = self.unshown.script;
        let block = self.block();
        if script.program.blocks[block].header.is_none() {
            return Vec::new();
        }
        let Some(atom) = self.with_equals(wanted, |var| matches!(var, THIS | PARAM)) else {
            return Vec::new();
        };
        let atom = script.names(block).atom(atom);
        let (requires, ensures) = script.contract_lines(block);
        let asks = self.with_atom(requires as usize - 1, &atom);
        let gives = self.with_atom(ensures as usize - 1, &atom);
        let twice = asks
            .clone()
            .zip(gives)
            .map(|(asks, gives)| both(asks, gives));
        let callers = self.handed(block, &atom);
        let handed = asks
            .clone()
            .zip(callers)
            .map(|(one, other)| both(one, other));
        [asks, twice, handed].into_iter().flatten().collect()
    }

    /// The same atom in the `requires` of the methods that call this one with
    /// their own `this`.
    fn handed(&self, block: usize, atom: &str) -> Option<Candidate> {
        let script = self.unshown.script;
        let calls = |caller: &usize| {
            let body = script.program.body(*caller).iter();
            *caller != block
                && script.program.blocks[*caller].header.is_some()
                && body.clone().any(|line| {
                    matches!(line.action, Action::Call(call) if call.method == block && call.y == THIS)
                })
        };
        let callers = (0..script.program.blocks.len()).filter(calls);
        let lines = callers.map(|caller| script.contract_lines(caller).0 as usize - 1);
        lines
            .filter_map(|line| self.with_atom(line, atom))
            .reduce(both)
    }

    /// The atom in the `ensures` of a method that was called, alone or asked for
    /// too.
    fn ensured(&self, call: Call, wanted: Atom<'a>) -> Vec<Candidate> {
        let script = self.unshown.script;
        let suits = |var: Var| [call.x, call.y, call.z].contains(&var);
        let Some(atom) = self.with_equals(wanted, suits) else {
            return Vec::new();
        };
        let mut found = Vec::new();
        for order in [[call.y, call.z, call.x], [call.x, call.y, call.z]] {
            let place = |var: Var| match var {
                _ if var == order[0] => own_place(call, order[0]),
                _ if var == order[1] => own_place(call, order[1]),
                _ => own_place(call, var),
            };
            let Some(atom) = mapped(atom, place) else {
                continue;
            };
            let atom = script.names(call.method).atom(atom);
            let (requires, ensures) = script.contract_lines(call.method);
            let gives = self.with_atom(ensures as usize - 1, &atom);
            let asks = self.with_atom(requires as usize - 1, &atom);
            let twice = asks
                .zip(gives.clone())
                .map(|(asks, gives)| both(asks, gives));
            found.extend([gives, twice].into_iter().flatten());
        }
        found.dedup_by(|one, other| one.edits == other.edits);
        found
    }

    /// A `release` without the atom, or left out.
    fn released(&self) -> Vec<Candidate> {
        let statements = &self.unshown.script.program.statements;
        let mut found = Vec::new();
        for &place in self.places.iter().rev() {
            if matches!(statements[place].action, Action::Release(_)) {
                found.extend(self.thinner(self.line_of(place)));
            }
        }
        found
    }

    /// A line of atoms with each of them left out.
    fn thinner(&self, line: usize) -> Vec<Candidate> {
        let fields = &self.draft.lines[line];
        let first = if fields[0] == "loop" { 4 } else { 1 };
        let atoms = (first..fields.len()).step_by(3);
        let without = |from: usize| {
            let to = (from + 3).min(fields.len());
            let atom = fields[from..to].join(" ");
            let rest = [&fields[..from], &fields[to..]].concat();
            Candidate {
                words: format!("leave `{atom}` out of line {}", line + 1),
                ..rewritten(line, &rest)
            }
        };
        atoms.map(without).collect()
    }

    /// The formula that asks, without the atom that is not shown. A claim of the
    /// script's own, an `assert`, stays.
    fn weaker(&self) -> Vec<Candidate> {
        let script = self.unshown.script;
        let line = match (self.unshown.asked.purpose, self.unshown.action()) {
            (Purpose::FirstEnd | Purpose::SecondEnd | Purpose::Invariant, _) => Some(self.here()),
            (Purpose::RoundEnd, Action::Again(start)) => Some(self.line_of(*start)),
            (Purpose::Ensures, _) => Some(script.contract_lines(self.block()).1 as usize - 1),
            _ => None,
        };
        let (Some(line), Some(at)) = (line, self.unshown.place) else {
            return Vec::new();
        };
        let wanted = self.thinner(line).into_iter().nth(at);
        wanted.into_iter().collect()
    }

    /// The name of a variable of the block.
    pub fn name(&self, var: Var) -> String {
        self.unshown.names().var(var)
    }

    /// The line put into the first branch of an `if` that tests what is wanted.
    pub fn tested(&self) -> Option<Candidate> {
        let atom = self.wanted();
        if !matches!(atom, Atom::Eq(..) | Atom::Ne(..)) {
            return None;
        }
        let at = self.here();
        if !matches!(
            self.draft.word(at),
            "set" | "let" | "call" | "assert" | "release" | "open"
        ) {
            return None;
        }
        let atom = self.unshown.names().atom(atom);
        let opened = insert(at, &format!("if\t{}", atom.replace(' ', "\t")));
        let line = |text: &str| Edit::Insert(at as u32 + 2, text.to_string());
        Some(Candidate {
            words: format!(
                "test it: put line {} into the first branch of `if {atom}`",
                at + 1
            ),
            edits: [opened.edits, vec![line("else"), line("join")]].concat(),
            after: 2,
        })
    }
}

/// The place that a variable of the caller has in the contract.
fn own_place(call: Call, var: Var) -> Option<Var> {
    match var {
        _ if var == call.y => Some(THIS),
        _ if var == call.z => Some(PARAM),
        _ if var == call.x => Some(RESULT),
        _ => None,
    }
}

/// An atom with other variables, where each has one.
fn mapped<'a>(atom: Atom<'a>, var: impl Fn(Var) -> Option<Var>) -> Option<Atom<'a>> {
    let path = |path: Path<'a>| {
        Some(Path {
            var: var(path.var)?,
            ..path
        })
    };
    let side = |expr| {
        Some(match expr {
            Expr::Var(x) => Expr::Var(var(x)?),
            Expr::Path(p) => Expr::Path(path(p)?),
            constant => constant,
        })
    };
    Some(match atom {
        Atom::Permission(share, p) => Atom::Permission(share, path(p)?),
        Atom::Eq(left, right) => Atom::Eq(side(left)?, side(right)?),
        Atom::Ne(left, right) => Atom::Ne(side(left)?, side(right)?),
    })
}

/// A path as the text has it.
pub fn path_shown(refused: &Refused, path: Path) -> (String, String) {
    (refused.name(path.var), shown(path.field))
}
