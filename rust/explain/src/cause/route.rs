//! The way that the check took to a statement, and where something that was
//! shown on it is shown no more.

use crate::script::{quoted, shown, Names, Script};
use model::checker::{Fact, State, Term};
use model::names::{Action, Atom, Expr, Statement, Var};
use model::text::Share;
use model::watch::Record;

/// One statement of the way, with the states before and after it.
pub struct Step<'r, 'a> {
    pub place: usize,
    pub before: &'r State<'a>,
    pub after: &'r State<'a>,
}

/// The statements from a block's start up to a place. Branches that are closed
/// before it count as their `join`, loops as their `again`.
pub fn route<'r, 'a>(
    script: &Script<'a>,
    record: &'r Record<'a>,
    target: usize,
) -> Vec<Step<'r, 'a>> {
    let block = &script.program.blocks[script.block_of(target)];
    let mut steps = Vec::new();
    let mut place = block.start;
    while place < target {
        let (named, last, next) = match &script.program.statements[place].action {
            Action::If(branch) if target <= branch.other => (place, place, place + 1),
            Action::If(branch) if target <= branch.join => (place, branch.other, branch.other + 1),
            Action::If(branch) => (branch.join, branch.join, branch.join + 1),
            Action::Loop(rounds) if rounds.again < target => {
                (rounds.again, rounds.again, rounds.again + 1)
            }
            _ => (place, place, place + 1),
        };
        if let (Some(before), Some(after)) = (&record.seen[place].before, &record.seen[last].after)
        {
            steps.push(Step {
                place: named,
                before,
                after,
            });
        }
        place = next;
    }
    steps
}

/// The last statement of the way before which the atom is shown, and after
/// which it is not.
pub fn lost<'a>(steps: &[Step<'_, 'a>], atom: Atom<'a>) -> Option<usize> {
    let shows = |state: &State<'a>| state.show(&[atom]).is_ok();
    let step = steps
        .iter()
        .rev()
        .find(|step| shows(step.before) && !shows(step.after))?;
    Some(step.place)
}

/// The last statement of the way that dropped a fact which names one of the
/// terms, and that fact.
pub fn dropped<'a>(steps: &[Step<'_, 'a>], terms: &[Term<'a>]) -> Option<(usize, Fact<'a>)> {
    let names = |fact: &&Fact<'a>| terms.contains(&fact.left) || terms.contains(&fact.right);
    steps.iter().rev().find_map(|step| {
        let mut gone = step.before.facts.iter().filter(names);
        let fact = gone.find(|fact| !step.after.facts.contains(fact))?;
        Some((step.place, *fact))
    })
}

/// The statement that messages name for a place: for an `again` its `loop`, which
/// has the invariant and up to which was known what the loop forgets.
pub fn named<'s, 'a>(script: &'s Script<'a>, place: usize) -> &'s Statement<'a> {
    match script.program.statements[place].action {
        Action::Again(start) => &script.program.statements[start],
        _ => &script.program.statements[place],
    }
}

/// "known up to line 28: .." of a fact.
pub fn told_fact(script: &Script, place: usize, fact: Fact) -> String {
    let statement = named(script, place);
    let names = script.names_at(place);
    let line = quoted(script.text, statement.line);
    format!(
        "`{}` was known up to line {}: `{line}`",
        names.fact(&fact),
        statement.line
    )
}

/// "held up to line 14: `call r c lose k`, ..".
pub fn told(script: &Script, place: usize, atom: Atom) -> String {
    let statement = named(script, place);
    let names = script.names_at(place);
    let held = if matches!(atom, Atom::Permission(..)) {
        "held"
    } else {
        "known"
    };
    let line = quoted(script.text, statement.line);
    let action = &script.program.statements[place].action;
    let why = reason(script, &names, action, atom);
    format!("{held} up to line {}: `{line}`, {why}", statement.line)
}

fn another_value(names: &Names, var: Var) -> String {
    format!("which gives `{}` another value", names.var(var))
}

/// How a statement makes what was known go.
pub fn reason(script: &Script, names: &Names, action: &Action, atom: Atom) -> String {
    match action {
        Action::Call(call) => {
            let (_, ensures) = script.contract_lines(call.method);
            let header = script.program.blocks[call.method].header;
            let method = header.map_or(String::new(), |header| shown(header.name));
            match (names_var(atom, call.x), atom) {
                (true, _) => another_value(names, call.x),
                (_, Atom::Permission(..)) => {
                    format!(
                        "and the `ensures` of `{method}` (line {ensures}) does not give it back"
                    )
                }
                _ => format!("and the `ensures` of `{method}` (line {ensures}) does not say it"),
            }
        }
        Action::Let(x, _) | Action::New(x, _) => another_value(names, *x),
        Action::Open(open) if names_var(atom, open.y) => another_value(names, open.y),
        Action::Open(_) => "and not shut since".to_string(),
        Action::Shut(path) => format!(
            "which makes it a part of `{}`",
            names.atom(Atom::Permission(Share::Chain, *path))
        ),
        Action::Compute(compute) => format!(
            "which gives `{}` another value, of which nothing is known",
            names.var(compute.x)
        ),
        Action::Set(path, _) => format!(
            "which gives `{}` another value",
            names.expr(Expr::Path(*path))
        ),
        Action::Release(_) => "which lets it go".to_string(),
        Action::Join(_) => "after which only its own formula is known".to_string(),
        Action::Loop(_) => {
            "in whose body only its invariant and its condition are known".to_string()
        }
        Action::Again(_) => {
            "after which only its invariant and the opposite of its condition are known".to_string()
        }
        _ => "after which it is not shown".to_string(),
    }
}

/// The last statement of the way that may give the variable a value.
pub fn assigned<'s, 'a>(
    script: &'s Script<'a>,
    steps: &[Step],
    var: Var,
) -> Option<&'s Statement<'a>> {
    let gives = |statement: &&Statement| match &statement.action {
        Action::Let(x, _) | Action::New(x, _) => *x == var,
        Action::Compute(compute) => compute.x == var,
        Action::Call(call) => call.x == var,
        Action::Open(open) => open.y == var,
        Action::Join(_) | Action::Loop(_) | Action::Again(_) => true,
        _ => false,
    };
    let way = steps.iter().rev();
    way.map(|step| &script.program.statements[step.place])
        .find(gives)
}

/// Does the atom name the variable?
pub fn names_var(atom: Atom, var: Var) -> bool {
    let side = |expr: Expr| match expr {
        Expr::Var(x) => x == var,
        Expr::Path(path) => path.var == var,
        _ => false,
    };
    match atom {
        Atom::Permission(_, path) => path.var == var,
        Atom::Eq(left, right) | Atom::Ne(left, right) => side(left) || side(right),
    }
}
