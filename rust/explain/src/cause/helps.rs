//! What may help where a rule does not show.

use super::limits::computed;
use super::route::{assigned, named, Step};
use super::rules::Unshown;
use crate::script::{shown, Names};
use model::checker::Term;
use model::names::{Action, Atom, Call, Expr, Path, Type, Var, FIRST_LOCAL, PARAM, RESULT, THIS};
use model::number::DONE;
use model::text::Share;

/// What may help, where that is to be seen.
pub fn help(unshown: &Unshown, steps: &[Step], lost_at: Option<usize>) -> Option<String> {
    let Some(at) = lost_at else {
        return never_shown(unshown, steps);
    };
    let statement = &unshown.script.program.statements[at];
    match &statement.action {
        Action::Call(call) => help_of_call(unshown, *call, unshown.wanted),
        Action::Join(_) => {
            let wanted = unshown.names().atom(unshown.wanted);
            let line = statement.line;
            Some(format!("add `{wanted}` to the `join` of line {line}"))
        }
        Action::Loop(_) | Action::Again(_) => help_of_loop(unshown, at),
        _ if unshown.round().is_some() => help_of_round(unshown),
        Action::Compute(_) => tested(unshown),
        _ => None,
    }
}

/// The atom added to a loop that forgets it, if the check then comes past the
/// line that wants it and the loop's `again`.
fn help_of_loop(unshown: &Unshown, at: usize) -> Option<String> {
    let statements = &unshown.script.program.statements;
    let opened = named(unshown.script, at);
    let Action::Loop(rounds) = &opened.action else {
        return None;
    };
    let wanted = unshown.names().atom(unshown.wanted);
    let added = format!("\t{}", wanted.replace(' ', "\t"));
    let mut lines: Vec<&[u8]> = unshown.script.text.split(|&byte| byte == b'\n').collect();
    let place = opened.line as usize - 1;
    let line = [lines[place], added.as_bytes()].concat();
    lines[place] = &line;
    let (number, refused) = model::check(&lines.join(&b'\n'));
    let past =
        refused > statements[unshown.asked.place].line && refused != statements[rounds.again].line;
    match number == DONE || past {
        true => Some(format!(
            "add `{wanted}` to the `loop` of line {}",
            opened.line
        )),
        false => None,
    }
}

/// What to do for an atom of an invariant that the body makes go.
fn help_of_round(unshown: &Unshown) -> Option<String> {
    let line = unshown.round()?.line;
    match unshown.wanted {
        Atom::Permission(..) => None,
        _ => Some(format!(
            "make it known before `again`, or leave it out of the `loop` of line {line}"
        )),
    }
}

/// What to do for an atom that was never shown in the block.
fn never_shown(unshown: &Unshown, steps: &[Step]) -> Option<String> {
    starts_so(unshown, steps).or_else(|| never_said(unshown, steps))
}

fn never_said(unshown: &Unshown, steps: &[Step]) -> Option<String> {
    let names = unshown.names();
    let wanted = names.atom(unshown.wanted);
    let in_method = names.block.header.is_some();
    let block = unshown.script.block_of(unshown.asked.place);
    let (requires, _) = unshown.script.contract_lines(block);
    match unshown.wanted {
        Atom::Permission(Share::Chain, path) if !matches!(path.var, THIS | PARAM) => None,
        Atom::Permission(
            _,
            Path {
                var: THIS | PARAM, ..
            },
        ) if in_method => Some(format!("add `{wanted}` to `requires` (line {requires})")),
        Atom::Ne(Expr::Var(THIS | PARAM), Expr::Null) if in_method => Some(format!(
            "add `{wanted}`, or an `acc` of it, to `requires` (line {requires})"
        )),
        Atom::Permission(_, Path { var, .. }) | Atom::Ne(Expr::Var(var), Expr::Null)
            if assigned(unshown.script, steps, var).is_none() =>
        {
            let Some(Type::Class(class)) = names.kind(var) else {
                return None;
            };
            let (var, class) = (names.var(var), shown(class));
            Some(format!(
                "`new {var} {class}` first: `{var}` is null until a line assigns it"
            ))
        }
        Atom::Ne(Expr::Var(_), Expr::Null) => tested(unshown),
        Atom::Eq(Expr::Var(RESULT), side) | Atom::Eq(side, Expr::Var(RESULT)) => {
            returned(unshown, side)
        }
        Atom::Eq(left, right) | Atom::Ne(left, right)
            if [left, right]
                .iter()
                .any(|side| computed(unshown, steps, *side).is_some()) =>
        {
            tested(unshown)
        }
        _ => None,
    }
}

/// The `return` that gives one side as the result.
fn returned<'a>(unshown: &Unshown<'_, 'a>, side: Expr<'a>) -> Option<String> {
    let returned = unshown.names().var(variable_equal(unshown, side)?);
    Some(match unshown.action() {
        Action::Return(_) => format!("`return {returned}` here gives that value back"),
        _ => format!("`return {returned}` sets `result`"),
    })
}

/// The line that says of a variable what it starts as, where that is wanted and
/// no line has assigned it.
fn starts_so(unshown: &Unshown, steps: &[Step]) -> Option<String> {
    let Atom::Eq(left, right) = unshown.wanted else {
        return None;
    };
    let state = &unshown.asked.state;
    let names = unshown.names();
    let mut ways = [(left, right), (right, left)].into_iter();
    ways.find_map(|(side, value)| {
        let Expr::Var(var @ FIRST_LOCAL..RESULT) = side else {
            return None;
        };
        let start = match names.kind(var)? {
            Type::Int => Term::Number(0),
            Type::Class(_) => Term::Null,
        };
        let fresh = assigned(unshown.script, steps, var).is_none();
        let equal = state.equals(state.resolve(value).ok()?);
        let said = (names.var(var), names.term(start));
        (fresh && equal.contains(&start)).then(|| {
            let (var, start) = said;
            format!("`let {var} {start}` first: `{var}` starts so, but only a line says it")
        })
    })
}

/// A variable that has the value of one side.
fn variable_equal<'a>(unshown: &Unshown<'_, 'a>, side: Expr<'a>) -> Option<Var> {
    let state = &unshown.asked.state;
    let equal = state.equals(state.resolve(side).ok()?);
    equal.into_iter().find_map(|term| match term {
        Term::Var(var) if var != RESULT => Some(var),
        _ => None,
    })
}

/// What nothing but a test shows.
fn tested(unshown: &Unshown) -> Option<String> {
    let wanted = unshown.names().atom(unshown.wanted);
    Some(format!(
        "test it: `if {wanted}`, and do this in the first branch"
    ))
}

fn help_of_call(unshown: &Unshown, call: Call, atom: Atom) -> Option<String> {
    let method = unshown.script.names(call.method);
    let (_, ensures) = unshown.script.contract_lines(call.method);
    let var = |var| in_contract(call, &method, var);
    let side = |expr: Expr| match expr {
        Expr::Var(x) => var(x),
        Expr::Path(path) => Some(format!("{}.{}", var(path.var)?, shown(path.field))),
        constant => Some(unshown.names().expr(constant)),
    };
    let said = match atom {
        Atom::Permission(share, path) => {
            format!("{} {} {}", share.word(), var(path.var)?, shown(path.field))
        }
        Atom::Eq(left, right) => format!("eq {} {}", side(left)?, side(right)?),
        Atom::Ne(left, right) => format!("ne {} {}", side(left)?, side(right)?),
    };
    let name = method.block.header.map_or(&b""[..], |header| header.name);
    Some(format!(
        "add `{said}` to the `ensures` of `{}` (line {ensures})",
        shown(name)
    ))
}

/// Names of a contract for a variable of its caller.
pub fn in_contract(call: Call, method: &Names, var: Var) -> Option<String> {
    let of = |place| Some(method.var(place));
    match var {
        _ if var == call.x => of(RESULT),
        _ if var == call.y => of(THIS),
        _ if var == call.z => of(PARAM),
        _ => None,
    }
}
