//! The headline of a refusal by the rules: how it came that something is not shown.

use super::route::{named, names_var, Step};
use super::rules::Unshown;
use crate::script::{shown, Names};
use model::checker::Term;
use model::names::{Action, Atom, Expr, Path, Var};
use model::text::Share;
use model::watch::Record;

/// Why the atom is not shown, if there is more to say than that.
pub fn head(
    unshown: &Unshown,
    record: &Record,
    steps: &[Step],
    lost_at: Option<usize>,
) -> Option<String> {
    match (unshown.wanted, lost_at) {
        (Atom::Permission(share, path), Some(place)) => {
            let what = permission(&unshown.names(), share, path);
            went(unshown, place, &what)
        }
        (Atom::Permission(share, path), None) => missing(unshown, record, share, path),
        (Atom::Eq(left, right) | Atom::Ne(left, right), None) => {
            let mut sides = [left, right].into_iter();
            sides.find_map(|side| super::limits::computed(unshown, steps, side))
        }
        (_, Some(place)) => {
            let wanted = unshown.names().atom(unshown.wanted);
            let line = named(unshown.script, place).line;
            Some(format!("`{wanted}` is known only up to line {line}"))
        }
    }
}

/// "the permission to `c.tag`", or "the chain of `c` by `prev`".
fn permission(names: &Names, share: Share, path: Path) -> String {
    match share {
        Share::Chain => format!(
            "the chain of `{}` by `{}`",
            names.var(path.var),
            shown(path.field)
        ),
        _ => format!("the permission to `{}`", names.expr(Expr::Path(path))),
    }
}

/// A card that is null has no fields. Nobody gave the block a permission to such a
/// field, if no line of it up to here had one, by whatever name.
fn missing(unshown: &Unshown, record: &Record, share: Share, path: Path) -> Option<String> {
    let names = unshown.names();
    let script = unshown.script;
    let equal = unshown.asked.state.equals(Term::Var(path.var));
    if equal.contains(&Term::Null) {
        return Some(format!("`{}` is null here", names.var(path.var)));
    }
    let start = script.program.blocks[script.block_of(unshown.asked.place)].start;
    let seen = record.seen[start..=unshown.asked.place].iter();
    let states = seen.flat_map(|seen| [&seen.before, &seen.after]).flatten();
    let mut held = states.flat_map(|state| &state.permissions);
    let what = permission(&names, share, path);
    if !held.any(|held| held.field == path.field) {
        return Some(format!("nobody gave {} {what}", names.title()));
    }
    let state = &unshown.asked.state;
    let of_kind = |var| names.kind(var) == names.kind(path.var);
    let mut others = state.permissions.iter();
    let other = others.find(|held| held.field == path.field && of_kind(held.var))?;
    let (var, other) = (names.var(path.var), names.held(other));
    (share != Share::Chain)
        .then(|| format!("`{other}` is held, and the card of `{var}` is not known to be the same"))
}

/// The line that made a permission go.
fn went(unshown: &Unshown, place: usize, what: &str) -> Option<String> {
    let script = unshown.script;
    let names = unshown.names();
    let line = named(script, place).line;
    let wanted = names.atom(unshown.wanted);
    let action = &script.program.statements[place].action;
    if let Some(var) = assigns(action).filter(|&var| names_var(unshown.wanted, var)) {
        let var = names.var(var);
        return Some(format!(
            "`{var}` has another value since line {line}, for which `{wanted}` is not held"
        ));
    }
    Some(match action {
        Action::Call(call) => {
            let header = script.program.blocks[call.method].header?;
            let name = shown(header.name);
            format!("`{name}`, called at line {line}, did not give {what} back")
        }
        Action::Release(_) => format!("line {line} let {what} go"),
        Action::Join(_) => format!("the `join` of line {line} does not keep `{wanted}`"),
        Action::Loop(_) | Action::Again(_) => {
            format!("the invariant of line {line} does not keep `{wanted}`")
        }
        Action::Open(_) => format!("{what} was opened at line {line}, and not shut since"),
        Action::Shut(path) => {
            let chain = names.atom(Atom::Permission(Share::Chain, *path));
            format!("line {line} made {what} a part of `{chain}`")
        }
        _ => return None,
    })
}

/// The variable to which a statement gives a value.
fn assigns(action: &Action) -> Option<Var> {
    match action {
        Action::Let(x, _) | Action::New(x, _) => Some(*x),
        Action::Compute(compute) => Some(compute.x),
        Action::Call(call) => Some(call.x),
        Action::Open(open) => Some(open.y),
        _ => None,
    }
}
