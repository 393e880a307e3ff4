//! Refusals that come from a limit of the language: what no contract can say, and what
//! the checker does not compute.

use super::route::{assigned, Step};
use super::rules::Unshown;
use crate::script::{shown, Names};
use model::checker::Term;
use model::names::{Action, Atom, Expr, Path, Type, PARAM, THIS};
use model::text::{Operator, Share};

/// Where the guide tells of it.
pub const PAGE: &str = "docs/LANGUAGE.md, \"What the language can't say\"";

/// A note that names a limit, with the place where the guide tells of it.
pub fn noted(limit: &str) -> String {
    format!("a limit of the language: {limit} ({PAGE})")
}

/// The limit that the atom meets, if it meets one.
pub fn limit(unshown: &Unshown, steps: &[Step]) -> Option<String> {
    let names = unshown.names();
    match unshown.wanted {
        Atom::Permission(Share::Acc | Share::Read, path) => {
            let link = link(unshown, steps, path)?;
            Some(behind(&names, path, &link))
        }
        Atom::Permission(Share::Chain, _) => None,
        Atom::Eq(left, right) | Atom::Ne(left, right) => {
            let mut sides = [left, right].into_iter();
            let sum = sides.any(|side| computed(unshown, steps, side).is_some());
            sum.then(|| noted("of a sum or difference only what a test says is known"))
        }
    }
}

/// A card behind a link: what of it can be handed on.
fn behind(names: &Names, path: Path, link: &str) -> String {
    noted(&format!(
        "`{}` is the card behind the link `{link}`, and a contract names fields of `this`, the \
         parameter and `result` alone; of cards behind a link it hands on the links, as a chain, \
         and not `{}`",
        names.var(path.var),
        shown(path.field)
    ))
}

/// The link by which the card of a path was reached; none for a card that has a name
/// in the contract, and for a field that a chain could hand on.
fn link(unshown: &Unshown, steps: &[Step], path: Path) -> Option<String> {
    let names = unshown.names();
    let equal = unshown.asked.state.equals(Term::Var(path.var));
    if equal.contains(&Term::Var(THIS)) || equal.contains(&Term::Var(PARAM)) {
        return None;
    }
    let known = equal
        .into_iter()
        .find(|term| matches!(term, Term::Path(..)));
    let link = match known {
        Some(Term::Path(var, field)) => format!("{}.{}", names.var(var), shown(field)),
        _ => match &assigned(unshown.script, steps, path.var)?.action {
            Action::Let(_, link @ Expr::Path(_)) => names.expr(*link),
            Action::Open(open) => names.expr(Expr::Path(open.path)),
            _ => return None,
        },
    };
    let own = names.kind(path.var)?;
    let Type::Class(class) = own else {
        return None;
    };
    let class = &unshown.script.program.classes[unshown.script.program.class(class)?];
    let field = class.fields.iter().find(|field| field.name == path.field)?;
    (field.kind != own).then_some(link)
}

/// Is it a variable whose value is a sum or difference? Then that is said.
pub fn computed(unshown: &Unshown, steps: &[Step], side: Expr) -> Option<String> {
    let Expr::Var(var) = side else { return None };
    let last = assigned(unshown.script, steps, var)?;
    let Action::Compute(compute) = &last.action else {
        return None;
    };
    let what = match compute.operator {
        Operator::Add => "sum",
        Operator::Sub => "difference",
    };
    Some(format!(
        "`{}` is a {what} since line {}, and the checker does not compute",
        unshown.names().var(var),
        last.line
    ))
}
