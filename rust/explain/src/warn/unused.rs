//! Variables, parameters and methods that no line uses.

use super::{Kind, Warning, MEANT};
use crate::routes::Routes;
use crate::script::{field_range, line, shown, Script};
use model::names::{Action, Atom, Expr, Var, FIRST_LOCAL, PARAM};

/// The warnings of a text by its names alone.
pub fn names(script: &Script) -> Vec<Warning> {
    let blocks = 0..script.program.blocks.len();
    let mut found: Vec<Warning> = blocks
        .flat_map(|block| {
            let variables = variables(script, block);
            variables.into_iter().chain(parameter(script, block))
        })
        .collect();
    found.extend(methods(script));
    found
}

/// A warning at some fields of a line.
fn at(
    script: &Script,
    kind: Kind,
    number: u32,
    fields: std::ops::Range<usize>,
    text: String,
) -> Warning {
    let bytes = line(script.text, number).unwrap_or_default();
    Warning {
        kind,
        line: number,
        last: number,
        mark: field_range(bytes, fields),
        text,
    }
}

/// Lines of a method before its `var` lines: itself and its contract.
const METHOD_LINES: u32 = 3;
/// The same of main.
const MAIN_LINES: u32 = 1;

fn variables(script: &Script, block: usize) -> Vec<Warning> {
    let own = &script.program.blocks[block];
    let before = match own.header {
        Some(_) => METHOD_LINES,
        None => MAIN_LINES,
    };
    let first = script.block_line(block) + before;
    let locals = own.locals.iter().enumerate();
    let unused = locals.filter(|(place, _)| !body_names(script, block, FIRST_LOCAL + place));
    unused
        .map(|(place, local)| {
            let said = format!("the variable `{}` is never used", shown(local.name));
            let number = first + place as u32;
            at(script, Kind::UnusedVariable, number, 2..3, said)
        })
        .collect()
}

fn parameter(script: &Script, block: usize) -> Option<Warning> {
    let own = &script.program.blocks[block];
    let header = own.header.filter(|header| header.param.name != MEANT)?;
    let contract = [&own.requires[..], &own.ensures].concat();
    let asked = contract.iter().any(|atom| atom_names(atom, PARAM));
    let used = asked || body_names(script, block, PARAM);
    (!used).then(|| {
        let said = format!(
            "the parameter `{}` is never used; call it `{}` if that is meant",
            shown(header.param.name),
            shown(MEANT)
        );
        let number = script.block_line(block);
        at(script, Kind::UnusedParameter, number, 4..5, said)
    })
}

fn methods(script: &Script) -> Vec<Warning> {
    let routes = Routes::of(script);
    let blocks = script.program.blocks.iter().enumerate();
    let unused = blocks.filter(|(block, _)| !routes.is_called(*block));
    unused
        .filter_map(|(block, own)| {
            let name = shown(own.header?.name);
            let calls =
                |action: &Action| matches!(action, Action::Call(call) if call.method == block);
            let mut statements = script.program.statements.iter();
            let said = match statements.any(|statement| calls(&statement.action)) {
                true => format!("the method `{name}` is never used: no call of main leads to it"),
                false => format!("the method `{name}` is never used: no line calls it"),
            };
            let number = script.block_line(block);
            Some(at(script, Kind::UnusedMethod, number, 2..3, said))
        })
        .collect()
}

/// Does a statement of the block name the variable?
fn body_names(script: &Script, block: usize, var: Var) -> bool {
    let body = script.program.body(block).iter();
    let mut actions = body.map(|statement| &statement.action);
    actions.any(|action| action_names(action, var))
}

fn side_names(side: Expr, var: Var) -> bool {
    match side {
        Expr::Var(x) => x == var,
        Expr::Path(path) => path.var == var,
        Expr::Number(_) | Expr::Null => false,
    }
}

fn atom_names(atom: &Atom, var: Var) -> bool {
    match *atom {
        Atom::Permission(_, path) => path.var == var,
        Atom::Eq(left, right) | Atom::Ne(left, right) => {
            side_names(left, var) || side_names(right, var)
        }
    }
}

fn action_names(action: &Action, var: Var) -> bool {
    let formula = action.formula().unwrap_or_default();
    let own = match action {
        Action::Set(path, y) => path.var == var || *y == var,
        Action::Let(x, side) => *x == var || side_names(*side, var),
        Action::Compute(compute) => [compute.x, compute.y, compute.z].contains(&var),
        Action::New(x, _) | Action::Return(x) => *x == var,
        Action::Call(call) => [call.x, call.y, call.z].contains(&var),
        Action::Open(open) => open.y == var || open.path.var == var,
        Action::Shut(path) => path.var == var,
        Action::If(branch) => atom_names(&branch.condition, var),
        Action::Loop(rounds) => atom_names(&rounds.condition, var),
        Action::Assert(_) | Action::Release(_) | Action::Join(_) => false,
        Action::Else(_) | Action::Again(_) | Action::End => false,
    };
    own || formula.iter().any(|atom| atom_names(atom, var))
}
