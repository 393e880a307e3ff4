//! Resolved statements and formulas, written as lines again.

use crate::names::{
    Action, Atom, Block, Expr, Path, Program, Type, Var, FIRST_LOCAL, PARAM, RESULT, THIS,
};
use crate::text::Name;

fn written(name: Name) -> String {
    String::from_utf8_lossy(name).into_owned()
}

/// A variable's name in its block.
pub fn var(block: &Block, var: Var) -> String {
    match (var, block.header) {
        (THIS, _) => "this".to_string(),
        (RESULT, _) => "result".to_string(),
        (PARAM, Some(header)) => written(header.param.name),
        (local, _) => written(block.locals[local - FIRST_LOCAL].name),
    }
}

/// A variable's type in its block; none if the block has no such variable.
pub fn type_of<'a>(block: &Block<'a>, var: Var) -> Option<Type<'a>> {
    match var {
        THIS => block.header.map(|header| Type::Class(header.class)),
        PARAM => block.header.map(|header| header.param.kind),
        RESULT => block.header.map(|header| header.result),
        local => block
            .locals
            .get(local - FIRST_LOCAL)
            .map(|local| local.kind),
    }
}

fn path(block: &Block, path: Path) -> String {
    format!("{}.{}", var(block, path.var), written(path.field))
}

fn expr(block: &Block, side: Expr) -> String {
    match side {
        Expr::Number(value) => value.to_string(),
        Expr::Null => "null".to_string(),
        Expr::Var(x) => var(block, x),
        Expr::Path(p) => path(block, p),
    }
}

fn atom(block: &Block, atom: Atom) -> String {
    match atom {
        Atom::Permission(share, p) => {
            format!(
                "{} {} {}",
                share.word(),
                var(block, p.var),
                written(p.field)
            )
        }
        Atom::Eq(left, right) => format!("eq {} {}", expr(block, left), expr(block, right)),
        Atom::Ne(left, right) => format!("ne {} {}", expr(block, left), expr(block, right)),
    }
}

/// A word and a formula.
pub fn formula(block: &Block, word: &str, atoms: &[Atom]) -> String {
    let mut fields = vec![word.to_string()];
    fields.extend(atoms.iter().map(|&part| atom(block, part)));
    fields.join(" ").replace(' ', "\t")
}

/// A statement line.
pub fn action(program: &Program, block: &Block, action: &Action) -> String {
    let var = |x| var(block, x);
    match action {
        Action::Set(p, y) => format!("set {} {} {}", var(p.var), written(p.field), var(*y)),
        Action::Let(x, side) => format!("let {} {}", var(*x), expr(block, *side)),
        Action::Compute(compute) => {
            let (x, y, z) = (var(compute.x), var(compute.y), var(compute.z));
            format!("{} {x} {y} {z}", compute.operator.word())
        }
        Action::New(x, class) => {
            format!("new {} {}", var(*x), written(program.classes[*class].name))
        }
        Action::Call(call) => {
            let method = program.blocks[call.method].header.expect("a method");
            let (x, y, z) = (var(call.x), var(call.y), var(call.z));
            format!("call {x} {y} {} {z}", written(method.name))
        }
        Action::Open(open) => {
            let (y, x) = (var(open.y), var(open.path.var));
            format!("open {y} {x} {}", written(open.path.field))
        }
        Action::Shut(p) => format!("shut {} {}", var(p.var), written(p.field)),
        Action::Return(x) => format!("return {}", var(*x)),
        Action::Assert(atoms) => formula(block, "assert", atoms),
        Action::Release(atoms) => formula(block, "release", atoms),
        Action::If(branch) => formula(block, "if", &[branch.condition]),
        Action::Else(_) => "else".to_string(),
        Action::Join(atoms) => formula(block, "join", atoms),
        Action::Loop(rounds) => {
            let atoms = [&[rounds.condition], &rounds.invariant[..]].concat();
            formula(block, "loop", &atoms)
        }
        Action::Again(_) => "again".to_string(),
        Action::End => "end".to_string(),
    }
    .replace(' ', "\t")
}
