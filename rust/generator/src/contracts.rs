//! Contracts of methods: permissions, whole, by halves or as chains, and facts.

use super::render;
use super::rng::Rng;
use super::shares::{asked, given_back, permissions, Asked};
use super::writer::Style;
use crate::limits;
use crate::names::{Atom, Block, Expr, Formula, Path, Program, Type, Var, PARAM, RESULT, THIS};
use crate::text::Share;

/// The paths of a variable.
fn paths<'a>(program: &Program<'a>, block: &Block<'a>, var: Var) -> Vec<Path<'a>> {
    let Some(Type::Class(name)) = render::type_of(block, var) else {
        return Vec::new();
    };
    let class = program.class(name).expect("a declared class");
    let fields = program.classes[class].fields.iter().enumerate();
    fields
        .map(|(slot, field)| Path {
            var,
            field: field.name,
            slot,
        })
        .collect()
}

fn kind_of<'a>(program: &Program<'a>, block: &Block<'a>, path: Path<'a>) -> Option<Type<'a>> {
    let Type::Class(name) = render::type_of(block, path.var)? else {
        return None;
    };
    let class = &program.classes[program.class(name)?];
    Some(class.fields[path.slot].kind)
}

/// An `eq` or `ne` over the variables, the held paths and constants.
fn contract_fact<'a>(
    rng: &mut Rng,
    program: &Program<'a>,
    block: &Block<'a>,
    vars: &[Var],
    held: &[Path<'a>],
) -> Option<Atom<'a>> {
    let mut sides: Vec<(Expr<'a>, Type<'a>)> = Vec::new();
    for &var in vars {
        sides.push((Expr::Var(var), render::type_of(block, var)?));
    }
    for &path in held {
        sides.push((Expr::Path(path), kind_of(program, block, path)?));
    }
    let (left, kind) = rng.choose(&sides)?;
    let constant = match kind {
        Type::Int => Expr::Number(rng.pick(&[0, 1, 7])),
        Type::Class(_) => Expr::Null,
    };
    let others: Vec<Expr> = sides
        .iter()
        .filter(|&&(side, other)| other == kind && side != left)
        .map(|&(side, _)| side)
        .collect();
    let right = match rng.choose(&others) {
        Some(other) if rng.chance(50) => other,
        _ => constant,
    };
    // Few objects are null.
    let equal = if (left, right) == (Expr::Var(THIS), Expr::Null) {
        5
    } else {
        75
    };
    Some(match rng.chance(equal) {
        true => Atom::Eq(left, right),
        false => Atom::Ne(left, right),
    })
}

/// A formula of a contract: the permissions, then some facts.
fn formula<'a>(
    rng: &mut Rng,
    program: &Program<'a>,
    block: &Block<'a>,
    vars: &[Var],
    held: &[(Asked, Path<'a>)],
    facts: usize,
) -> Formula<'a> {
    let mut formula = permissions(rng, held);
    let held = formula.iter().filter_map(|atom| match atom {
        Atom::Permission(share, path) => share.lists_path().then_some(*path),
        _ => None,
    });
    let held: Vec<Path> = held.collect();
    for _ in 0..rng.within(0, facts) {
        if formula.len() < limits::ATOMS {
            formula.extend(contract_fact(rng, program, block, vars, &held));
        }
    }
    formula
}

/// How a path of a contract is asked for: as a chain where one goes by it, whole, or
/// by halves.
fn way<'a>(
    rng: &mut Rng,
    program: &Program<'a>,
    block: &Block<'a>,
    style: &Style,
    path: Path<'a>,
) -> Asked {
    let link = kind_of(program, block, path) == render::type_of(block, path.var);
    match link && rng.chance(style.chains) {
        true => &[Share::Chain],
        false => asked(rng, style.halves),
    }
}

/// Some paths of `this` and w, with how each is asked for.
fn held<'a>(
    rng: &mut Rng,
    program: &Program<'a>,
    block: &Block<'a>,
    style: &Style,
) -> Vec<(Asked, Path<'a>)> {
    let mut held = paths(program, block, THIS);
    held.extend(paths(program, block, PARAM));
    let share = rng.pick(&[20, 50, 80]);
    held.retain(|_| rng.chance(share));
    held.truncate(6);
    let held = held.into_iter();
    held.map(|path| (way(rng, program, block, style, path), path))
        .collect()
}

/// What a method may ask of its `this` and w beside permissions: that they are
/// objects, or, with halves, that both are one.
fn objects<'a>(rng: &mut Rng, block: &Block<'a>, halves: usize, requires: &mut Formula<'a>) {
    let chain =
        |atom: &Atom| matches!(atom, Atom::Permission(Share::Chain, path) if path.var == PARAM);
    if requires.len() < limits::ATOMS && requires.iter().any(chain) && rng.chance(40) {
        requires.push(Atom::Ne(Expr::Var(PARAM), Expr::Null));
    }
    if requires.len() < limits::ATOMS && rng.chance(50) {
        requires.insert(0, Atom::Ne(Expr::Var(THIS), Expr::Null));
    }
    let alike = render::type_of(block, THIS) == render::type_of(block, PARAM);
    if alike && requires.len() < limits::ATOMS && rng.chance(halves / 3) {
        let place = rng.below(requires.len() + 1);
        requires.insert(place, Atom::Eq(Expr::Var(THIS), Expr::Var(PARAM)));
    }
}

/// A method's requires, and an ensures that gives most of it back.
pub fn contract<'a>(
    rng: &mut Rng,
    program: &Program<'a>,
    block: &Block<'a>,
    style: &Style,
) -> (Formula<'a>, Formula<'a>) {
    let mut held = held(rng, program, block, style);
    let mut requires = formula(rng, program, block, &[THIS, PARAM], &held, 2);
    objects(rng, block, style.halves, &mut requires);
    held.retain(|_| rng.chance(85));
    for (asked, _) in &mut held {
        *asked = given_back(rng, style.halves, asked);
    }
    if rng.chance(40) {
        let made = paths(program, block, RESULT).into_iter();
        held.extend(made.map(|path| (way(rng, program, block, style, path), path)));
    }
    let vars = [THIS, PARAM, RESULT];
    let ensures = formula(rng, program, block, &vars, &held, 3);
    (requires, ensures)
}
