//! What the `requires` of a method hands over: of each path how many halves, and
//! whether `ensures` gives as many back.

use explain::script::Script;
use model::names::{Action, Atom, Expr, Path, Var, PARAM, THIS};
use model::text::Share as Atoms;
use model::watch::Record;

/// How much of a field a path hands over.
#[derive(Clone, Copy, Debug, PartialEq, Eq)]
pub enum Share<Other> {
    /// Both halves, by `acc` or by two `read`: to read and to write.
    Whole,
    /// One half, for reading: the call keeps its value.
    Half,
    /// One half, and another path has the other one if both are of one card.
    Either(Other),
    /// Both halves, and those of the field of each card that it leads to.
    Chain,
}

impl<Other> Share<Other> {
    pub fn word(&self) -> &'static str {
        match self {
            Share::Whole => "whole",
            Share::Half | Share::Either(_) => "half",
            Share::Chain => "chain",
        }
    }

    /// The path that may have the other half.
    pub fn other(&self) -> Option<&Other> {
        match self {
            Share::Either(other) => Some(other),
            Share::Whole | Share::Half | Share::Chain => None,
        }
    }

    fn halves(&self) -> u8 {
        match self {
            Share::Whole | Share::Chain => Atoms::Acc.halves(),
            Share::Half | Share::Either(_) => Atoms::Read.halves(),
        }
    }

    /// Are the paths of two variables always of two cards? No card has more than
    /// two halves of a field.
    pub fn apart(&self, other: &Share<Other>) -> bool {
        self.halves() + other.halves() > Atoms::Acc.halves()
    }
}

/// A path that is handed over, or a chain by its first link.
#[derive(Clone, Copy)]
pub struct Permission<'a> {
    pub path: Path<'a>,
    pub share: Share<Path<'a>>,
}

impl<'a> Permission<'a> {
    /// The atom that hands all of it over.
    pub fn atom(&self) -> Atom<'a> {
        let share = match self.share {
            Share::Chain => Atoms::Chain,
            _ => Atoms::Acc,
        };
        Atom::Permission(share, self.path)
    }
}

/// The paths of a formula, with the halves that each atom is of them; a chain is of
/// its first link.
fn atoms<'a, 'f>(formula: &'f [Atom<'a>]) -> impl Iterator<Item = (Path<'a>, u8)> + 'f {
    formula.iter().filter_map(|atom| match *atom {
        Atom::Permission(share, path) => Some((path, share.halves())),
        Atom::Eq(..) | Atom::Ne(..) => None,
    })
}

/// The halves that a formula has of a field of one card, by these names.
fn halves(formula: &[Atom], field: &[u8], names: &[Expr]) -> u8 {
    let own = atoms(formula)
        .filter(|(path, _)| path.field == field && names.contains(&Expr::Var(path.var)));
    let sum: u32 = own.map(|(_, halves)| u32::from(halves)).sum();
    sum.min(Atoms::Acc.halves().into()) as u8
}

/// What the equalities of a formula make equal to these expressions.
fn equal_to<'a>(formula: &[Atom<'a>], mut equal: Vec<Expr<'a>>) -> Vec<Expr<'a>> {
    let mut next = 0;
    while let Some(&known) = equal.get(next) {
        for atom in formula {
            let other = match *atom {
                Atom::Eq(left, right) if left == known => right,
                Atom::Eq(left, right) if right == known => left,
                _ => continue,
            };
            if !equal.contains(&other) {
                equal.push(other);
            }
        }
        next += 1;
    }
    equal
}

/// What the checker knows at each line of an accepted text, and what it is known
/// for.
pub struct Contracts<'s, 'a> {
    script: &'s Script<'a>,
    known: Option<Record<'a>>,
}

impl<'s, 'a> Contracts<'s, 'a> {
    pub fn of(script: &'s Script<'a>) -> Contracts<'s, 'a> {
        let known = Record::of(&script.lines, &script.program);
        Contracts {
            script,
            known: known.filter(|known| known.refusal.is_none()),
        }
    }

    /// Does the checker know an atom before a line?
    fn shows(&self, place: usize, atom: Atom<'a>) -> bool {
        let seen = self.known.as_ref().map(|known| &known.seen[place]);
        let state = seen.and_then(|seen| seen.before.as_ref());
        state.is_some_and(|state| state.show(&[atom]).is_ok())
    }

    /// Does the checker know before a line that two permissions are there, each beside
    /// the other?
    pub fn beside(&self, place: usize, one: Atom<'a>, other: Atom<'a>) -> bool {
        let seen = self.known.as_ref().map(|known| &known.seen[place]);
        let state = seen.and_then(|seen| seen.before.as_ref());
        state.is_some_and(|state| state.show(&[one, other]).is_ok())
    }

    /// Does the checker know before a line that two variables are of two cards?
    pub fn differ(&self, place: usize, one: Var, other: Var) -> bool {
        self.shows(place, Atom::Ne(Expr::Var(one), Expr::Var(other)))
    }

    /// Of `this` and the parameter those that are the variable's card from the
    /// start on; they are never assigned.
    pub fn same(&self, block: usize, var: Var) -> Vec<Expr<'a>> {
        let start = self.script.program.blocks[block].start;
        let equal = |other: &Var| {
            let both = Atom::Eq(Expr::Var(var), Expr::Var(*other));
            *other == var || self.alike(block, var, *other) && self.shows(start, both)
        };
        [THIS, PARAM]
            .into_iter()
            .filter(equal)
            .map(Expr::Var)
            .collect()
    }

    /// Are two variables of one class?
    pub fn alike(&self, block: usize, one: Var, other: Var) -> bool {
        let names = self.script.names(block);
        names.kind(one) == names.kind(other)
    }

    /// What a block is handed, each path and each chain once.
    pub fn handed(&self, block: usize) -> Vec<Permission<'a>> {
        let requires = &self.script.program.blocks[block].requires;
        let mut asked: Vec<(bool, Path)> = Vec::new();
        for atom in requires {
            if let Atom::Permission(share, path) = *atom {
                let one = (share == Atoms::Chain, path);
                asked.extend(Some(one).filter(|one| !asked.contains(one)));
            }
        }
        let paths = asked.iter().filter(|(chain, _)| !chain);
        let paths: Vec<Path> = paths.map(|&(_, path)| path).collect();
        let share = |&(chain, path): &(bool, Path<'a>)| Permission {
            path,
            share: match chain {
                true => Share::Chain,
                false => self.share(block, path, &paths),
            },
        };
        asked.iter().map(share).collect()
    }

    fn share(&self, block: usize, path: Path<'a>, paths: &[Path<'a>]) -> Share<Path<'a>> {
        let block_of = &self.script.program.blocks[block];
        let halves =
            |of: &Path<'a>| halves(&block_of.requires, of.field, &self.same(block, of.var));
        if halves(&path) == Atoms::Acc.halves() {
            return Share::Whole;
        }
        let other = paths.iter().find(|other| {
            (other.var != path.var && other.field == path.field && halves(other) == halves(&path))
                && self.alike(block, path.var, other.var)
                && !self.differ(block_of.start, path.var, other.var)
        });
        other.map_or(Share::Half, |&other| Share::Either(other))
    }

    /// Does `ensures` give as many halves back, by the field's own name or an equal
    /// one? A chain may come back with other cards, where its links are written.
    pub fn back(&self, block: usize, handed: Permission<'a>) -> bool {
        let ensures = &self.script.program.blocks[block].ensures;
        let equal = equal_to(ensures, self.same(block, handed.path.var));
        if handed.share == Share::Chain {
            return ensures.iter().any(|atom| match *atom {
                Atom::Permission(Atoms::Chain, path) => {
                    path.field == handed.path.field && equal.contains(&Expr::Var(path.var))
                }
                _ => false,
            });
        }
        let wanted = match handed.share {
            Share::Either(other) if equal.contains(&Expr::Var(other.var)) => Atoms::Acc.halves(),
            share => share.halves(),
        };
        halves(ensures, handed.path.field, &equal) >= wanted
    }
}

/// Does a line of the text have to do with chains?
pub fn has_chains(script: &Script) -> bool {
    let chain = |atom: &Atom| matches!(atom, Atom::Permission(Atoms::Chain, _));
    let mut contracts = script.program.blocks.iter();
    let mut lines = script.program.statements.iter();
    contracts.any(|block| block.requires.iter().chain(&block.ensures).any(chain))
        || lines.any(|line| match &line.action {
            Action::Open(_) | Action::Shut(_) => true,
            action => action
                .formula()
                .is_some_and(|formula| formula.iter().any(chain)),
        })
}
