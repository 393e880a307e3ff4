//! W8: how much of a path the generator asks for: a whole permission, a half, or
//! both halves one by one; and lines that ask for more than there is.

use super::rng::Rng;
use super::writer::Writer;
use crate::checker::{Permission, State};
use crate::limits;
use crate::names::{Action, Atom, Expr, Formula, Path};
use crate::number;
use crate::text::Share::{self, Acc, Chain, Read};

/// The permissions to a path that are asked for together.
pub type Asked = &'static [Share];

/// A way to ask for a path; of a hundred so many by halves.
pub fn asked(rng: &mut Rng, halves: usize) -> Asked {
    match rng.chance(halves) {
        true => rng.pick(&[&[Read][..], &[Read], &[Read, Read]]),
        false => &[Acc],
    }
}

/// A way to give a path back that was asked for so.
pub fn given_back(rng: &mut Rng, halves: usize, asked_for: Asked) -> Asked {
    match asked_for {
        [Read] => &[Read],
        [Chain] => &[Chain],
        _ => asked(rng, halves),
    }
}

/// The atoms, as many as a formula has; some stand in another order.
pub fn permissions<'a>(rng: &mut Rng, paths: &[(Asked, Path<'a>)]) -> Formula<'a> {
    let atoms = paths.iter().flat_map(|&(asked, path)| {
        let atom = move |&share| Atom::Permission(share, path);
        asked.iter().map(atom)
    });
    let mut atoms: Formula = atoms.collect();
    if rng.chance(30) {
        rng.shuffle(&mut atoms);
    }
    atoms.truncate(limits::ATOMS);
    atoms
}

impl<'p, 'a> Writer<'p, 'a> {
    fn share(&mut self) -> Share {
        asked(self.rng, self.style.halves)[0]
    }

    /// A permission to a path that the state lists, or a chain; now and then any.
    pub(super) fn known_permission(&mut self, state: &State<'a>) -> Option<Atom<'a>> {
        if self.rng.chance(self.style.chains) {
            if let Some(chain) = self.chain_atom(state) {
                return Some(chain);
            }
        }
        let (path, _) = self.known_path(state)?;
        Some(Atom::Permission(self.share(), path))
    }

    /// A permission to a path that is not listed.
    pub(super) fn lost_permission(&mut self, state: &State<'a>) -> Option<Atom<'a>> {
        let (path, _) = self.lost_path(state)?;
        Some(Atom::Permission(self.share(), path))
    }

    /// Atoms that a listed permission shows.
    pub(super) fn asked_of(&mut self, listed: &Permission<'a>) -> Formula<'a> {
        let shares = match listed.share {
            Read => &[Read],
            Chain => &[Chain],
            Acc => asked(self.rng, self.style.halves),
        };
        let path = self.path(listed.var, listed.field);
        let path = path.map(|(path, _)| path);
        // A chain of what is null may have gone over to a variable of another class.
        let path = path.filter(|&path| listed.share.lists_path() || self.is_link(path));
        let atoms = path.map(|path| {
            let atom = |&share| Atom::Permission(share, path);
            shares.iter().map(atom).collect()
        });
        atoms.unwrap_or_default()
    }

    /// A statement that asks for more of a path than there is, or that takes two
    /// cards with a half each for different ones.
    pub(super) fn wrong_by_halves(&mut self, state: &State<'a>) -> Option<Action<'a>> {
        if self.style.miss == Some(number::NOT_SHOWN) {
            return self.two_readers(state);
        }
        let halves = state.permissions.iter().filter(|held| held.share == Read);
        let halves: Vec<Permission> = halves.copied().collect();
        let (path, kind) = match self.rng.choose(&halves) {
            Some(half) => self.path(half.var, half.field)?,
            None => self.known_path(state)?,
        };
        let wanted: &[Share] = match halves.is_empty() {
            true => self.rng.pick(&[
                &[Acc, Read][..],
                &[Read, Acc],
                &[Acc, Acc],
                &[Read, Read, Read],
            ]),
            false => self.rng.pick(&[&[Acc][..], &[Acc], &[Read, Read]]),
        };
        let atom = |&share| Atom::Permission(share, path);
        let formula: Formula = wanted.iter().map(atom).collect();
        Some(match self.rng.below(5) {
            0 => Action::Set(path, self.any_var(kind)?),
            1 => Action::Call(self.any_call()?),
            2 => Action::Release(formula),
            _ => Action::Assert(formula),
        })
    }

    /// An `assert` that two variables differ, a half of one field listed for each.
    fn two_readers(&mut self, state: &State<'a>) -> Option<Action<'a>> {
        let halves = state.permissions.iter().filter(|held| held.share == Read);
        let halves: Vec<Permission> = halves.copied().collect();
        let one = self.rng.choose(&halves)?;
        let others = halves
            .iter()
            .filter(|other| other.field == one.field && other.var != one.var);
        let others: Vec<Permission> = others.copied().collect();
        let other = self.rng.choose(&others)?;
        let differ = self.compare(false, Expr::Var(one.var), Expr::Var(other.var))?;
        Some(Action::Assert(vec![differ]))
    }
}
