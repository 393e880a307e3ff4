//! What a state shows, and the remainder when a formula is taken from it.

use crate::limits;
use crate::names::{Atom, Expr};
use crate::number::Reason;
use crate::state::{Permission, Rule, State, Term};
use crate::text::{Name, Share};

/// For each listed permission what is left of it.
pub type Left = [Option<Share>; limits::PERMISSIONS];

impl<'a> State<'a> {
    /// "`eq` if both sides resolve and are ~".
    fn show_eq(&self, left: Expr<'a>, right: Expr<'a>) -> Rule<()> {
        let (left, right) = (self.resolve(left)?, self.resolve(right)?);
        if self.equals(left).contains(&right) {
            Ok(())
        } else {
            Err(Reason::NotShown)
        }
    }

    /// "`ne` if both resolve and" one of the ways (a) to (d) is open.
    fn show_ne(&self, left: Expr<'a>, right: Expr<'a>) -> Rule<()> {
        let (left, right) = (self.resolve(left)?, self.resolve(right)?);
        let (left, right) = (self.equals(left), self.equals(right));
        let shown = self.inequality_links(&left, &right)
            || different_numbers(&left, &right)
            || self.null_and_owner(&left, &right)
            || self.null_and_owner(&right, &left)
            || self.two_entries(&left, &right);
        if shown {
            Ok(())
        } else {
            Err(Reason::NotShown)
        }
    }

    /// (a) "a listed inequality links them, either way round", up to ~.
    fn inequality_links(&self, left: &[Term], right: &[Term]) -> bool {
        self.facts.iter().filter(|fact| !fact.equal).any(|fact| {
            (left.contains(&fact.left) && right.contains(&fact.right))
                || (left.contains(&fact.right) && right.contains(&fact.left))
        })
    }

    /// (c) "one is ~ null and the other ~ x with some `x.f` listed".
    fn null_and_owner(&self, one: &[Term], other: &[Term]) -> bool {
        one.contains(&Term::Null) && self.permissions.iter().any(|listed| listed.is_of(other))
    }

    /// (d) "they are ~ x and ~ y with `x.f` and `y.f` two entries of the list
    /// for one f". W8: "Way (d) of showing `ne` needs an `acc` among the two."
    fn two_entries(&self, left: &[Term], right: &[Term]) -> bool {
        let entries = || self.permissions.iter().enumerate();
        entries().filter(|(_, x)| x.is_of(left)).any(|(i, x)| {
            entries()
                .filter(|(_, y)| y.is_of(right))
                .any(|(j, y)| i != j && x.field == y.field && one_whole(x, y))
        })
    }

    /// Nothing is taken yet.
    pub(crate) fn whole(&self) -> Left {
        let mut left = [None; limits::PERMISSIONS];
        for (left, listed) in left.iter_mut().zip(&self.permissions) {
            *left = Some(listed.share);
        }
        left
    }

    /// A permission for f of the term is taken of the first entry that shows it.
    /// W8: "`read` is shown by the first listed, unconsumed `acc` or `read` ...
    /// `acc` is shown by an unconsumed `acc` alone, never by a `read`, nor by two
    /// of equal paths." W9: a chain "by an unconsumed chain, by the same f, of an
    /// equal variable, else by x ~ null", which consumes nothing.
    pub(crate) fn show_permission(
        &self,
        share: Share,
        of: Term<'a>,
        field: Name<'a>,
        left: &mut Left,
    ) -> Rule<()> {
        let rest = |place: usize| Some((place, left[place]?.less(share)?));
        let shown = self.entries(of, field).find_map(rest);
        match shown {
            Some((place, rest)) => left[place] = rest,
            None if share == Share::Chain && self.equals(of).contains(&Term::Null) => {}
            None => return Err(Reason::NoPermission),
        }
        Ok(())
    }

    /// "Atoms go in order; `eq` and `ne` read the whole state." Gives what the
    /// formula leaves of each entry.
    pub fn leaves(&self, formula: &[Atom<'a>]) -> Rule<Left> {
        let mut left = self.whole();
        for &atom in formula {
            match atom {
                Atom::Permission(share, path) => {
                    self.show_permission(share, Term::Var(path.var), path.field, &mut left)?;
                }
                Atom::Eq(left, right) => self.show_eq(left, right)?,
                Atom::Ne(left, right) => self.show_ne(left, right)?,
            }
        }
        Ok(left)
    }

    /// Shows the formula and leaves the state as it is.
    pub fn show(&self, formula: &[Atom<'a>]) -> Rule<()> {
        self.leaves(formula).map(|_| ())
    }

    /// Shows the formula and leaves the remainder.
    pub fn take(&mut self, formula: &[Atom<'a>]) -> Rule<()> {
        let left = self.leaves(formula)?;
        self.keep(left);
        Ok(())
    }

    /// The remainder: "the state without consumed paths"; W3: "a name still listed
    /// is not dropped." W8: a `read` "taken from an `acc` ... leaves a `read` of
    /// that path with its facts." A consumed chain is no path: facts stay.
    pub(crate) fn keep(&mut self, left: Left) {
        let mut dropped = Vec::new();
        let listed = std::mem::take(&mut self.permissions);
        for (permission, share) in listed.into_iter().zip(left) {
            match share {
                Some(share) => self.permissions.push(Permission {
                    share,
                    ..permission
                }),
                None => dropped.extend(permission.path()),
            }
        }
        let listed = |path| {
            self.permissions
                .iter()
                .any(|left| left.path() == Some(path))
        };
        dropped.retain(|&path| !listed(path));
        self.drop_terms(&dropped);
    }
}

/// (b) "they are ~ to different numbers".
fn different_numbers(left: &[Term], right: &[Term]) -> bool {
    let number = |term: &&Term| matches!(term, Term::Number(_));
    left.iter()
        .filter(number)
        .any(|one| right.iter().filter(number).any(|other| one != other))
}

fn one_whole(x: &Permission, y: &Permission) -> bool {
    [x.share, y.share].contains(&Share::Acc)
}
