//! What the checker knows: a state, what is left of it when something is
//! dropped, and what is added to it. What it shows is told in `showing`.

use crate::limits;
use crate::names::{Atom, Expr, Path, Var, VARS};
use crate::number::Reason;
use crate::text::{Name, Share};

/// What facts are over: "variables, constants and listed paths". A path is a
/// variable and the name of a field.
#[derive(Clone, Copy, Debug, PartialEq, Eq)]
pub enum Term<'a> {
    Number(i32),
    Null,
    Var(Var),
    Path(Var, Name<'a>),
}

impl Term<'_> {
    fn number(&self) -> Option<i32> {
        match self {
            Term::Number(value) => Some(*value),
            _ => None,
        }
    }

    /// The term with one variable in another's place.
    fn renamed(self, old: Var, new: Var) -> Self {
        match self {
            Term::Var(x) if x == old => Term::Var(new),
            Term::Path(x, field) if x == old => Term::Path(new, field),
            other => other,
        }
    }
}

/// An equality, or an inequality, of two terms.
#[derive(Clone, Copy, Debug, PartialEq, Eq)]
pub struct Fact<'a> {
    pub equal: bool,
    pub left: Term<'a>,
    pub right: Term<'a>,
}

/// A listed permission: one half of `x.f` or both (W8), or the chain from x by f
/// (W9).
#[derive(Clone, Copy, Debug, PartialEq, Eq)]
pub struct Permission<'a> {
    pub share: Share,
    pub var: Var,
    pub field: Name<'a>,
}

impl<'a> Permission<'a> {
    /// The path that it lists; a chain is none (W9).
    pub fn path(self) -> Option<Term<'a>> {
        let path = Term::Path(self.var, self.field);
        self.share.lists_path().then_some(path)
    }

    /// Is it a path of one of these terms?
    pub(crate) fn is_of(&self, owners: &[Term]) -> bool {
        self.share.lists_path() && owners.contains(&Term::Var(self.var))
    }
}

/// "A state is an ordered list of permissions `x.f` and a list of equalities
/// and inequalities over variables, constants and listed paths."
#[derive(Clone, Debug, Default, PartialEq, Eq)]
pub struct State<'a> {
    pub permissions: Vec<Permission<'a>>,
    pub facts: Vec<Fact<'a>>,
}

/// The rules give a reason, of the numbers 11 to 14; the line is added by who knows it.
pub type Rule<T> = Result<T, Reason>;

impl<'a> State<'a> {
    /// All terms ~ the given one, itself first. "Two terms are equal (~) if
    /// they are the same or the equalities link them."
    pub fn equals(&self, term: Term<'a>) -> Vec<Term<'a>> {
        let mut class = Vec::with_capacity(16);
        class.push(term);
        let mut used = [false; limits::FACTS];
        let mut next = 0;
        while next < class.len() {
            let member = class[next];
            for (fact, used) in self.facts.iter().zip(&mut used) {
                if *used || !fact.equal || (fact.left != member && fact.right != member) {
                    continue;
                }
                *used = true;
                for side in [fact.left, fact.right] {
                    if !class.contains(&side) {
                        class.push(side);
                    }
                }
            }
            next += 1;
        }
        class
    }

    /// "A path `y.f` resolves to the first listed `x.f` with x ~ y; other
    /// expressions to themselves." None is number 11.
    pub fn resolve(&self, expr: Expr<'a>) -> Rule<Term<'a>> {
        match expr {
            Expr::Number(value) => Ok(Term::Number(value)),
            Expr::Null => Ok(Term::Null),
            Expr::Var(var) => Ok(Term::Var(var)),
            Expr::Path(path) => self
                .listed(path)
                .next()
                .and_then(|place| self.permissions[place].path())
                .ok_or(Reason::Unresolved),
        }
    }

    /// The places of the entries for f of a variable ~ the term, chains too.
    pub fn entries(&self, of: Term<'a>, field: Name<'a>) -> impl Iterator<Item = usize> + '_ {
        let class = self.equals(of);
        (0..self.permissions.len()).filter(move |&place| {
            let entry = self.permissions[place];
            entry.field == field && class.contains(&Term::Var(entry.var))
        })
    }

    /// The places of the listed `x.f` with x ~ y.
    pub fn listed(&self, path: Path<'a>) -> impl Iterator<Item = usize> + '_ {
        self.entries(Term::Var(path.var), path.field)
            .filter(|&place| self.permissions[place].share.lists_path())
    }

    /// The first entry of this share for f of a variable ~ x.
    pub fn first_listed(&self, share: Share, path: Path<'a>) -> Option<usize> {
        self.entries(Term::Var(path.var), path.field)
            .find(|&place| self.permissions[place].share == share)
    }

    /// W3: "the first term left that was ~ to it. The order is variables as in
    /// document 01, listed paths, null, numbers rising."
    fn successor(&self, term: Term<'a>, dropped: &[Term<'a>]) -> Option<Term<'a>> {
        let equals = self.equals(term);
        let vars = (0..VARS).map(Term::Var);
        let paths = self.permissions.iter().filter_map(|listed| listed.path());
        let mut numbers: Vec<i32> = equals.iter().filter_map(Term::number).collect();
        numbers.sort_unstable();
        vars.chain(paths)
            .chain([Term::Null])
            .chain(numbers.into_iter().map(Term::Number))
            .find(|left| equals.contains(left) && !dropped.contains(left))
    }

    /// W3: "each dropped term gives way, in every fact, to the first term left
    /// that was ~ to it. ... A fact with a dropped term that has no such
    /// successor goes. An equality that now has one term on both sides goes
    /// too; all other facts keep their order." The list has the permissions
    /// that are left. Nothing happens if nothing is dropped.
    pub fn drop_terms(&mut self, dropped: &[Term<'a>]) {
        if dropped.is_empty() {
            return;
        }
        let heirs: Vec<_> = dropped
            .iter()
            .map(|&term| self.successor(term, dropped))
            .collect();
        let left = |term| match dropped.iter().position(|&gone| gone == term) {
            Some(place) => heirs[place],
            None => Some(term),
        };
        let given_way = |fact: &Fact<'a>| {
            Some(Fact {
                equal: fact.equal,
                left: left(fact.left)?,
                right: left(fact.right)?,
            })
        };
        self.facts = self.facts.iter().filter_map(given_way).collect();
        self.drop_reflexive();
    }

    /// "An equality that now has one term on both sides goes too".
    fn drop_reflexive(&mut self) {
        self.facts
            .retain(|fact| !(fact.equal && fact.left == fact.right));
    }

    /// The variable that takes the place of x: "if another variable is ~ x,
    /// the first such (order: `this`, w, locals, `result`)".
    fn equal_var(&self, x: Var) -> Option<Var> {
        let class = self.equals(Term::Var(x));
        (0..VARS).find(|&var| var != x && class.contains(&Term::Var(var)))
    }

    /// "Removing x": another variable ~ x "takes its place everywhere"; if there
    /// is none, x and its paths are dropped, and its chains go. Gives what is left of the term r:
    /// renamed likewise, or W3: "`let` takes the successor for its r."
    pub fn remove(&mut self, x: Var, r: Term<'a>) -> Option<Term<'a>> {
        if let Some(var) = self.equal_var(x) {
            self.rename(x, var);
            return Some(r.renamed(x, var));
        }
        let own = self.permissions.iter().filter(|listed| listed.var == x);
        let mut dropped = vec![Term::Var(x)];
        dropped.extend(own.filter_map(|listed| listed.path()));
        self.permissions.retain(|listed| listed.var != x);
        let r = match dropped.contains(&r) {
            true => self.successor(r, &dropped),
            false => Some(r),
        };
        self.drop_terms(&dropped);
        r
    }

    /// Another variable takes the place of x everywhere.
    fn rename(&mut self, x: Var, var: Var) {
        for permission in &mut self.permissions {
            if permission.var == x {
                permission.var = var;
            }
        }
        for fact in &mut self.facts {
            fact.left = fact.left.renamed(x, var);
            fact.right = fact.right.renamed(x, var);
        }
        self.drop_reflexive();
    }

    pub(crate) fn add_fact(&mut self, equal: bool, left: Term<'a>, right: Term<'a>) -> Rule<()> {
        if self.facts.len() == limits::FACTS {
            return Err(Reason::StateFull);
        }
        self.facts.push(Fact { equal, left, right });
        Ok(())
    }

    pub(crate) fn add_permission(&mut self, permission: Permission<'a>) -> Rule<()> {
        if self.permissions.len() == limits::PERMISSIONS {
            return Err(Reason::StateFull);
        }
        self.permissions.push(permission);
        Ok(())
    }

    /// W8: "A `read` added, atom by atom, where a `read` of an equal path is
    /// listed turns the first such into `acc`."
    fn add_share(&mut self, share: Share, path: Path<'a>) -> Rule<()> {
        let half = match share {
            Share::Read => self.first_listed(Share::Read, path),
            Share::Acc | Share::Chain => None,
        };
        match half {
            Some(place) => {
                self.permissions[place].share = Share::Acc;
                Ok(())
            }
            None => self.add_permission(Permission {
                share,
                var: path.var,
                field: path.field,
            }),
        }
    }

    pub(crate) fn add_atom(&mut self, atom: Atom<'a>) -> Rule<()> {
        let (equal, left, right) = match atom {
            Atom::Permission(share, path) => return self.add_share(share, path),
            Atom::Eq(left, right) => (true, left, right),
            Atom::Ne(left, right) => (false, left, right),
        };
        let (left, right) = (self.resolve(left)?, self.resolve(right)?);
        self.add_fact(equal, left, right)
    }

    /// "Adding a formula lists its permissions and its resolved facts, in
    /// order."
    pub fn add(&mut self, formula: &[Atom<'a>]) -> Rule<()> {
        formula.iter().try_for_each(|&atom| self.add_atom(atom))
    }
}
