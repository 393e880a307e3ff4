//! The writer's expressions, facts and formulas, most of them known to the state.

use super::writer::Writer;
use crate::checker::{State, Term};
use crate::names::{Atom, Expr, Formula, Path, Type, Var};

/// Small numbers, so that they meet, and the largest ones.
const NUMBERS: [i32; 8] = [0, 0, 1, 2, 7, -1, i32::MAX, i32::MIN];

impl<'p, 'a> Writer<'p, 'a> {
    /// A path that the state lists, sometimes by another name of its object;
    /// now and then any path.
    pub(super) fn known_path(&mut self, state: &State<'a>) -> Option<(Path<'a>, Type<'a>)> {
        let unknown = if self.style.miss.is_some() { 25 } else { 4 };
        let listed = state.permissions.iter();
        let listed: Vec<_> = listed.filter(|held| held.share.lists_path()).collect();
        let listed = self.rng.choose(&listed);
        let Some(listed) = listed.filter(|_| !self.rng.chance(unknown)) else {
            let vars = self.vars(|_, kind| kind != Type::Int);
            let var = self.rng.choose(&vars)?;
            let fields = &self.program.classes[self.class_of(var)?].fields;
            let field = self.rng.choose(fields)?;
            return self.path(var, field.name);
        };
        let same: Vec<Var> = state
            .equals(Term::Var(listed.var))
            .iter()
            .filter_map(|term| match term {
                Term::Var(var) => Some(*var),
                _ => None,
            })
            .collect();
        let var = self.rng.pick(&same);
        self.path(var, listed.field)
    }

    /// An expression of a type.
    pub(super) fn expr(&mut self, state: &State<'a>, kind: Type<'a>) -> Option<Expr<'a>> {
        match (self.rng.below(4), kind) {
            (0, Type::Int) => Some(Expr::Number(self.rng.pick(&NUMBERS))),
            (0, Type::Class(_)) => Some(Expr::Null),
            (1, _) => self.any_var(kind).map(Expr::Var),
            _ => {
                let (path, other) = self.known_path(state)?;
                (kind == other).then_some(Expr::Path(path))
            }
        }
    }

    fn any_kind(&mut self) -> Option<Type<'a>> {
        let vars = self.vars(|_, _| true);
        let var = self.rng.choose(&vars)?;
        self.type_of(var)
    }

    pub(super) fn term_expr(&self, term: Term<'a>) -> Option<Expr<'a>> {
        Some(match term {
            Term::Number(value) => Expr::Number(value),
            Term::Null => Expr::Null,
            Term::Var(var) => Expr::Var(var),
            Term::Path(var, field) => Expr::Path(self.path(var, field)?.0),
        })
    }

    /// An `eq` or `ne`: a fact of the state, two of its equal terms, or any.
    pub(super) fn fact(&mut self, state: &State<'a>) -> Option<Atom<'a>> {
        if self.rng.chance(60) {
            let fact = self.rng.choose(&state.facts)?;
            let class = state.equals(fact.left);
            let left = self.rng.pick(&class);
            let left = self.term_expr(left)?;
            let right = self.term_expr(fact.right)?;
            return self.compare(fact.equal, left, right);
        }
        self.any_fact(state)
    }

    /// An `eq` or `ne` of two sides that fit.
    pub(super) fn any_fact(&mut self, state: &State<'a>) -> Option<Atom<'a>> {
        let kind = self.any_kind()?;
        let left = self.expr(state, kind)?;
        let right = self.expr(state, kind)?;
        let equal = self.rng.chance(50);
        self.compare(equal, left, right)
    }

    /// Some atoms, most of them known to the state.
    pub(super) fn formula(&mut self, state: &State<'a>, most: usize, acc: usize) -> Formula<'a> {
        let tries = self.rng.within(0, 2 * most);
        let mut formula = Vec::new();
        for _ in 0..tries {
            if formula.len() == most {
                break;
            }
            let atom = match self.rng.chance(acc) {
                true => self.known_permission(state),
                false => self.fact(state),
            };
            let Some(atom) = atom else { continue };
            formula.push(atom);
            if state.show(&formula).is_err() && !self.rng.chance(3) {
                formula.pop();
            }
        }
        formula
    }

    /// An expression's type; null has none.
    fn kind(&self, expr: Expr<'a>) -> Option<Type<'a>> {
        match expr {
            Expr::Number(_) => Some(Type::Int),
            Expr::Null => None,
            Expr::Var(var) => self.type_of(var),
            Expr::Path(path) => self.path(path.var, path.field).map(|(_, kind)| kind),
        }
    }

    /// The two sides are int, or null or of one class.
    fn fit(&self, left: Expr<'a>, right: Expr<'a>) -> bool {
        match (self.kind(left), self.kind(right)) {
            (Some(left), Some(right)) => left == right,
            (left, right) => left != Some(Type::Int) && right != Some(Type::Int),
        }
    }

    /// An `eq` or `ne` of two sides that fit.
    pub(super) fn compare(&self, equal: bool, left: Expr<'a>, right: Expr<'a>) -> Option<Atom<'a>> {
        self.fit(left, right).then_some(match equal {
            true => Atom::Eq(left, right),
            false => Atom::Ne(left, right),
        })
    }

    /// A path that is not listed, of a variable known not to be null if there
    /// is one, else any.
    pub(super) fn lost_path(&mut self, state: &State<'a>) -> Option<(Path<'a>, Type<'a>)> {
        let vars = self.vars(|_, kind| kind != Type::Int);
        let all: Vec<_> = vars.iter().flat_map(|&var| self.paths(var)).collect();
        let mut lost = all.clone();
        lost.retain(|&(path, _)| {
            let object = Atom::Ne(Expr::Var(path.var), Expr::Null);
            state.show(&[object]).is_ok() && state.resolve(Expr::Path(path)).is_err()
        });
        self.rng.choose(&lost).or_else(|| self.rng.choose(&all))
    }
}

/// Number 10 for a resolved formula.
pub fn framed(formula: &[Atom]) -> bool {
    formula.iter().enumerate().all(|(place, atom)| {
        let holds = |atom: &Atom, path: Path| match *atom {
            Atom::Permission(share, other) => share.lists_path() && other == path,
            _ => false,
        };
        let held = |side: &Expr| match *side {
            Expr::Path(path) => formula[..place].iter().any(|atom| holds(atom, path)),
            _ => true,
        };
        match atom {
            Atom::Permission(..) => true,
            Atom::Eq(left, right) | Atom::Ne(left, right) => held(left) && held(right),
        }
    })
}
