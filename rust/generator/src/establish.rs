//! The writer's ways to make a formula hold: statements after which the state
//! shows it.

use super::writer::Writer;
use crate::checker::{with_vars, State};
use crate::names::{Action, Atom, Expr, Var, PARAM, RESULT, THIS};
use crate::text::Share;

impl<'p, 'a> Writer<'p, 'a> {
    /// The statements after which the block's `end` shows its ensures, or that
    /// end with a `return` which shows it.
    pub fn finish(&mut self, state: &State<'a>) -> Option<Vec<Action<'a>>> {
        if self.rng.chance(70) {
            if let Some(actions) = self.give_back(state) {
                return Some(actions);
            }
        }
        let ensures = &self.block().ensures;
        let shown = self.establish(state, ensures).map(|(_, actions)| actions);
        shown.or_else(|| self.give_back(state))
    }

    /// Statements with a `return` at their end, which shows the ensures.
    pub fn give_back(&mut self, state: &State<'a>) -> Option<Vec<Action<'a>>> {
        let kind = self.type_of(RESULT)?;
        for _ in 0..3 {
            let x = self.any_var(kind)?;
            let ensures = with_vars(&self.block().ensures, |var| match var {
                RESULT => x,
                other => other,
            });
            let Some((_, mut actions)) = self.establish(state, &ensures) else {
                continue;
            };
            actions.push(Action::Return(x));
            if self.after(state, &actions).is_ok() {
                return Some(actions);
            }
        }
        None
    }

    /// Statements after which the state shows the formula.
    pub(super) fn establish(
        &mut self,
        state: &State<'a>,
        formula: &[Atom<'a>],
    ) -> Option<(State<'a>, Vec<Action<'a>>)> {
        let mut state = state.clone();
        let mut actions = Vec::new();
        for end in 1..=formula.len() {
            if state.show(&formula[..end]).is_ok() {
                continue;
            }
            let more = match formula[end - 1] {
                Atom::Permission(Share::Chain, path) => self.link(&state, path)?,
                Atom::Permission(_, path) => match self.opened(&state, path) {
                    Some(actions) => actions,
                    None => self.make(path.var)?,
                },
                Atom::Eq(left, right) => match self.assign(left, right) {
                    Some(actions) => actions,
                    None => self.assign(right, left)?,
                },
                Atom::Ne(left, right) => self.differ(left, right)?,
            };
            state = self.after(&state, &more).ok()?;
            actions.extend(more);
        }
        state.show(formula).ok()?;
        Some((state, actions))
    }

    /// Statements that make a new object for a variable.
    fn make(&mut self, var: Var) -> Option<Vec<Action<'a>>> {
        let class = self.class_of(var)?;
        match var {
            THIS | PARAM | RESULT => None,
            local => Some(vec![Action::New(local, class)]),
        }
    }

    /// Statements that assign a value to a variable or a path.
    fn assign(&mut self, target: Expr<'a>, value: Expr<'a>) -> Option<Vec<Action<'a>>> {
        let kind = match target {
            Expr::Var(var) => self.type_of(var)?,
            Expr::Path(path) => self.path(path.var, path.field)?.1,
            _ => return None,
        };
        match (target, value) {
            (Expr::Var(THIS | PARAM | RESULT), _) => None,
            (Expr::Path(path), Expr::Var(from)) => Some(vec![Action::Set(path, from)]),
            (Expr::Path(path), _) => {
                let temp = self.local(kind, &[])?;
                Some(vec![Action::Let(temp, value), Action::Set(path, temp)])
            }
            (Expr::Var(local), _) => Some(vec![Action::Let(local, value)]),
            _ => None,
        }
    }

    /// Statements that make two sides differ: a new object, or another number.
    fn differ(&mut self, left: Expr<'a>, right: Expr<'a>) -> Option<Vec<Action<'a>>> {
        match (left, right) {
            (Expr::Var(var), Expr::Null) | (Expr::Null, Expr::Var(var)) => self.make(var),
            (Expr::Path(path), Expr::Null) | (Expr::Null, Expr::Path(path)) => {
                let kind = self.path(path.var, path.field)?.1;
                let temp = self.local(kind, &[path.var])?;
                Some(vec![
                    Action::New(temp, self.class_of(temp)?),
                    Action::Set(path, temp),
                ])
            }
            (side, Expr::Number(value)) | (Expr::Number(value), side) => {
                self.assign(side, Expr::Number(value ^ 1))
            }
            _ => None,
        }
    }
}
