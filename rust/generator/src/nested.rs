//! The writer's bodies: statements, and branches and loops among them.

use super::facts::framed;
use super::writer::{Style, Writer};
use crate::checker::{alone, opposite, State};
use crate::limits;
use crate::names::{Action, Atom, Branch, Compute, Expr, Formula, Loop, Type, FIRST_LOCAL, RESULT};
use crate::text::{Operator, Share};

/// What the writer had before it began to write an `if` or a `loop`.
struct Mark {
    lines: usize,
    budget: usize,
    style: Style,
}

impl<'p, 'a> Writer<'p, 'a> {
    /// Some statements, branches and loops among them.
    pub fn body(&mut self, state: State<'a>, depth: usize, tries: usize) -> State<'a> {
        let mut state = state;
        for _ in 0..tries {
            if self.budget == 0 {
                break;
            }
            let (branches, loops) = if depth == 0 { (12, 6) } else { (18, 8) };
            let loops = if self.style.loops { loops } else { 0 };
            match self.rng.below(100) {
                at if depth == limits::NESTING || at >= branches + loops => {
                    self.statement(&mut state);
                }
                at => {
                    let mark = self.mark();
                    let after = match at < branches {
                        true => self.branches(&state, depth),
                        false => self.rounds(&state, depth),
                    };
                    match after {
                        Some(after) => state = after,
                        None => self.back_to(mark),
                    }
                }
            }
        }
        state
    }

    fn mark(&self) -> Mark {
        Mark {
            lines: self.lines.len(),
            budget: self.budget,
            style: self.style,
        }
    }

    fn back_to(&mut self, mark: Mark) {
        self.lines.truncate(mark.lines);
        self.budget = mark.budget;
        self.style = mark.style;
    }

    /// `if`, its branches and `join`, and the state after them; none if they do
    /// not fit.
    fn branches(&mut self, state: &State<'a>, depth: usize) -> Option<State<'a>> {
        let of_chain = self.rng.chance(self.style.chains);
        let condition = match of_chain {
            true => self.chain_condition(state)?,
            false => self.fact(state)?,
        };
        let branch = Action::If(Branch {
            condition,
            other: 0,
            join: 0,
        });
        let (mut first, mut other) = (state.clone(), state.clone());
        first.add(&[condition]).ok()?;
        other.add(&[opposite(condition)]).ok()?;
        self.write(&branch);
        if of_chain {
            self.open_first(&mut first);
        }
        let tries = self.rng.within(1, 8);
        let first = self.branch(first, depth + 1, tries);
        self.write(&Action::Else(0));
        let tries = self.rng.within(0, 6);
        let other = self.branch(other, depth + 1, tries);
        let ends: Vec<&State<'a>> = first.iter().chain(&other).collect();
        let join = self.join(state, &ends);
        let after = alone(&join, None);
        self.write(&Action::Join(join));
        self.reaches(&after).then_some(after)
    }

    /// The statements of a branch or body and its end; none if a `return` stands
    /// last.
    fn branch(&mut self, state: State<'a>, depth: usize, tries: usize) -> Option<State<'a>> {
        let state = self.body(state, depth, tries);
        if self.rng.chance(self.style.wild / 4) && self.return_unasked() {
            return None;
        }
        if self.rng.chance(20) {
            if let Some(actions) = self.give_back(&state) {
                actions.iter().for_each(|action| self.write(action));
                return None;
            }
        }
        Some(state)
    }

    /// A `return` of which no rule was asked; none in main.
    fn return_unasked(&mut self) -> bool {
        let kind = self.type_of(RESULT);
        let x = kind.and_then(|kind| self.any_var(kind));
        if let Some(x) = x {
            self.write(&Action::Return(x));
        }
        x.is_some()
    }

    /// A formula that the ends show: what ensures and the loop around need
    /// first. Where no branch has an end, it is made of what was known before.
    fn join(&mut self, before: &State<'a>, ends: &[&State<'a>]) -> Formula<'a> {
        let first = ends.first().copied().unwrap_or(before);
        let mut join = Vec::new();
        let mut candidates: Vec<Atom<'a>> = Vec::new();
        for listed in &first.permissions {
            candidates.extend(self.asked_of(listed));
        }
        self.rng.shuffle(&mut candidates);
        let mut needed: Vec<Atom<'a>> = self.block().ensures.clone();
        needed.extend(self.invariants.last().into_iter().flatten());
        needed.retain(|atom| matches!(atom, Atom::Permission(_, path) if path.var != RESULT));
        candidates.splice(0..0, needed);
        let facts = first.facts.iter().filter_map(|fact| {
            let (left, right) = (self.term_expr(fact.left)?, self.term_expr(fact.right)?);
            self.compare(fact.equal, left, right)
        });
        candidates.extend(facts.collect::<Vec<_>>());
        for atom in candidates {
            // A half may be asked for twice.
            let half = matches!(atom, Atom::Permission(Share::Read, _));
            let twice = !half && join.contains(&atom);
            if join.len() == limits::ATOMS || twice || self.rng.chance(10) {
                continue;
            }
            join.push(atom);
            let shown = ends.iter().try_for_each(|end| end.show(&join));
            if !framed(&join) || shown.is_err_and(|reason| !self.keeps(reason)) {
                join.pop();
            }
        }
        join
    }

    /// `loop`, its body and `again`, and the state after them; none if they do
    /// not fit.
    fn rounds(&mut self, state: &State<'a>, depth: usize) -> Option<State<'a>> {
        let mut invariant = self.join(state, &[state]);
        if self.rng.chance(40) {
            invariant.retain(|atom| matches!(atom, Atom::Permission(..)));
        }
        self.ask_too_much(state, &mut invariant);
        let condition = self.condition(&invariant)?;
        self.write(&Action::Loop(Loop {
            condition,
            invariant: invariant.clone(),
            again: 0,
        }));
        let after = alone(&invariant, Some(opposite(condition)));
        if !self.reaches(&after) {
            return None;
        }
        let tries = self.rng.within(0, 6);
        self.invariants.push(invariant.clone());
        let end = self.branch(alone(&invariant, Some(condition)), depth + 1, tries);
        self.invariants.pop();
        if let Some(end) = end {
            let closing = self.close(&end, &invariant, condition)?;
            closing.iter().for_each(|action| self.write(action));
        }
        self.write(&Action::Again(0));
        Some(after)
    }

    /// If a line is to be refused: an atom that the state at a `loop` does not
    /// show.
    fn ask_too_much(&mut self, state: &State<'a>, invariant: &mut Formula<'a>) {
        if self.style.miss.is_none() || invariant.len() == limits::ATOMS {
            return;
        }
        let atom = match self.rng.chance(50) {
            true => self.lost_permission(state),
            false => self.any_fact(state),
        };
        invariant.extend(atom);
        let refused = state
            .show(invariant)
            .is_err_and(|reason| self.keeps(reason));
        if atom.is_some() && !(refused && framed(invariant)) {
            invariant.pop();
        }
    }

    /// A condition that reads nothing but what the invariant holds; few are
    /// known from it.
    fn condition(&mut self, invariant: &[Atom<'a>]) -> Option<Atom<'a>> {
        let known = alone(invariant, None);
        (0..4).find_map(|_| {
            let condition = match self.rng.below(100) {
                at if at < self.style.chains / 2 => self.chain_condition(&known),
                80.. => self.fact(&known),
                _ => self.any_fact(&known),
            };
            condition.filter(|&atom| framed(&[invariant, &[atom]].concat()))
        })
    }

    /// Statements after which the end of a body shows the invariant. Most make
    /// the condition false as well, so that the loop ends; if a line is to be
    /// refused, they may be left out, or a permission or a fact let go.
    fn close(
        &mut self,
        end: &State<'a>,
        invariant: &[Atom<'a>],
        condition: Atom<'a>,
    ) -> Option<Vec<Action<'a>>> {
        let mut ended = None;
        if self.rng.chance(80) {
            let both = [invariant, &[opposite(condition)]].concat();
            ended = self.establish(end, &both);
        }
        let (_, closing) = ended.or_else(|| self.establish(end, invariant))?;
        let mut held = invariant.iter();
        let held = held.find(|atom| matches!(atom, Atom::Permission(..)));
        let lost = held.map(|&held| vec![Action::Release(vec![held])]);
        let forgotten = invariant.iter().find_map(|&atom| self.forget(atom));
        for wrong in [Vec::new()].into_iter().chain(forgotten).chain(lost) {
            let Ok(end) = self.after(end, &wrong) else {
                continue;
            };
            if end.show(invariant).is_err_and(|reason| self.keeps(reason)) {
                return Some(wrong);
            }
        }
        Some(closing)
    }

    /// Statements after which nothing is known of a number that the fact names.
    fn forget(&self, fact: Atom<'a>) -> Option<Vec<Action<'a>>> {
        let (Atom::Eq(left, right) | Atom::Ne(left, right)) = fact else {
            return None;
        };
        let mut sides = [left, right].into_iter();
        let x = sides.find_map(|side| match side {
            Expr::Var(x @ FIRST_LOCAL..RESULT) if self.type_of(x) == Some(Type::Int) => Some(x),
            _ => None,
        })?;
        let operator = Operator::Add;
        Some(vec![Action::Compute(Compute {
            operator,
            x,
            y: x,
            z: x,
        })])
    }
}
