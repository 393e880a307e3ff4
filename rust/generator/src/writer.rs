//! Statements for one block, each proposed at random and asked of the checker
//! in the state that the lines before it left.

use super::render;
use super::rng::Rng;
use crate::checker::{instance, simple, State};
use crate::names::{
    Action, Atom, Block, Call, Compute, Expr, Formula, Path, Program, Type, Var, FIRST_LOCAL,
    RESULT, VARS,
};
use crate::number::{self, Reason};
use crate::text::{self, Operator, Share};

/// What the lines of a program are like.
#[derive(Clone, Copy, Debug)]
pub struct Style {
    /// May a method call itself or a later one?
    pub recursive: bool,
    /// Are there loops?
    pub loops: bool,
    /// Of a hundred permissions that are asked for, so many by halves.
    pub halves: usize,
    /// Of a hundred links that are asked for, so many as chains.
    pub chains: usize,
    /// Of a hundred lines, so many are kept whatever the checker says.
    pub wild: usize,
    /// One line for which the checker gives this number.
    pub miss: Option<u32>,
}

/// The writer of one block.
pub struct Writer<'p, 'a> {
    pub program: &'p Program<'a>,
    pub index: usize,
    pub rng: &'p mut Rng,
    pub style: Style,
    /// The statement lines written so far.
    pub lines: Vec<String>,
    /// How many more may be written, the closing ones apart.
    pub budget: usize,
    /// The invariants of the open loops, the innermost last.
    pub invariants: Vec<Formula<'a>>,
}

impl<'p, 'a> Writer<'p, 'a> {
    pub(super) fn block(&self) -> &'p Block<'a> {
        &self.program.blocks[self.index]
    }

    pub(super) fn type_of(&self, var: Var) -> Option<Type<'a>> {
        render::type_of(self.block(), var)
    }

    /// The block's variables that a test holds of.
    pub(super) fn vars(&self, test: impl Fn(Var, Type<'a>) -> bool) -> Vec<Var> {
        (0..VARS)
            .filter(|&var| self.type_of(var).is_some_and(|kind| test(var, kind)))
            .collect()
    }

    pub(super) fn any_var(&mut self, kind: Type<'a>) -> Option<Var> {
        let vars = self.vars(|_, other| other == kind);
        self.rng.choose(&vars)
    }

    /// A local, which can be assigned.
    pub(super) fn local(&mut self, kind: Type<'a>, but: &[Var]) -> Option<Var> {
        let vars = self.vars(|var, other| {
            (FIRST_LOCAL..RESULT).contains(&var) && other == kind && !but.contains(&var)
        });
        self.rng.choose(&vars)
    }

    pub(super) fn class_of(&self, var: Var) -> Option<usize> {
        match self.type_of(var)? {
            Type::Int => None,
            Type::Class(name) => self.program.class(name),
        }
    }

    /// The path of a variable and a field's name, if its class has the field.
    pub(super) fn path(&self, var: Var, field: text::Name<'a>) -> Option<(Path<'a>, Type<'a>)> {
        let fields = &self.program.classes[self.class_of(var)?].fields;
        let slot = fields.iter().position(|other| other.name == field)?;
        Some((Path { var, field, slot }, fields[slot].kind))
    }

    /// The state after the statements, or why the first refused one is.
    pub(super) fn after(
        &self,
        state: &State<'a>,
        actions: &[Action<'a>],
    ) -> Result<State<'a>, Reason> {
        let mut state = state.clone();
        for action in actions {
            simple(self.program, self.block(), &mut state, action)?;
        }
        Ok(state)
    }

    /// A sum or difference; x may be y or z.
    fn any_compute(&mut self) -> Option<Compute> {
        Some(Compute {
            operator: self.rng.pick(&[Operator::Add, Operator::Sub]),
            x: self.local(Type::Int, &[])?,
            y: self.any_var(Type::Int)?,
            z: self.any_var(Type::Int)?,
        })
    }

    /// A receiver, a method, an argument and a variable for the result.
    pub(super) fn any_call(&mut self) -> Option<Call> {
        let vars = self.vars(|_, kind| kind != Type::Int);
        let y = self.rng.choose(&vars)?;
        let methods = &self.program.classes[self.class_of(y)?].methods;
        let main = self.block().header.is_none();
        let method = self.rng.choose(methods)?;
        if !main && method >= self.index && !self.style.recursive {
            return None;
        }
        let header = self.program.blocks[method].header?;
        let z = self.any_var(header.param.kind)?;
        let x = self.local(header.result, &[y, z])?;
        Some(Call { x, y, method, z })
    }

    /// A call, after statements that lead to what it requires.
    fn call(&mut self, state: &State<'a>) -> Option<Vec<Action<'a>>> {
        let mut last = None;
        for _ in 0..6 {
            let Some(call) = self.any_call() else {
                continue;
            };
            let requires = instance(&self.program.blocks[call.method].requires, call);
            let receiver = Atom::Ne(Expr::Var(call.y), Expr::Null);
            let needed = [&[receiver], &requires[..]].concat();
            if let Some((_, mut actions)) = self.establish(state, &needed) {
                actions.push(Action::Call(call));
                return Some(actions);
            }
            last = Some(vec![Action::Call(call)]);
        }
        last
    }

    /// One or more statements that make sense together.
    fn propose(&mut self, state: &State<'a>) -> Option<Vec<Action<'a>>> {
        let one = |action| Some(vec![action]);
        if self.rng.chance(self.style.chains / 2) {
            if let Some(lines) = self.chain_lines(state) {
                return Some(lines);
            }
        }
        match self.rng.below(100) {
            0..=11 => {
                let vars = self
                    .vars(|var, kind| (FIRST_LOCAL..RESULT).contains(&var) && kind != Type::Int);
                let var = self.rng.choose(&vars)?;
                one(Action::New(var, self.class_of(var)?))
            }
            12..=19 => one(Action::Compute(self.any_compute()?)),
            20..=33 => {
                let vars = self.vars(|var, _| (FIRST_LOCAL..RESULT).contains(&var));
                let var = self.rng.choose(&vars)?;
                let kind = self.type_of(var)?;
                one(Action::Let(var, self.expr(state, kind)?))
            }
            34..=48 => {
                let (path, kind) = self.known_path(state)?;
                one(Action::Set(path, self.any_var(kind)?))
            }
            49..=79 => self.call(state),
            80..=94 => one(Action::Assert(self.formula(state, 6, 40))),
            _ => one(Action::Release(self.formula(state, 2, 70))),
        }
    }

    pub(super) fn write(&mut self, action: &Action<'a>) {
        let line = render::action(self.program, self.block(), action);
        self.lines.push(line);
        self.budget = self.budget.saturating_sub(1);
    }

    /// All paths of a variable.
    pub(super) fn paths(&self, var: Var) -> Vec<(Path<'a>, Type<'a>)> {
        let Some(class) = self.class_of(var) else {
            return Vec::new();
        };
        let fields = self.program.classes[class].fields.iter();
        fields
            .filter_map(|field| self.path(var, field.name))
            .collect()
    }

    /// A statement that may well be refused with the number that is wanted.
    fn wrong(&mut self, state: &State<'a>) -> Option<Vec<Action<'a>>> {
        if self.rng.chance(self.style.chains) {
            return self.wrong_by_chains(state).map(|action| vec![action]);
        }
        if self.rng.chance(self.style.halves) {
            return self.wrong_by_halves(state).map(|action| vec![action]);
        }
        let (path, kind) = match self.rng.chance(20) {
            true => self.known_path(state)?,
            false => self.lost_path(state)?,
        };
        let choice = match self.style.miss {
            Some(number::UNRESOLVED) => self.rng.below(3),
            Some(number::NO_PERMISSION) => 3 + self.rng.below(4),
            _ => 7 + self.rng.below(4),
        };
        let (acc, side) = (Atom::Permission(Share::Acc, path), Expr::Path(path));
        Some(vec![match choice {
            0 => Action::Let(self.local(kind, &[])?, side),
            1 => Action::Assert(vec![Atom::Eq(side, side)]),
            2 => Action::Release(vec![Atom::Ne(side, self.expr(state, kind)?)]),
            3 => Action::Set(path, self.any_var(kind)?),
            4 => Action::Assert(vec![acc, acc]),
            5 => Action::Release(vec![acc, acc]),
            6 | 7 => Action::Call(self.any_call()?),
            8 => Action::Release(vec![self.fact(state)?]),
            _ => Action::Assert(vec![self.fact(state)?, self.fact(state)?]),
        }])
    }

    /// Can what ends the block, or the innermost loop's body, still be shown?
    pub(super) fn reaches(&mut self, state: &State<'a>) -> bool {
        match self.invariants.last().cloned() {
            Some(invariant) => self.establish(state, &invariant).is_some(),
            None => self.finish(state).is_some(),
        }
    }

    /// Proposes statements and writes them if the checker takes them, and if
    /// the end of the block or body can still be reached.
    pub(super) fn statement(&mut self, state: &mut State<'a>) {
        let wrong = self.style.miss.is_some() && self.rng.chance(40);
        let proposed = match wrong {
            true => self.wrong(state),
            false => self.propose(state),
        };
        if let Some(actions) = proposed {
            self.offer(state, &actions);
        }
    }

    /// Writes the statements if the checker takes them, and if the end can still be
    /// reached.
    pub(super) fn offer(&mut self, state: &mut State<'a>, actions: &[Action<'a>]) {
        match self.after(state, actions) {
            Ok(after) if self.reaches(&after) => {
                actions.iter().for_each(|action| self.write(action));
                *state = after;
            }
            Err(reason) if actions.len() == 1 && self.keeps(reason) => self.write(&actions[0]),
            _ => {}
        }
    }

    /// Is a refused statement kept all the same?
    pub(super) fn keeps(&mut self, reason: Reason) -> bool {
        let share = if self.block().header.is_none() {
            50
        } else {
            15
        };
        if self.style.miss == Some(reason.number()) && self.rng.chance(share) {
            self.style.miss = None;
            return true;
        }
        reason >= Reason::Unresolved && self.rng.chance(self.style.wild)
    }
}
