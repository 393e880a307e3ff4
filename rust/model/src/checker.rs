//! The checker's rules: the numbers 11 to 14.

use crate::names::{
    Action, Atom, Block, Branch, Call, Class, Expr, Loop, Path, Program, Statement, Type, Var,
    PARAM, RESULT, THIS,
};
use crate::number::{Reason, Refusal};
use crate::state::Rule;
use crate::text::Share;
use crate::watch::{At, Purpose, Unwatched, Watch};

pub use crate::state::{Fact, Permission, State, Term};

impl<'a> State<'a> {
    /// `let x e`. "If r is x, no change. Otherwise remove x, with r renamed
    /// likewise; if r is left, add x = r."
    fn assign<W: Watch<'a>>(&mut self, x: Var, expr: Expr<'a>, at: &mut At<W>) -> Rule<()> {
        at.read(self, Purpose::Value, expr);
        let r = self.resolve(expr)?;
        if r == Term::Var(x) {
            return Ok(());
        }
        match self.remove(x, r) {
            Some(r) => self.add_fact(true, Term::Var(x), r),
            None => Ok(()),
        }
    }

    /// `return x`. W2: "The checker shows ensures at that line", `result` assigned.
    fn give_back<W: Watch<'a>>(&mut self, x: Var, block: &Block<'a>, at: &mut At<W>) -> Rule<()> {
        self.assign(RESULT, Expr::Var(x), at)?;
        at.show(self, Purpose::Ensures, &block.ensures);
        self.show(&block.ensures)
    }

    /// `new`: "remove x; add its permissions, x ≠ null, and each field = null,
    /// or 0 for int"; both halves of each.
    fn create(&mut self, x: Var, class: &Class<'a>) -> Rule<()> {
        self.remove(x, Term::Null);
        for field in &class.fields {
            self.add_permission(Permission {
                share: Share::Acc,
                var: x,
                field: field.name,
            })?;
        }
        self.add_fact(false, Term::Var(x), Term::Null)?;
        for field in &class.fields {
            let start = match field.kind {
                Type::Int => Term::Number(0),
                Type::Class(_) => Term::Null,
            };
            self.add_fact(true, Term::Path(x, field.name), start)?;
        }
        Ok(())
    }

    /// `set`: "`acc x f` shown by a path p", W3: "the old value of the path
    /// counts as dropped"; "add p = y". A `read` shows no `acc`.
    fn set<W: Watch<'a>>(&mut self, path: Path<'a>, y: Var, at: &mut At<W>) -> Rule<()> {
        at.show(self, Purpose::Write, &[Atom::Permission(Share::Acc, path)]);
        let place = self
            .first_listed(Share::Acc, path)
            .ok_or(Reason::NoPermission)?;
        let Permission { var, field, .. } = self.permissions[place];
        let path = Term::Path(var, field);
        self.drop_terms(&[path]);
        self.add_fact(true, path, Term::Var(y))
    }

    /// `call`: "show y ≠ null, then requires with y, z for `this`, w. Take the
    /// remainder, remove x, add ensures with x for `result`."
    fn call<W: Watch<'a>>(&mut self, call: Call, method: &Block<'a>, at: &mut At<W>) -> Rule<()> {
        let receiver = [Atom::Ne(Expr::Var(call.y), Expr::Null)];
        at.show(self, Purpose::Receiver, &receiver);
        self.show(&receiver)?;
        let requires = instance(&method.requires, call);
        at.show(self, Purpose::Requires, &requires);
        self.take(&requires)?;
        self.remove(call.x, Term::Null);
        self.add(&instance(&method.ensures, call))
    }
}

/// A formula with other variables in the place of its own.
pub fn with_vars<'a>(formula: &[Atom<'a>], var: impl Fn(Var) -> Var) -> Vec<Atom<'a>> {
    let path = |path: Path<'a>| Path {
        var: var(path.var),
        ..path
    };
    let side = |expr| match expr {
        Expr::Var(x) => Expr::Var(var(x)),
        Expr::Path(p) => Expr::Path(path(p)),
        constant => constant,
    };
    let atom = |&atom: &Atom<'a>| match atom {
        Atom::Permission(share, p) => Atom::Permission(share, path(p)),
        Atom::Eq(left, right) => Atom::Eq(side(left), side(right)),
        Atom::Ne(left, right) => Atom::Ne(side(left), side(right)),
    };
    formula.iter().map(atom).collect()
}

/// A method's formula as its caller writes it: y, z, x for `this`, w, `result`.
pub fn instance<'a>(formula: &[Atom<'a>], call: Call) -> Vec<Atom<'a>> {
    with_vars(formula, |var| match var {
        THIS => call.y,
        PARAM => call.z,
        RESULT => call.x,
        other => unreachable!("variable {other} in a contract"),
    })
}

/// The opposite of a condition.
pub fn opposite(condition: Atom) -> Atom {
    match condition {
        Atom::Eq(left, right) => Atom::Ne(left, right),
        Atom::Ne(left, right) => Atom::Eq(left, right),
        Atom::Permission(..) => unreachable!("a condition is eq or ne"),
    }
}

/// The empty state with a framed formula added, and a condition after it.
pub fn alone<'a>(formula: &[Atom<'a>], condition: Option<Atom<'a>>) -> State<'a> {
    let mut state = State::default();
    let mut atoms = formula.iter().copied().chain(condition);
    atoms
        .try_for_each(|atom| state.add_atom(atom))
        .expect("nine framed atoms fit an empty state");
    state
}

/// The rule of one statement of the block that is no branch, loop or `end`.
pub fn simple<'a>(
    program: &Program<'a>,
    block: &Block<'a>,
    state: &mut State<'a>,
    action: &Action<'a>,
) -> Rule<()> {
    let mut at = At {
        watch: &mut Unwatched,
        place: 0,
    };
    watched(program, block, state, action, &mut at)
}

/// The same, with someone who looks on.
fn watched<'a, W: Watch<'a>>(
    program: &Program<'a>,
    block: &Block<'a>,
    state: &mut State<'a>,
    action: &Action<'a>,
    at: &mut At<W>,
) -> Rule<()> {
    match action {
        Action::Let(x, expr) => state.assign(*x, *expr, at),
        Action::Return(x) => state.give_back(*x, block, at),
        // W1: "The checker removes x and keeps no fact of the new value."
        Action::Compute(compute) => {
            state.remove(compute.x, Term::Null);
            Ok(())
        }
        Action::New(x, class) => state.create(*x, &program.classes[*class]),
        Action::Set(path, y) => state.set(*path, *y, at),
        Action::Call(call) => state.call(*call, &program.blocks[call.method], at),
        Action::Open(open) => state.open(*open, at),
        Action::Shut(path) => state.shut(*path, at),
        Action::Assert(formula) => {
            at.show(state, Purpose::Claim, formula);
            state.show(formula)
        }
        Action::Release(formula) => {
            at.show(state, Purpose::Claim, formula);
            state.take(formula)
        }
        Action::If(_)
        | Action::Else(_)
        | Action::Join(_)
        | Action::Loop(_)
        | Action::Again(_)
        | Action::End => unreachable!("branches, loops and ends have rules of their own"),
    }
}

/// Who looks on: it is told the place of a statement and the state before it.
pub type Observer<'o, 'a> = dyn FnMut(usize, &State<'a>) + 'o;

/// A watch that hears of the states before statements alone.
struct Before<'w, 'o, 'a>(&'w mut Observer<'o, 'a>);

impl<'a> Watch<'a> for Before<'_, '_, 'a> {
    fn before(&mut self, place: usize, state: &State<'a>) {
        (self.0)(place, state);
    }
}

/// What is left where a branch, a body or a block ends, and that place; no state
/// if a `return` stands last.
type End<'a> = (Option<State<'a>>, usize);

/// The check of a block, with someone who looks on.
struct Checker<'p, 'a, W> {
    program: &'p Program<'a>,
    block: &'p Block<'a>,
    watch: &'p mut W,
}

impl<'p, 'a, W: Watch<'a>> Checker<'p, 'a, W> {
    fn statement(&self, place: usize) -> &'p Statement<'a> {
        &self.program.statements[place]
    }

    fn refusal(&self, place: usize) -> impl Fn(Reason) -> Refusal {
        let line = self.statement(place).line;
        move |reason| Refusal { reason, line }
    }

    fn at(&mut self, place: usize) -> At<'_, W> {
        At {
            watch: self.watch,
            place,
        }
    }

    /// The statements from a place up to the `else`, `join`, `again` or `end`
    /// that closes them: its place, and the state that is left there. W2: "A
    /// branch whose last line is a `return` has no end to show".
    fn branch(&mut self, state: State<'a>, start: usize) -> Result<End<'a>, Refusal> {
        let mut state = state;
        let mut place = start;
        loop {
            self.watch.before(place, &state);
            match &self.statement(place).action {
                Action::Else(_) | Action::Join(_) | Action::Again(_) | Action::End => {
                    return Ok((Some(state), place));
                }
                Action::Loop(rounds) => {
                    state = self.rounds(&state, rounds, place)?;
                    place = rounds.again;
                }
                Action::If(branch) => {
                    state = self.branches(state, branch, place)?;
                    place = branch.join;
                }
                action => {
                    let (program, block) = (self.program, self.block);
                    watched(program, block, &mut state, action, &mut self.at(place))
                        .map_err(self.refusal(place))?;
                }
            }
            self.watch.after(place, &state);
            place += 1;
            if matches!(self.statement(place - 1).action, Action::Return(_)) {
                return Ok((None, place));
            }
        }
    }

    /// `if`: "both sides resolve; the first branch has the condition added, the
    /// second its opposite. At `join` the first end, then the second, shows the
    /// formula; the state after is that formula alone."
    fn branches(
        &mut self,
        state: State<'a>,
        branch: &Branch<'a>,
        place: usize,
    ) -> Result<State<'a>, Refusal> {
        let (at_if, at_join) = (self.refusal(place), self.refusal(branch.join));
        if let Atom::Eq(left, right) | Atom::Ne(left, right) = branch.condition {
            for side in [left, right] {
                self.at(place).read(&state, Purpose::Condition, side);
            }
        }
        let mut other = state.clone();
        let mut first = state;
        first.add_atom(branch.condition).map_err(&at_if)?;
        other.add_atom(opposite(branch.condition)).map_err(&at_if)?;
        self.watch.after(place, &first);
        let (first, _) = self.branch(first, place + 1)?;
        self.watch.after(branch.other, &other);
        let (other, _) = self.branch(other, branch.other + 1)?;
        let Action::Join(formula) = &self.statement(branch.join).action else {
            unreachable!("the target of a branch is its join");
        };
        for (end, purpose) in [(first, Purpose::FirstEnd), (other, Purpose::SecondEnd)] {
            let Some(end) = end else { continue };
            self.at(branch.join).show(&end, purpose, formula);
            end.show(formula).map_err(&at_join)?;
        }
        Ok(alone(formula, None))
    }

    /// The invariant of a loop, shown at its `loop` or its `again`.
    fn show_invariant(
        &mut self,
        state: &State<'a>,
        rounds: &Loop<'a>,
        place: usize,
        purpose: Purpose,
    ) -> Result<(), Refusal> {
        self.at(place).show(state, purpose, &rounds.invariant);
        state.show(&rounds.invariant).map_err(self.refusal(place))
    }

    /// W5: "At `loop` the state shows the invariant. The body starts from the
    /// invariant and the condition alone, and its end shows the invariant at
    /// `again`. The state afterwards is the invariant and the opposite alone. A
    /// `return` may also stand last before `again`, which then shows nothing."
    fn rounds(
        &mut self,
        state: &State<'a>,
        rounds: &Loop<'a>,
        place: usize,
    ) -> Result<State<'a>, Refusal> {
        self.show_invariant(state, rounds, place, Purpose::Invariant)?;
        let body = alone(&rounds.invariant, Some(rounds.condition));
        self.watch.after(place, &body);
        if let (Some(end), again) = self.branch(body, place + 1)? {
            self.show_invariant(&end, rounds, again, Purpose::RoundEnd)?;
        }
        Ok(alone(&rounds.invariant, Some(opposite(rounds.condition))))
    }

    /// "A method starts with its requires; its `end` must show ensures. Main
    /// starts empty" and shows nothing: its formulas are empty. W2: "an `end`
    /// straight after a `return` shows nothing."
    fn check(&mut self) -> Result<(), Refusal> {
        let block = self.block;
        let state = alone(&block.requires, None);
        let (Some(state), end) = self.branch(state, block.start)? else {
            return Ok(());
        };
        self.at(end).show(&state, Purpose::Ensures, &block.ensures);
        state.show(&block.ensures).map_err(self.refusal(end))
    }
}

/// "then the rules below in order of lines, on a line in the order told".
pub fn check(program: &Program) -> Result<(), Refusal> {
    check_watched(program, &mut Unwatched)
}

/// The same, with someone who hears of the states before statements.
pub fn check_observed<'a>(
    program: &Program<'a>,
    observer: &mut Observer<'_, 'a>,
) -> Result<(), Refusal> {
    check_watched(program, &mut Before(observer))
}

/// The same, with someone who looks on.
pub fn check_watched<'a>(program: &Program<'a>, watch: &mut impl Watch<'a>) -> Result<(), Refusal> {
    program.blocks.iter().try_for_each(|block| {
        let mut checker = Checker {
            program,
            block,
            watch: &mut *watch,
        };
        checker.check()
    })
}

/// The check of one block alone.
pub fn check_block(program: &Program, block: usize) -> Result<(), Refusal> {
    check_block_watched(program, block, &mut Unwatched)
}

/// The same, with someone who looks on.
pub fn check_block_watched<'a>(
    program: &Program<'a>,
    block: usize,
    watch: &mut impl Watch<'a>,
) -> Result<(), Refusal> {
    let block = &program.blocks[block];
    let mut checker = Checker {
        program,
        block,
        watch,
    };
    checker.check()
}
