//! Observation points of the check and the machine: who wants to know why a text gets its
//! answer looks on while the rules are applied. A watch changes no answer, and
//! one that does nothing costs nothing.

use crate::checker::{check_block_watched, check_watched, State};
use crate::framing::frame;
use crate::locations::Location;
use crate::names::{Atom, Expr, Path, Program};
use crate::number::{Refusal, Stop};
use crate::text::{Line, Share};

/// What a rule asks of the state.
#[derive(Clone, Copy, Debug, PartialEq, Eq)]
pub enum Need<'f, 'a> {
    /// The expression resolves.
    Read(Expr<'a>),
    /// The atoms are shown, in order.
    Show(&'f [Atom<'a>]),
    /// A chain by f of the value of `x.f` is shown.
    Rest(Path<'a>),
}

/// For what a rule asks it.
#[derive(Clone, Copy, Debug, PartialEq, Eq)]
#[non_exhaustive]
pub enum Purpose {
    /// `let` takes the value.
    Value,
    /// `if` compares the value; what a `loop` compares its invariant holds.
    Condition,
    /// `set` writes the field.
    Write,
    /// The receiver of a call is not null.
    Receiver,
    /// What the called method requires, in the caller's names.
    Requires,
    /// The line's own formula: `assert` or `release`.
    Claim,
    /// The formula of a `join`, at the end of its first branch.
    FirstEnd,
    /// The formula of a `join`, at the end of its second branch.
    SecondEnd,
    /// The invariant of a `loop`, where the state comes to it.
    Invariant,
    /// The invariant of a loop at its `again`, at the end of its body.
    RoundEnd,
    /// What the method ensures, at its `end` or at a `return`, `result` assigned.
    Ensures,
    /// `open` takes x ≠ null, then the chain of x.
    Open,
    /// `shut` takes the chain of the value of `x.f`, then `x.f` whole.
    Shut,
}

/// Who looks on. A place is one of the program's list of statements.
pub trait Watch<'a> {
    /// The state before a statement; at `else`, `join` and `again` that of the
    /// branch or body which ends there. A line straight after a `return` has
    /// none.
    fn before(&mut self, _place: usize, _state: &State<'a>) {}
    /// What the state is asked, before it answers.
    fn asked(&mut self, _place: usize, _state: &State<'a>, _for: Purpose, _need: Need<'_, 'a>) {}
    /// The state after a statement; at `if`, `else` and `loop` that with which
    /// the branch or body starts.
    fn after(&mut self, _place: usize, _state: &State<'a>) {}
}

/// Nobody looks on.
pub struct Unwatched;

impl Watch<'_> for Unwatched {}

/// A watch at one statement.
pub(crate) struct At<'w, W> {
    pub watch: &'w mut W,
    pub place: usize,
}

impl<'a, W: Watch<'a>> At<'_, W> {
    pub fn read(&mut self, state: &State<'a>, purpose: Purpose, expr: Expr<'a>) {
        self.watch
            .asked(self.place, state, purpose, Need::Read(expr));
    }

    pub fn rest(&mut self, state: &State<'a>, purpose: Purpose, path: Path<'a>) {
        self.watch
            .asked(self.place, state, purpose, Need::Rest(path));
    }

    pub fn show(&mut self, state: &State<'a>, purpose: Purpose, atoms: &[Atom<'a>]) {
        self.watch
            .asked(self.place, state, purpose, Need::Show(atoms));
    }
}

/// A question and the state that it was put to.
#[derive(Clone, Debug)]
pub struct Asked<'a> {
    pub place: usize,
    pub purpose: Purpose,
    pub state: State<'a>,
    /// The expression, if the question was whether it resolves.
    pub read: Option<Expr<'a>>,
    /// The atoms to be shown.
    pub show: Vec<Atom<'a>>,
    /// The path of whose value a chain is to be shown.
    pub rest: Option<Path<'a>>,
}

impl<'a> Asked<'a> {
    /// Was it asked whether an expression resolves that does not?
    pub fn unresolved(&self) -> bool {
        self.read
            .is_some_and(|expr| self.state.resolve(expr).is_err())
    }

    /// The place of the first atom that is not shown.
    pub fn unshown(&self) -> Option<usize> {
        (0..self.show.len()).find(|&at| self.state.show(&self.show[..=at]).is_err())
    }
}

/// The states before and after one statement, where the check came there.
#[derive(Clone, Debug, Default)]
pub struct Seen<'a> {
    pub before: Option<State<'a>>,
    pub after: Option<State<'a>>,
}

/// A check, written down.
#[derive(Clone, Debug)]
pub struct Record<'a> {
    /// For each statement.
    pub seen: Vec<Seen<'a>>,
    /// The last question: that of a refusal with 11, 12 or 13.
    pub asked: Option<Asked<'a>>,
    pub refusal: Option<Refusal>,
}

impl<'a> Record<'a> {
    /// Checks the program of these lines and writes down what is known at each
    /// line; none for a text with number 10, to which no rule is applied.
    pub fn of(lines: &[Line<'a>], program: &Program<'a>) -> Option<Record<'a>> {
        frame(lines).ok()?;
        let mut record = Record {
            seen: vec![Seen::default(); program.statements.len()],
            asked: None,
            refusal: None,
        };
        record.refusal = check_watched(program, &mut record).err();
        Some(record)
    }

    /// The check of one block alone, whose formulas are framed.
    pub fn of_block(program: &Program<'a>, block: usize) -> Record<'a> {
        let mut record = Record {
            seen: vec![Seen::default(); program.statements.len()],
            asked: None,
            refusal: None,
        };
        record.refusal = check_block_watched(program, block, &mut record).err();
        record
    }
}

impl<'a> Watch<'a> for Record<'a> {
    fn before(&mut self, place: usize, state: &State<'a>) {
        self.seen[place].before = Some(state.clone());
    }

    /// Of the two sides of a condition the first that does not resolve stays.
    fn asked(&mut self, place: usize, state: &State<'a>, purpose: Purpose, need: Need<'_, 'a>) {
        let last = self.asked.as_ref().filter(|last| last.place == place);
        if last.is_some_and(Asked::unresolved) {
            return;
        }
        let (read, show, rest) = match need {
            Need::Read(expr) => (Some(expr), Vec::new(), None),
            Need::Show(atoms) => (None, atoms.to_vec(), None),
            Need::Rest(path) => (None, Vec::new(), Some(path)),
        };
        self.asked = Some(Asked {
            place,
            purpose,
            state: state.clone(),
            read,
            show,
            rest,
        });
    }

    fn after(&mut self, place: usize, state: &State<'a>) {
        self.seen[place].after = Some(state.clone());
    }
}

/// Which formula a step tested when it was stopped.
#[derive(Clone, Copy, Debug, PartialEq, Eq)]
#[non_exhaustive]
pub enum Tested {
    /// None.
    Nothing,
    /// That of the line itself.
    Line,
    /// The invariant of the `loop` itself, without its condition.
    Invariant,
    /// What the called method requires, in its own names.
    Requires,
    /// What the running method ensures.
    Ensures,
}

/// The halves of a location that a step with number 24 missed.
#[derive(Clone, Copy, Debug, PartialEq, Eq)]
pub struct Missing {
    pub location: Location,
    /// How much of it was needed, by the kind of what needed it.
    pub share: Share,
    /// The halves that the frame held.
    pub held: u8,
    /// Those of them that earlier atoms of the formula had taken.
    pub taken: u8,
}

/// What stopped a step.
#[derive(Clone, Copy, Debug, PartialEq, Eq)]
pub struct Halt<'a> {
    pub stop: Stop,
    pub tested: Tested,
    /// The atom of the formula that was tested: its place from 0.
    pub atom: Option<usize>,
    /// The path that was followed.
    pub path: Option<Path<'a>>,
    /// What was missing there, for number 24.
    pub missing: Option<Missing>,
    /// The location that the walk over a chain came to again, for number 26.
    pub ring: Option<Location>,
}

impl<'a> Halt<'a> {
    pub(crate) fn of(stop: Stop) -> Halt<'a> {
        Halt {
            stop,
            tested: Tested::Nothing,
            atom: None,
            path: None,
            missing: None,
            ring: None,
        }
    }

    pub(crate) fn at(stop: Stop, path: Path<'a>) -> Halt<'a> {
        Halt {
            path: Some(path),
            ..Halt::of(stop)
        }
    }
}
