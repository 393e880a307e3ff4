//! W10, the lean machine: "A machine without permission sets, and without
//! evaluating assert, requires, ensures, join or invariants". It is for accepted
//! programs alone: "Stops 24, 25 and 26 are shown not to occur there and are taken
//! out of its answers."

use crate::limits;
use crate::machine::{callee_values, location, returned_values, Location, Object, Run, Values};
use crate::names::{Action, Atom, Call, Expr, Path, Program, Var, FIRST_LOCAL, RESULT, VARS};
use crate::number::{self, Stop};

/// A frame: its values, and the next statement; one that waits stands at its
/// `call`.
struct Frame {
    next: usize,
    values: Values,
}

/// What a step leads to.
enum Step {
    /// The frame that runs goes on here.
    To(usize),
    /// Another frame runs now.
    Moved,
    /// Main's `end` is done.
    Done,
}

/// Why a step is not done: 22, 23 or 27, and no other.
#[derive(Clone, Copy, Debug, PartialEq, Eq)]
enum LeanStop {
    HeapFull,
    FramesFull,
    Overflow,
}

impl From<LeanStop> for Stop {
    fn from(stop: LeanStop) -> Stop {
        match stop {
            LeanStop::HeapFull => Stop::HeapFull,
            LeanStop::FramesFull => Stop::FramesFull,
            LeanStop::Overflow => Stop::Overflow,
        }
    }
}

struct Lean<'p, 'a> {
    program: &'p Program<'a>,
    objects: Vec<Object>,
    heap: Vec<i32>,
    /// The frames that wait, main's first.
    waiting: Vec<Frame>,
    running: Frame,
}

impl<'p, 'a> Lean<'p, 'a> {
    fn new(program: &'p Program<'a>) -> Lean<'p, 'a> {
        Lean {
            program,
            objects: Vec::new(),
            heap: Vec::new(),
            waiting: Vec::new(),
            running: Frame {
                next: program.main().start,
                values: [0; VARS],
            },
        }
    }

    /// Where `x.f` is. An accepted program follows no null: that is what W10 rests on.
    fn place(&self, path: Path) -> Location {
        location(&self.objects, &self.running.values, path)
            .expect("an accepted program follows no null")
    }

    fn value(&self, expr: Expr) -> i32 {
        match expr {
            Expr::Number(value) => value,
            Expr::Null => 0,
            Expr::Var(var) => self.running.values[var],
            Expr::Path(path) => self.heap[self.place(path)],
        }
    }

    /// The condition of an `if` or `loop`, which is evaluated.
    fn holds(&self, condition: Atom) -> bool {
        match condition {
            Atom::Eq(left, right) => self.value(left) == self.value(right),
            Atom::Ne(left, right) => self.value(left) != self.value(right),
            Atom::Permission(..) => unreachable!("a condition is eq or ne"),
        }
    }

    fn step(&mut self) -> Result<Step, LeanStop> {
        let here = self.running.next;
        match self.program.statements[here].action {
            Action::Set(path, y) => {
                let place = self.place(path);
                self.heap[place] = self.running.values[y];
            }
            Action::Let(x, expr) => self.running.values[x] = self.value(expr),
            Action::Compute(compute) => {
                let values = &mut self.running.values;
                let value = compute.operator.value(values[compute.y], values[compute.z]);
                values[compute.x] = value.ok_or(LeanStop::Overflow)?;
            }
            Action::New(x, class) => self.create(x, class)?,
            Action::Open(open) => self.running.values[open.y] = self.heap[self.place(open.path)],
            // "`release`, `assert` and `join` each still a step"
            Action::Shut(_) | Action::Assert(_) | Action::Release(_) | Action::Join(_) => {}
            Action::If(branch) if !self.holds(branch.condition) => {
                return Ok(Step::To(branch.other + 1))
            }
            Action::Else(join) => return Ok(Step::To(join)),
            Action::Loop(ref rounds) if !self.holds(rounds.condition) => {
                return Ok(Step::To(rounds.again + 1))
            }
            Action::If(_) | Action::Loop(_) => {}
            Action::Again(start) => return Ok(Step::To(start)),
            Action::Call(call) => return self.call(call),
            Action::Return(x) => return Ok(self.leave(returned_values(&self.running.values, x))),
            Action::End => return Ok(self.leave(self.running.values)),
        }
        Ok(Step::To(here + 1))
    }

    fn create(&mut self, x: Var, class: usize) -> Result<(), LeanStop> {
        let fields = self.program.classes[class].fields.len();
        let first = self.heap.len();
        if self.objects.len() == limits::OBJECTS || first + fields > limits::HEAP_FIELDS {
            return Err(LeanStop::HeapFull);
        }
        self.objects.push(Object {
            first,
            fields,
            class,
        });
        self.heap.resize(first + fields, 0);
        self.running.values[x] = self.objects.len() as i32;
        Ok(())
    }

    /// Nothing is tested but "frames full".
    fn call(&mut self, call: Call) -> Result<Step, LeanStop> {
        if self.waiting.len() + 1 == limits::FRAMES {
            return Err(LeanStop::FramesFull);
        }
        let called = Frame {
            next: self.program.blocks[call.method].start,
            values: callee_values(&self.running.values, call),
        };
        self.waiting
            .push(std::mem::replace(&mut self.running, called));
        Ok(Step::Moved)
    }

    /// `end` and `return`: back to the caller, with the result.
    fn leave(&mut self, values: Values) -> Step {
        let Some(mut caller) = self.waiting.pop() else {
            return Step::Done;
        };
        let Action::Call(call) = self.program.statements[caller.next].action else {
            unreachable!("a waiting frame stands at its call");
        };
        caller.values[call.x] = values[RESULT];
        caller.next += 1;
        self.running = caller;
        Step::Moved
    }

    /// Main's variables in order of `var` lines, then zeros.
    fn values(&self) -> [i32; limits::LOCALS] {
        let main = self.waiting.first().unwrap_or(&self.running);
        std::array::from_fn(|place| main.values[FIRST_LOCAL + place])
    }
}

/// The lean run of an accepted program, of at most that many steps.
pub(crate) fn run(program: &Program, allowed: u32) -> Run {
    let mut machine = Lean::new(program);
    let mut steps = 0;
    let (number, line) = loop {
        let line = program.statements[machine.running.next].line;
        if steps == allowed {
            break (number::OUT_OF_STEPS, line);
        }
        match machine.step() {
            Ok(Step::To(next)) => machine.running.next = next,
            Ok(Step::Moved) => {}
            Ok(Step::Done) => {
                steps += 1;
                break (number::DONE, line);
            }
            Err(stop) => break (Stop::from(stop).number(), line),
        }
        steps += 1;
    };
    Run {
        number,
        line,
        steps,
        values: machine.values(),
    }
}
