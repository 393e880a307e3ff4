//! The machine: the numbers 0 and 21 to 27 of a run.

use crate::formula::{Outcome, Reader};
use crate::limits;
use crate::names::{
    Action, Atom, Block, Call, Compute, Loop, Path, Program, Statement, Var, FIRST_LOCAL, PARAM,
    RESULT, THIS, VARS,
};
use crate::number::{self, Refusal, Stop};
use crate::text::Share;
use crate::watch::{Halt, Tested};

pub use crate::formula::location;
pub use crate::locations::{Location, Locations};

/// The values of a frame's variables; null is 0.
pub type Values = [i32; VARS];

/// "A frame has values and a set A of locations", since W8 with one half of each
/// or both. A frame that waits for a call stands at the `call`.
#[derive(Clone, Copy, Debug)]
pub struct Frame {
    /// The frame's block, a place in the program's list.
    pub block: usize,
    /// The next statement, a place in the program's list.
    pub next: usize,
    pub values: Values,
    pub held: Locations,
}

/// An object: the place of its first field in the heap, how many it has, and
/// its class, a place in the program's list.
#[derive(Clone, Copy, Debug, PartialEq, Eq)]
pub struct Object {
    pub first: Location,
    pub fields: usize,
    pub class: usize,
}

/// How much of the heap the objects of a run may have.
#[derive(Clone, Copy, Debug, PartialEq, Eq)]
pub struct Room {
    pub objects: usize,
    pub fields: usize,
}

impl Room {
    /// "The machine has 256 objects, 1,024 fields".
    pub const WHOLE: Room = Room {
        objects: limits::OBJECTS,
        fields: limits::HEAP_FIELDS,
    };

    /// W12: "a share of k objects and 4 × k fields".
    pub const fn share(k: usize) -> Room {
        Room {
            objects: k,
            fields: limits::SHARE_FIELDS * k,
        }
    }
}

/// What a step that was done leads to.
#[derive(Clone, Copy, Debug, PartialEq, Eq)]
pub enum Step {
    /// The run goes on.
    On,
    /// Main's `end` is done.
    Done,
}

/// The state of a run. "A run is the list of steps from the empty heap and
/// main's frame."
pub struct Machine<'p, 'a> {
    pub program: &'p Program<'a>,
    /// Object n is entry n - 1: "Objects are numbered as made".
    pub objects: Vec<Object>,
    /// The values of all fields of all objects; in a count those of other scripts
    /// too (W12).
    pub heap: Vec<i32>,
    /// How much its own objects may have of the heap.
    pub room: Room,
    /// Main's frame first, the running one last.
    pub frames: Vec<Frame>,
    /// The steps done.
    pub steps: u32,
    /// What stopped the last step, if one was stopped.
    pub halt: Option<Halt<'a>>,
}

/// The values of a called method's variables at its start.
pub fn callee_values(caller: &Values, call: Call) -> Values {
    let mut values = [0; VARS];
    values[THIS] = caller[call.y];
    values[PARAM] = caller[call.z];
    values
}

/// The values of a method's variables when `return x` tests ensures.
pub fn returned_values(values: &Values, x: Var) -> Values {
    let mut values = *values;
    values[RESULT] = values[x];
    values
}

impl<'p, 'a> Machine<'p, 'a> {
    /// "the empty heap and main's frame"
    pub fn new(program: &'p Program<'a>) -> Machine<'p, 'a> {
        Machine::within(program, Room::WHOLE)
    }

    /// The same, with so much of the heap.
    pub fn within(program: &'p Program<'a>, room: Room) -> Machine<'p, 'a> {
        let block = program.blocks.len() - 1;
        let main = Frame {
            block,
            next: program.blocks[block].start,
            values: [0; VARS],
            held: Locations::default(),
        };
        Machine {
            program,
            objects: Vec::new(),
            heap: Vec::new(),
            room,
            frames: vec![main],
            steps: 0,
            halt: None,
        }
    }

    /// The frame that runs.
    pub fn frame(&self) -> &Frame {
        &self.frames[self.frames.len() - 1]
    }

    fn frame_mut(&mut self) -> &mut Frame {
        self.frames.last_mut().expect("main's frame stays")
    }

    /// The statement of the next step.
    pub fn statement(&self) -> &'p Statement<'a> {
        &self.program.statements[self.frame().next]
    }

    fn block(&self) -> &'p Block<'a> {
        &self.program.blocks[self.frame().block]
    }

    pub(crate) fn reader(&self) -> Reader<'_> {
        let frame = self.frame();
        Reader {
            objects: &self.objects,
            heap: &self.heap,
            values: &frame.values,
            held: &frame.held,
        }
    }

    /// "Each statement line is one step". "A stopped step is not counted", and
    /// it changes nothing.
    pub fn step(&mut self) -> Result<Step, Stop> {
        self.tried().map_err(|halt| {
            self.halt = Some(halt);
            halt.stop
        })
    }

    fn tried(&mut self) -> Outcome<'a, Step> {
        let here = self.frame().next;
        let step = match &self.statement().action {
            Action::End => self.leave(self.frame().values)?,
            Action::Return(x) => self.leave(returned_values(&self.frame().values, *x))?,
            Action::Call(call) => {
                self.call(*call)?;
                Step::On
            }
            action => {
                let next = self.simple(here, action)?;
                self.frame_mut().next = next;
                Step::On
            }
        };
        self.steps += 1;
        Ok(step)
    }

    /// A step inside one frame; gives the place of the next statement.
    fn simple(&mut self, here: usize, action: &Action<'a>) -> Outcome<'a, usize> {
        match action {
            Action::Set(path, y) => self.set(*path, *y)?,
            Action::Let(x, expr) => {
                let value = self.reader().value(*expr)?;
                self.assign(*x, value);
            }
            Action::Compute(compute) => self.compute(*compute)?,
            Action::New(x, class) => self.create(*x, *class)?,
            Action::Open(open) => self.open(*open)?,
            Action::Shut(path) => self.reader().shut(*path)?,
            Action::Assert(formula) | Action::Join(formula) => {
                self.reader().formula(formula, Tested::Line)?;
            }
            Action::Release(formula) => {
                let footprint = self.reader().formula(formula, Tested::Line)?;
                self.frame_mut().held.remove_all(&footprint);
            }
            // "a false `if` goes to the line after its `else`"
            Action::If(branch) => {
                if !self.condition(branch.condition)? {
                    return Ok(branch.other + 1);
                }
            }
            // "also `else` (on to its `join`)"
            Action::Else(join) => return Ok(*join),
            Action::Loop(rounds) => {
                if !self.arrive(rounds)? {
                    return Ok(rounds.again + 1);
                }
            }
            // "`again` is a step back to it"
            Action::Again(start) => return Ok(*start),
            Action::Call(_) | Action::Return(_) | Action::End => {
                unreachable!("these change the frames")
            }
        }
        Ok(here + 1)
    }

    /// W5: "Each arrival at `loop` is a step that tests the invariant, then the
    /// condition, and if that is false goes on after `again`".
    fn arrive(&self, rounds: &Loop<'a>) -> Outcome<'a, bool> {
        let reader = self.reader();
        reader.formula(&rounds.invariant, Tested::Invariant)?;
        self.condition(rounds.condition)
    }

    /// "`set` first tests `acc x f`." W8: "Reading needs one half, `set` both."
    fn set(&mut self, path: Path<'a>, y: Var) -> Outcome<'a, ()> {
        let reader = self.reader();
        let location = reader.location(path, Share::Acc, &Locations::NONE)?;
        self.heap[location] = self.frame().values[y];
        Ok(())
    }

    pub(crate) fn assign(&mut self, x: Var, value: i32) {
        self.frame_mut().values[x] = value;
    }

    /// W1: "A result beyond 32 bits signed stops the run: ... a run has stop 27,
    /// tested when the value is known".
    fn compute(&mut self, compute: Compute) -> Outcome<'a, ()> {
        let values = &self.frame().values;
        let (y, z) = (values[compute.y], values[compute.z]);
        let value = compute.operator.value(y, z);
        self.assign(compute.x, value.ok_or(Halt::of(Stop::Overflow))?);
        Ok(())
    }

    fn condition(&self, condition: Atom<'a>) -> Outcome<'a, bool> {
        match condition {
            Atom::Eq(left, right) => self.reader().equal(left, right),
            Atom::Ne(left, right) => self.reader().equal(left, right).map(|equal| !equal),
            Atom::Permission(..) => unreachable!("a condition is eq or ne"),
        }
    }

    /// "22 only where `new` would pass 256 objects or 1,024 fields", or in a count the
    /// script's share of them.
    fn create(&mut self, x: Var, class: usize) -> Outcome<'a, ()> {
        let fields = self.program.classes[class].fields.len();
        let used: usize = self.objects.iter().map(|object| object.fields).sum();
        if self.objects.len() == self.room.objects || used + fields > self.room.fields {
            return Err(Halt::of(Stop::HeapFull));
        }
        let first = self.heap.len();
        self.objects.push(Object {
            first,
            fields,
            class,
        });
        self.heap.resize(first + fields, 0);
        for location in first..first + fields {
            self.frame_mut().held.add(location, Share::Acc.halves());
        }
        self.assign(x, self.objects.len() as i32);
        Ok(())
    }

    /// "`call`: null receiver, then requires, then frames full; the new frame's
    /// A is the footprint of requires, which the caller loses"; since W8 the
    /// halves of it.
    fn call(&mut self, call: Call) -> Outcome<'a, ()> {
        let caller = self.frame();
        if caller.values[call.y] == 0 {
            return Err(Halt::of(Stop::NullFollowed));
        }
        let method = &self.program.blocks[call.method];
        let values = callee_values(&caller.values, call);
        let reader = Reader {
            values: &values,
            ..self.reader()
        };
        let footprint = reader.formula(&method.requires, Tested::Requires)?;
        if self.frames.len() == limits::FRAMES {
            return Err(Halt::of(Stop::FramesFull));
        }
        self.frame_mut().held.remove_all(&footprint);
        self.frames.push(Frame {
            block: call.method,
            next: method.start,
            values,
            held: footprint,
        });
        Ok(())
    }

    /// "`end`: ensures, then the caller gains its footprint, and x the result;
    /// the rest of that A is lost." W2: "`return x` sets the result, tests
    /// ensures and goes back to the caller in one step."
    fn leave(&mut self, values: Values) -> Outcome<'a, Step> {
        let reader = Reader {
            values: &values,
            ..self.reader()
        };
        let footprint = reader.formula(&self.block().ensures, Tested::Ensures)?;
        if self.frames.len() == 1 {
            return Ok(Step::Done);
        }
        self.frames.pop();
        let Action::Call(call) = self.statement().action else {
            unreachable!("a waiting frame stands at its call");
        };
        self.assign(call.x, values[RESULT]);
        let caller = self.frame_mut();
        caller.held.add_all(&footprint);
        caller.next += 1;
        Ok(Step::On)
    }

    /// The frames that hold a half of the location or both, from main's 0, with
    /// how many halves each.
    pub fn holders(&self, location: Location) -> impl Iterator<Item = (usize, u8)> + '_ {
        let halves = move |frame: &Frame| frame.held.halves(location);
        let frames = self.frames.iter().map(halves).enumerate();
        frames.filter(|&(_, halves)| halves > 0)
    }

    /// Main's variables in order of `var` lines, then zeros.
    pub fn values(&self) -> [i32; limits::LOCALS] {
        let values = &self.frames[0].values;
        std::array::from_fn(|place| values[FIRST_LOCAL + place])
    }
}

/// What run, trial or lean returns and what it leaves in results.
#[derive(Clone, Copy, Debug, PartialEq, Eq)]
pub struct Run {
    pub number: u32,
    pub line: u32,
    pub steps: u32,
    pub values: [i32; limits::LOCALS],
}

impl Run {
    /// Zeros.
    pub const NONE: Run = Run {
        number: 0,
        line: 0,
        steps: 0,
        values: [0; limits::LOCALS],
    };

    /// A refused text has steps and values of zeros.
    pub fn refused(refusal: Refusal) -> Run {
        Run {
            number: refusal.number(),
            line: refusal.line,
            ..Run::NONE
        }
    }
}

/// "A run tests 21 before each step."
pub fn run(program: &Program, allowed: u32) -> Run {
    run_within(program, allowed, Room::WHOLE)
}

/// The same, with so much of the heap.
pub fn run_within(program: &Program, allowed: u32, room: Room) -> Run {
    let mut machine = Machine::within(program, room);
    loop {
        let line = machine.statement().line;
        let number = if machine.steps == allowed {
            number::OUT_OF_STEPS
        } else {
            match machine.step() {
                Ok(Step::On) => continue,
                Ok(Step::Done) => number::DONE,
                Err(stop) => stop.number(),
            }
        };
        return Run {
            number,
            line,
            steps: machine.steps,
            values: machine.values(),
        };
    }
}
