//! Why a run stopped, and the calls that are open then.

use super::history::{open_loops, same_card, Trail};
use super::stopped_chains::{Walk, NO_RING};
use super::stopped_halves::{half_written, lack, with_other};
use super::Cause;
use crate::rounds::Open;
use crate::script::{field_range, line, quoted, shown, Names, Script};
use model::machine::{Machine, Room, Step, Values};
use model::names::{Action, Atom, Expr, Path, Type};
use model::number::{self, Stop};
use model::text::{Operator, Share};
use model::watch::{Halt, Tested};

/// Longer runs are not done again to show their cards, their calls or their loops; why
/// one stopped is said of every run.
pub const AGAIN: u32 = 20_000_000;

/// The machine after so many steps, at the step that stopped.
pub fn machine_at<'p, 'a>(script: &'p Script<'a>, steps: u32) -> Machine<'p, 'a> {
    let mut machine = Machine::new(&script.program);
    while machine.steps < steps && machine.step() == Ok(Step::On) {}
    machine
}

/// A value as messages show it.
pub fn value_shown(kind: Option<Type>, value: i32) -> String {
    match (kind, value) {
        (Some(Type::Int) | None, value) => value.to_string(),
        (_, 0) => "null".to_string(),
        (_, object) => format!("object {object}"),
    }
}

/// The formula that a stopped step tested, and the names and values it read.
struct Formula<'p, 'a> {
    atoms: &'p [Atom<'a>],
    names: Names<'p, 'a>,
    values: Values,
    of: String,
}

fn formula<'p, 'a>(
    script: &'p Script<'a>,
    machine: &Machine<'p, 'a>,
    tested: Tested,
) -> Option<Formula<'p, 'a>> {
    let frame = machine.frame();
    let own = |atoms, of: String| Formula {
        atoms,
        names: script.names(frame.block),
        values: frame.values,
        of,
    };
    Some(match (tested, &machine.statement().action) {
        (Tested::Line, action) => own(action.formula()?, String::new()),
        (Tested::Invariant, action) => own(action.formula()?, arrival(script, machine)),
        (Tested::Ensures, action) => {
            let (_, line) = script.contract_lines(frame.block);
            let ensures = &script.program.blocks[frame.block].ensures;
            let tested = own(ensures, format!(" of `ensures` (line {line})"));
            match action {
                Action::Return(x) => Formula {
                    values: model::machine::returned_values(&frame.values, *x),
                    ..tested
                },
                _ => tested,
            }
        }
        (Tested::Requires, Action::Call(call)) => {
            let (line, _) = script.contract_lines(call.method);
            Formula {
                atoms: &script.program.blocks[call.method].requires,
                names: script.names(call.method),
                values: model::machine::callee_values(&frame.values, *call),
                of: format!(" of `requires` (line {line})"),
            }
        }
        _ => return None,
    })
}

/// The value of one side, with the name of what has it.
fn side(machine: &Machine, tested: &Formula, expr: Expr) -> Option<String> {
    let name = tested.names.expr(expr);
    match expr {
        Expr::Number(_) | Expr::Null => None,
        Expr::Var(var) => {
            let value = value_shown(tested.names.kind(var), tested.values[var]);
            Some(format!("`{name}` is {value}"))
        }
        Expr::Path(path) => {
            let location = model::machine::location(&machine.objects, &tested.values, path)?;
            let value = value_shown(
                path_kind(machine, &tested.values, path),
                machine.heap[location],
            );
            Some(format!("`{name}` is {value}"))
        }
    }
}

fn path_kind<'a>(machine: &Machine<'_, 'a>, values: &Values, path: Path) -> Option<Type<'a>> {
    let object = (values[path.var] as usize).checked_sub(1)?;
    let class = &machine.program.classes[machine.objects.get(object)?.class];
    class.fields.get(path.slot).map(|field| field.kind)
}

/// Why the step after so many steps stopped with the number, in a run with so much of
/// the heap; none if the model does not stop so.
pub fn stop_cause(text: &[u8], room: Room, steps: u32, number: u32) -> Option<Cause> {
    let script = Script::of(text)?;
    if number == number::OUT_OF_STEPS {
        return in_a_loop(&script, steps);
    }
    let (mut machine, trail) = Trail::of(&script, steps);
    if machine.steps != steps {
        return None;
    }
    // What was made before fits into the room, or the run had stopped there.
    machine.room = room;
    let stop = machine.step().err();
    let stop = stop.filter(|stop| stop.number() == number)?;
    let halt = machine.halt?;
    let walk = walk_history(&script, &machine, &trail, halt);
    let history = walk.unwrap_or_else(|| history(&script, &machine, &trail, halt));
    let names = script.names(machine.frame().block);
    let statement = machine.statement();
    let tested = formula(&script, &machine, halt.tested);
    let bytes = line(text, statement.line)?;
    let Some((at, tested)) = halt.atom.zip(tested) else {
        let said = walk_said(&machine, names, halt).or_else(|| full(&script, &machine, stop));
        let said = said.or_else(|| half_written(&names, &statement.action, halt));
        let said = said.or_else(|| followed(&names, &statement.action, halt.path, stop));
        let said = said.or_else(|| overflow(&names, &machine));
        let looping = matches!(statement.action, Action::Loop(_));
        let mark = field_range(bytes, 1..4).filter(|_| looping);
        let cause = said.map(|said| Cause::new(said).mark(mark).or_help(ring_help(halt)));
        let cause = cause.map(|cause| with_other(cause, &script, &machine, halt));
        return cause.map(|cause| history.into_iter().fold(cause, Cause::note));
    };
    let said = false_atom(&machine, &names, &tested, at, halt)?;
    let first = match halt.tested {
        Tested::Line => Some(at),
        Tested::Invariant => Some(at + 1),
        _ => None,
    };
    let mark = first.and_then(|at| field_range(bytes, 1 + 3 * at..4 + 3 * at));
    let cause = Cause::new(said).mark(mark).or_help(ring_help(halt));
    let cause = with_other(cause, &script, &machine, halt);
    Some(history.into_iter().fold(cause, Cause::note))
}

/// What led to the stop of a walk over a chain; none if no walk was stopped.
fn walk_history(
    script: &Script,
    machine: &Machine,
    trail: &Trail,
    halt: Halt,
) -> Option<Vec<String>> {
    let frame = machine.frame();
    let tested = formula(script, machine, halt.tested);
    let tested = tested.map(|tested| (tested.names, tested.values));
    let (names, values) = tested.unwrap_or((script.names(frame.block), frame.values));
    let walk = Walk::of(machine, names, &values, &[], halt)?;
    Some(walk.history(script, trail, halt).into_iter().collect())
}

/// What led to the stop: where values came from and permissions went.
fn history(script: &Script, machine: &Machine, trail: &Trail, halt: Halt) -> Vec<String> {
    let tested = formula(script, machine, halt.tested);
    let frame = machine.frame();
    let own = script.names(frame.block);
    let (names, values) = match &tested {
        Some(tested) => (tested.names, tested.values),
        None => (own, frame.values),
    };
    let inside = !matches!(halt.tested, Tested::Requires);
    let var = |var| trail.of_var(script, &own, var).filter(|_| inside);
    let mut found = Vec::new();
    match (halt.stop, halt.path) {
        (Stop::PermissionMissing, Some(path)) => {
            // Where one half is held, what is said of the other tells it.
            let none = halt.missing.is_none_or(|missing| missing.held == 0);
            let went = trail.of_permission(script, machine, &names, &values, path);
            found.extend(went.filter(|_| none));
            found.extend(same_card(&names, &values, path.var));
        }
        (Stop::NullFollowed, path) => {
            let receiver = match machine.statement().action {
                Action::Call(call) => Some(call.y),
                _ => None,
            };
            if let Some(null) = path.map(|path| path.var).or(receiver).filter(|_| inside) {
                found.extend(var(null));
                found.extend(trail.null_from(script, null));
            }
        }
        (Stop::FormulaFalse, _) => {
            let atom = halt.atom.zip(tested.as_ref());
            let atom = atom.and_then(|(at, tested)| tested.atoms.get(at));
            if let Some(Atom::Eq(left, right) | Atom::Ne(left, right)) = atom {
                for side in [*left, *right] {
                    let path = matches!(side, Expr::Path(_));
                    let told = trail.of_expr(script, machine, &names, &values, side);
                    found.extend(told.filter(|_| inside || path));
                }
            }
        }
        (Stop::Overflow, _) => {
            if let Action::Compute(compute) = machine.statement().action {
                found.extend(var(compute.y));
                found.extend(var(compute.z).filter(|_| compute.y != compute.z));
            }
            found.extend(open_loops(script, trail));
        }
        _ => {}
    }
    found
}

/// Whether the last step came back to the `loop` at which the machine stands.
fn arrival(script: &Script, machine: &Machine) -> String {
    let last = machine.steps.checked_sub(1);
    let last = last.map(|steps| &machine_at(script, steps).statement().action);
    let when = match last == Some(&Action::Again(machine.frame().next)) {
        true => "after a round",
        false => "before the first round",
    };
    format!(" of the invariant {when}")
}

/// So many rounds of a loop are told of.
const ROUNDS: u32 = 2;

/// Number 21: the loop that took the steps, and whether it ever ends. Of a longer
/// run its first steps are done again.
fn in_a_loop(script: &Script, steps: u32) -> Option<Cause> {
    let looked = steps.min(AGAIN);
    let (mut machine, mut trail) = Trail::of(script, looked);
    let open = trail.rounds.most();
    let open = open.filter(|open| machine.steps == looked && open.rounds >= ROUNDS)?;
    let statement = &script.program.statements[open.place];
    let Action::Loop(opened) = &statement.action else {
        return None;
    };
    let condition = script.names_at(open.place).atom(opened.condition);
    let after = match looked < steps {
        true => format!("after {looked} steps "),
        false => String::new(),
    };
    let said = format!(
        "{after}the loop of line {} has done {} rounds",
        statement.line, open.rounds
    );
    let loops = open_loops(script, &trail);
    let notes = [reads(script, opened), moves(script, open)];
    let loops = loops.into_iter().filter(|_| trail.rounds.all().len() > 1);
    let notes: Vec<String> = notes.into_iter().flatten().chain(loops).collect();
    let cause = match trail.rounds.for_ever(&mut machine, open) {
        Some(1) => Cause::new(format!(
            "{said}, and it never ends: a round changes nothing"
        ))
        .help(format!("let the body change what `{condition}` reads")),
        Some(rounds) => Cause::new(format!(
            "{said}, and it never ends: everything is as it was {rounds} rounds before"
        )),
        None => Cause::new(format!("{said}, and `{condition}` is not false yet")),
    };
    Some(notes.into_iter().fold(cause, Cause::note))
}

/// What a condition reads that no line of the body changes.
fn reads(script: &Script, opened: &model::names::Loop) -> Option<String> {
    let again = &script.program.statements[opened.again];
    let Action::Again(start) = again.action else {
        return None;
    };
    let names = script.names_at(start);
    let body = &script.program.statements[start + 1..opened.again];
    let (Atom::Eq(left, right) | Atom::Ne(left, right)) = opened.condition else {
        return None;
    };
    let calls = body
        .iter()
        .any(|line| matches!(line.action, Action::Call(_)));
    let changed = |side: Expr| {
        let var = |x| match side {
            Expr::Var(var) => var == x,
            Expr::Path(path) => path.var == x,
            _ => false,
        };
        body.iter().any(|line| match &line.action {
            Action::Let(x, _) | Action::New(x, _) => var(*x),
            Action::Compute(compute) => var(compute.x),
            Action::Call(call) => var(call.x),
            Action::Open(open) => var(open.y),
            Action::Set(path, _) => matches!(side, Expr::Path(read) if read.field == path.field),
            _ => false,
        }) || (calls && matches!(side, Expr::Path(_)))
    };
    let read = [left, right].into_iter();
    let read: Vec<Expr> = read
        .filter(|side| matches!(side, Expr::Var(_) | Expr::Path(_)))
        .collect();
    let fixed = !read.is_empty() && !read.iter().any(|&side| changed(side));
    let shown: Vec<String> = read.iter().map(|&side| names.expr(side)).collect();
    fixed.then(|| {
        let shown = crate::script::listed(&shown, "and");
        format!("no line of the body changes {shown}, which the condition reads")
    })
}

/// By how much the numbers that the condition of a loop reads moved in the last
/// round that was done.
fn moves(script: &Script, open: Open) -> Option<String> {
    let place = open.place;
    let Action::Loop(opened) = &script.program.statements[place].action else {
        return None;
    };
    let (Atom::Eq(left, right) | Atom::Ne(left, right)) = opened.condition else {
        return None;
    };
    let names = script.names_at(place);
    let (one, other) = (open.before, open.after);
    let moved = [left, right].into_iter().filter_map(|side| {
        let Expr::Var(var) = side else { return None };
        let int = names.kind(var) == Some(Type::Int);
        let (from, to) = (i64::from(one[var]), i64::from(other[var]));
        let name = names.var(var);
        int.then(|| match to - from {
            0 => format!("`{name}` stayed {to}"),
            by => format!("`{name}` went from {from} to {to}, by {by}"),
        })
    });
    let moved: Vec<String> = moved.collect();
    (!moved.is_empty()).then(|| format!("in its last round {}", moved.join(", ")))
}

/// Why an atom of a formula stopped the step.
fn false_atom(
    machine: &Machine,
    names: &Names,
    tested: &Formula,
    at: usize,
    halt: Halt,
) -> Option<String> {
    let atom = *tested.atoms.get(at)?;
    let shown = format!("`{}`{}", tested.names.atom(atom), tested.of);
    Some(match (halt.stop, atom) {
        (Stop::FormulaFalse, Atom::Eq(left, right) | Atom::Ne(left, right)) => {
            let sides = [left, right].into_iter();
            let sides: Vec<String> = sides
                .filter_map(|expr| side(machine, tested, expr))
                .collect();
            format!("{shown} is false: {}", sides.join(", "))
        }
        (_, Atom::Permission(Share::Chain, _)) => {
            let earlier = &tested.atoms[..at];
            let walk = Walk::of(machine, tested.names, &tested.values, earlier, halt)?;
            format!("{shown} {}", walk.said(halt, &names.title()))
        }
        (Stop::PermissionMissing, _) => {
            format!("{shown}: {} {}", names.title(), lack(halt.missing))
        }
        (Stop::NullFollowed, _) => {
            format!("{shown}: `{}` is null", tested.names.var(halt.path?.var))
        }
        _ => return None,
    })
}

fn ring_help(halt: Halt) -> Option<String> {
    halt.ring.map(|_| NO_RING.to_string())
}

/// The walk of an `open` or `shut`.
fn walk_said(machine: &Machine, names: Names, halt: Halt) -> Option<String> {
    let values = machine.frame().values;
    let walk = Walk::of(machine, names, &values, &[], halt)?;
    let taken = match machine.statement().action {
        Action::Open(open) => {
            let chain = Atom::Permission(Share::Chain, open.path);
            format!("`open` takes `{}`", names.atom(chain))
        }
        Action::Shut(path) => {
            let path = names.expr(Expr::Path(path));
            format!("`shut` takes the chain from `{path}`")
        }
        _ => return None,
    };
    Some(format!(
        "{taken}, which {}",
        walk.said(halt, &names.title())
    ))
}

/// What is full: the heap, or the frames and what they are of.
fn full(script: &Script, machine: &Machine, stop: Stop) -> Option<String> {
    match stop {
        Stop::HeapFull => {
            let Room { objects, fields } = machine.room;
            let made = format!(
                "the heap is full: {} objects with {} fields are made already",
                machine.objects.len(),
                machine.heap.len()
            );
            Some(match machine.room == Room::WHOLE {
                true => made,
                false => format!("{made}, and the share has {objects} with {fields}"),
            })
        }
        Stop::FramesFull => {
            let block = machine.frame().block;
            let same = machine.frames.iter().filter(|frame| frame.block == block);
            let (count, of) = (same.count(), script.names(block).title());
            Some(format!(
                "the frames are full: {} blocks are open already, {count} of them {of}",
                machine.frames.len()
            ))
        }
        _ => None,
    }
}

fn followed(names: &Names, action: &Action, path: Option<Path>, stop: Stop) -> Option<String> {
    let missing = stop == Stop::PermissionMissing;
    Some(match (path, action) {
        (Some(path), _) if missing => format!(
            "{} does not hold `{}`",
            names.title(),
            names.expr(Expr::Path(path))
        ),
        (Some(path), _) => {
            let followed = names.expr(Expr::Path(path));
            format!(
                "`{followed}` follows `{}`, which is null",
                names.var(path.var)
            )
        }
        (None, Action::Call(call)) if stop == Stop::NullFollowed => {
            format!("the receiver `{}` is null", names.var(call.y))
        }
        _ => return None,
    })
}

/// The two numbers of an `add` or `sub`, and what they would give.
fn overflow(names: &Names, machine: &Machine) -> Option<String> {
    let Action::Compute(compute) = machine.statement().action else {
        return None;
    };
    let values = machine.frame().values;
    let (one, other) = (i64::from(values[compute.y]), i64::from(values[compute.z]));
    let (y, z) = (names.var(compute.y), names.var(compute.z));
    let (word, value) = match compute.operator {
        Operator::Add => ("plus", one + other),
        Operator::Sub => ("less", one - other),
    };
    let (end, which) = match value < 0 {
        true => (i32::MIN, "least"),
        false => (i32::MAX, "most"),
    };
    Some(format!(
        "{one} (`{y}`) {word} {other} (`{z}`) is {value}, and {end} is the {which}"
    ))
}

/// The calls that are open after so many steps: a line for each frame, main's
/// first. None if only main is open.
pub fn open_calls(text: &[u8], steps: u32) -> Option<Vec<String>> {
    let script = Script::of(text).filter(|_| steps <= AGAIN)?;
    let machine = machine_at(&script, steps);
    let waiting = machine.frames.split_last()?.1;
    let rows = waiting.iter().map(|frame| {
        let at = script.program.statements[frame.next].line;
        let title = match script.program.blocks[frame.block].header {
            Some(header) => shown(header.name),
            None => "main".to_string(),
        };
        format!("{title}, line {at}: `{}`", quoted(text, at))
    });
    let rows: Vec<String> = rows.collect();
    (!rows.is_empty()).then_some(rows)
}
