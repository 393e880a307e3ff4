//! A trace: each step of a run with its line and what it changed.

use crate::cause::value_shown;
use crate::json::Json;
use crate::moves::{holders, Holders, Moves};
use crate::objects;
use crate::report::Report;
use crate::rounds::Rounds;
use crate::script::{quoted, shown, Script};
use model::machine::{Machine, Step, Values};
use model::names::Action;
use std::cmp::Ordering;

/// At most that many steps stand in one JSON object.
pub const JSON_ROWS: usize = 100_000;

/// One step of a run.
#[derive(Clone, Debug, PartialEq, Eq)]
pub struct Row {
    /// Its number, from 1.
    pub step: u32,
    /// The line of the statement that it does.
    pub line: u32,
    /// How many calls are open.
    pub depth: usize,
    /// The line, its tabs as blanks.
    pub text: String,
    /// What it changed, in words.
    pub changes: Vec<String>,
}

/// The cards that a step made, the fields that it changed, and those that went
/// to another holder.
fn card_changes(script: &Script, before: &Before, machine: &Machine) -> Vec<String> {
    let mut said = Vec::new();
    let moves = Moves::of(script, &before.holders, machine);
    for (at, object) in machine.objects.iter().enumerate() {
        let class = &script.program.classes[object.class];
        if at >= before.objects {
            said.push(format!(
                "object {} is made, a {}",
                at + 1,
                shown(class.name)
            ));
            continue;
        }
        for (slot, field) in class.fields.iter().enumerate() {
            let place = object.first + slot;
            let name = format!("object {}.{}", at + 1, shown(field.name));
            let new = machine.heap[place];
            if new != before.heap[place] {
                said.push(format!("{name} = {}", value_shown(Some(field.kind), new)));
            }
            said.extend(moves.said(at, slot));
        }
    }
    said
}

/// What a step did: cards, fields, and values of the block that runs after it.
fn changes(script: &Script, before: &Before, machine: &Machine) -> Vec<String> {
    let mut said = card_changes(script, before, machine);
    let frame = machine.frame();
    let names = script.names(frame.block);
    let old = match machine.frames.len().cmp(&before.depth) {
        Ordering::Equal => before.values,
        Ordering::Less => before.caller.unwrap_or_default(),
        Ordering::Greater => Values::default(),
    };
    for (var, (&old, &new)) in old.iter().zip(&frame.values).enumerate() {
        if let Some(kind) = names.kind(var).filter(|_| old != new) {
            let value = value_shown(Some(kind), new);
            said.push(format!("{} = {value}", names.var(var)));
        }
    }
    said
}

/// What is compared after a step.
struct Before {
    objects: usize,
    heap: Vec<i32>,
    holders: Vec<Holders>,
    depth: usize,
    values: Values,
    caller: Option<Values>,
}

impl Before {
    fn of(machine: &Machine) -> Before {
        let depth = machine.frames.len();
        Before {
            objects: machine.objects.len(),
            heap: machine.heap.clone(),
            holders: holders(machine),
            depth,
            values: machine.frame().values,
            caller: depth.checked_sub(2).map(|at| machine.frames[at].values),
        }
    }
}

/// What a step at a `loop` leads to, after so many rounds.
fn turn(entered: bool, rounds: u32) -> String {
    match (entered, rounds) {
        (true, rounds) => format!("round {}", rounds + 1),
        (_, 1) => "left after 1 round".to_string(),
        (_, rounds) => format!("left after {rounds} rounds"),
    }
}

/// One step of the machine; none at the end.
fn row(script: &Script, machine: &mut Machine, rounds: &mut Rounds) -> Option<Row> {
    let before = Before::of(machine);
    let (statement, place) = (machine.statement(), machine.frame().next);
    let before_rounds = rounds.done(machine);
    let done = rounds.step(machine);
    done.ok().map(|step| Row {
        step: machine.steps,
        line: statement.line,
        depth: before.depth - 1,
        text: quoted(script.text, statement.line),
        changes: match (step, &statement.action) {
            (Step::Done, _) => Vec::new(),
            (_, Action::Loop(_)) => vec![turn(machine.frame().next == place + 1, before_rounds)],
            _ => changes(script, &before, machine),
        },
    })
}

/// A step as people read it.
pub fn shown_row(row: &Row) -> String {
    let text = format!("{}{}", "  ".repeat(row.depth), row.text);
    let changes = row.changes.join(", ");
    let printed = format!("{:>6} {:>4}  {text:<32}  {changes}", row.step, row.line);
    format!("{}\n", printed.trim_end())
}

/// A step as JSON.
pub fn json_row(row: &Row) -> Json {
    Json::object()
        .with("step", row.step)
        .with("line", row.line)
        .with("depth", row.depth)
        .with("text", row.text.as_str())
        .with("changes", row.changes.clone())
}

/// Each of so many steps, until the first that is not wanted.
pub fn each(script: &Script, steps: u32, mut wanted: impl FnMut(&Row) -> bool) {
    let mut machine = Machine::new(&script.program);
    let mut rounds = Rounds::default();
    while machine.steps < steps {
        match row(script, &mut machine, &mut rounds) {
            Some(row) if wanted(&row) => {}
            _ => return,
        }
    }
}

/// The steps of a run as JSON, at most [`JSON_ROWS`]; none if there was no run.
fn rows(report: &Report) -> Vec<Json> {
    let mut rows = Vec::new();
    if let (Some(script), Some(ran)) = (Script::of(report.text), &report.ran) {
        each(&script, ran.outcome.steps(), |row| {
            rows.push(json_row(row));
            rows.len() < JSON_ROWS
        });
    }
    rows
}

/// What a run gives, with its steps, as JSON.
pub fn json(report: &Report) -> Json {
    objects::report(report).with("trace", Json::List(rows(report)))
}

/// Each step of a run as a line of JSON, at most [`JSON_ROWS`]; what the run gives
/// is the last line.
pub fn json_lines(report: &Report) -> String {
    let last = objects::report(report);
    let lines = rows(report).into_iter().chain([last]);
    lines.map(|line| format!("{line}\n")).collect()
}
