//! What the checker knows is so: in the run of an accepted text, before each
//! step, the frame holds the halves of the listed permissions, those of one
//! location in sum and those of all locations of a chain, and every fact is true.

mod common;

use common::{example, text};
use model::checker::{check_observed, Permission, State, Term};
use model::machine::{location, Frame, Location, Machine, Step};
use model::names::{Action, Block, Path, Program, Type, Var, FIRST_LOCAL, PARAM, RESULT, THIS};
use model::text::Share;
use model::{check, read};
use std::collections::BTreeMap;

fn class_of<'a>(block: &Block<'a>, var: Var) -> Option<&'a [u8]> {
    let kind = match var {
        THIS => Type::Class(block.header?.class),
        PARAM => block.header?.param.kind,
        RESULT => block.header?.result,
        local => block.locals.get(local - FIRST_LOCAL)?.kind,
    };
    match kind {
        Type::Class(name) => Some(name),
        Type::Int => None,
    }
}

/// Where `x.f` is; none if x is null or its class has no such field.
fn place(machine: &Machine, frame: &Frame, var: Var, field: &[u8]) -> Option<Location> {
    let program = machine.program;
    let class = class_of(&program.blocks[frame.block], var)?;
    let fields = &program.classes[program.class(class)?].fields;
    let slot = fields.iter().position(|other| other.name == field)?;
    location(&machine.objects, &frame.values, Path { var, field, slot })
}

fn value(machine: &Machine, frame: &Frame, term: Term) -> Option<i32> {
    Some(match term {
        Term::Number(value) => value,
        Term::Null => 0,
        Term::Var(var) => frame.values[var],
        Term::Path(var, field) => machine.heap[place(machine, frame, var, field)?],
    })
}

/// The locations on the way from x by f to null; none if it is a ring.
fn chain(machine: &Machine, frame: &Frame, var: Var, field: &[u8]) -> Option<Vec<Location>> {
    let mut frame = *frame;
    let mut passed = Vec::new();
    while let Some(next) = place(machine, &frame, var, field) {
        if passed.contains(&next) {
            return None;
        }
        passed.push(next);
        frame.values[var] = machine.heap[next];
    }
    Some(passed)
}

/// The locations of a listed permission; none if it cannot be so.
fn locations(machine: &Machine, frame: &Frame, listed: &Permission) -> Option<Vec<Location>> {
    let (var, field) = (listed.var, listed.field);
    match listed.share {
        Share::Chain => chain(machine, frame, var, field),
        _ => place(machine, frame, var, field).map(|place| vec![place]),
    }
}

/// Does the state hold of the frame that runs?
fn holds(machine: &Machine, state: &State) -> bool {
    let frame = machine.frame();
    let mut listed: BTreeMap<Location, u8> = BTreeMap::new();
    for permission in &state.permissions {
        let Some(places) = locations(machine, frame, permission) else {
            return false;
        };
        for place in places {
            *listed.entry(place).or_insert(0) += permission.share.halves();
        }
    }
    let held = |(&place, &halves): (&Location, &u8)| frame.held.halves(place) >= halves;
    if !listed.iter().all(held) {
        return false;
    }
    state.facts.iter().all(|fact| {
        let left = value(machine, frame, fact.left);
        let right = value(machine, frame, fact.right);
        left.is_some() && right.is_some() && (left == right) == fact.equal
    })
}

/// The state before each statement; a `join` and a `loop` are reached by two
/// ways and left out.
fn states<'a>(program: &Program<'a>) -> Vec<Option<State<'a>>> {
    let mut states = vec![None; program.statements.len()];
    let observed = check_observed(program, &mut |place, state| {
        let action = &program.statements[place].action;
        if !matches!(action, Action::Join(_) | Action::Loop(_)) {
            states[place] = Some(state.clone());
        }
    });
    assert_eq!(observed, Ok(()));
    states
}

#[derive(Debug, Default)]
struct Counts {
    texts: usize,
    states: usize,
    permissions: usize,
    /// Those of them that are halves.
    halves: usize,
    /// Those of them that are chains.
    chains: usize,
    facts: usize,
}

/// The line of the first step before which the state does not hold.
fn first_wrong(text: &[u8], counts: &mut Counts) -> Option<u32> {
    let program = read(text).expect("an accepted text");
    let states = states(&program);
    let mut machine = Machine::new(&program);
    counts.texts += 1;
    while machine.steps < 500 {
        if let Some(state) = &states[machine.frame().next] {
            counts.states += 1;
            counts.permissions += state.permissions.len();
            let of = |share| {
                let held = state.permissions.iter();
                held.filter(|held| held.share == share).count()
            };
            counts.halves += of(Share::Read);
            counts.chains += of(Share::Chain);
            counts.facts += state.facts.len();
            if !holds(&machine, state) {
                return Some(machine.statement().line);
            }
        }
        if machine.step() != Ok(Step::On) {
            break;
        }
    }
    None
}

#[test]
fn a_false_state_is_seen() {
    let text = text(&example());
    let program = read(&text).unwrap();
    let states = states(&program);
    let mut machine = Machine::new(&program);
    machine.step().unwrap();
    let state = states[machine.frame().next].clone().unwrap();
    assert!(holds(&machine, &state));
    let mut wrong = state.clone();
    wrong.facts[0].equal = !wrong.facts[0].equal;
    assert!(!holds(&machine, &wrong));
    let mut wrong = state.clone();
    wrong.permissions.push(wrong.permissions[0]);
    assert!(!holds(&machine, &wrong));
    // Two halves are as much as a whole, three are more.
    let mut halves = state.clone();
    halves.permissions[0].share = Share::Read;
    halves.permissions.push(halves.permissions[0]);
    assert!(holds(&machine, &halves));
    halves.permissions.push(halves.permissions[0]);
    assert!(!holds(&machine, &halves));
    machine.step().unwrap();
    machine.step().unwrap();
    assert!(!holds(&machine, &state), "inside the call");
}

#[test]
fn what_the_checker_knows_is_so() {
    let mut counts = Counts::default();
    for seed in 0..5_000 {
        let text = generator::text(0x4000_0000 + seed);
        if check(&text).0 == 0 {
            let wrong = first_wrong(&text, &mut counts);
            assert_eq!(wrong, None, "{}", String::from_utf8_lossy(&text));
        }
    }
    println!("{counts:?}");
    assert!(counts.texts > 1_000 && counts.states > 50_000);
    assert!(counts.permissions > 100_000 && counts.facts > 100_000);
    assert!(counts.halves > 5_000 && counts.chains > 5_000);
}
