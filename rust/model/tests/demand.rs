//! Demand 3, over the generator's texts: accepted texts stop with 0, 21, 22, 23
//! or 27 alone, and during a call the fields of older objects that are not
//! handed over whole keep their values. The second holds for every text that
//! runs.

mod common;
#[path = "demand/walked.rs"]
mod walked;

use common::{example, script, text};
use generator::{self as gen, rng::Rng};
use model::machine::{run, Location, Machine, Step};
use model::names::{Action, Atom, Program};
use model::text::Share;
use model::{check, read, Judged};
use std::collections::BTreeMap;
use walked::{footprint, look, walk, Handed, OpenCall, Seen};

#[test]
fn the_walk_sees_a_change_that_is_not_handed_over() {
    let text = text(&example());
    let program = read(&text).unwrap();
    let seen = walk(&program, 1_000, true);
    assert_eq!((seen.calls, seen.ended, seen.violation), (1, 1, None));
    assert!(seen.changed > 0);
    let seen = walk(&program, 1_000, false);
    assert_eq!(seen.violation, Some((1, 7)));
}

#[test]
fn the_walk_goes_on_up_to_the_last_state() {
    // The run stops inside the call; the change before it is seen.
    let source = "class S\nfield int n\nmethod int m int w\nrequires acc this n\nensures\n\
                  set this n w\nassert eq w 3\nend\nmain\nvar S s\nvar int a\nvar int b\n\
                  new s S\nlet b 5\ncall a s m b\nend";
    let text = script(source);
    let program = read(&text).unwrap();
    let seen = walk(&program, 1_000, false);
    assert_eq!((seen.calls, seen.ended), (1, 0));
    assert_eq!(seen.violation, Some((0, 6)));
    assert_eq!(walk(&program, 1_000, true).violation, None);
}

/// The fields of a chain that is handed over may change, and no others: in a walk
/// over the first two of three cards the second's `prev` may, not the third's.
#[test]
fn the_cards_of_a_chain_are_handed_over() {
    let source = "class S\nfield S p\nfield int n\nmethod int m S w\nrequires chain this p ne this null\n\
                  ensures chain this p\nvar S x\nvar S y\nopen x this p\nif ne x null\nopen y x p\n\
                  let y null\nset x p y\nshut x p\nelse\nlet x null\njoin acc this p eq this.p x chain x p\n\
                  shut this p\nend\nmain\nvar S s\nvar S t\nvar S u\nvar int a\nnew u S\nshut u p\nnew t S\n\
                  set t p u\nshut t p\nnew s S\nset s p t\nshut s p\nnew u S\ncall a s m u\nend";
    let text = script(source);
    assert_eq!(check(&text), (0, 0));
    let program = read(&text).unwrap();
    let seen = walk(&program, 1_000, true);
    assert_eq!((seen.calls, seen.ended, seen.violation), (1, 1, None));
    assert!(seen.changed_by_chains > 0);
    // `t.p`, the third card made being s: its place is 2, and it is set at line 13.
    assert_eq!(walk(&program, 1_000, false).violation, Some((2, 13)));
    let mut machine = Machine::new(&program);
    while !matches!(machine.statement().action, Action::Call(_)) {
        machine.step().unwrap();
    }
    let Action::Call(call) = machine.statement().action else {
        unreachable!("the line of the call");
    };
    // The links of s, t and the first u; no other field, and not the new card's.
    let handed: Vec<Location> = footprint(&machine, call).into_keys().collect();
    assert_eq!(handed, [0, 2, 4]);
}

/// A field handed over by two `read` may change; one of which the caller keeps a
/// half may not, and a machine that let it would be seen.
#[test]
fn two_halves_are_handed_over_whole() {
    let with = |requires: &str| {
        script(&format!(
            "class S\nfield int n\nmethod int m S w\nrequires {requires}\nensures\nvar int b\n\
             let b 5\nset this n b\nend\nmain\nvar S s\nvar int a\nnew s S\ncall a s m s\nend"
        ))
    };
    for requires in ["read this n read this n", "read this n read w n"] {
        let text = with(requires);
        let program = read(&text).unwrap();
        let seen = walk(&program, 1_000, true);
        assert_eq!((seen.ended, seen.violation), (1, None), "{requires}");
        assert!(seen.changed_by_reads > 0 && seen.shared == 0, "{requires}");
        assert_eq!(walk(&program, 1_000, false).violation, Some((0, 8)));
    }
    let text = with("read this n");
    let program = read(&text).unwrap();
    let seen = walk(&program, 1_000, true);
    assert_eq!((seen.calls, seen.shared, seen.ended), (1, 1, 0));
    // What the walk says of a change that the machine does not do.
    let mut machine = Machine::new(&program);
    (0..2).for_each(|_| assert_eq!(machine.step(), Ok(Step::On)));
    let open = OpenCall {
        frames: 1,
        heap: machine.heap.clone(),
        handed: Handed::from([(0, vec![Share::Read])]),
    };
    machine.heap[0] = 5;
    let mut seen = Seen::default();
    look(&machine, &[open], 8, &mut seen);
    assert_eq!(seen.violation, Some((0, 8)));
}

#[test]
fn accepted_texts_stop_with_0_21_22_23_or_27() {
    let mut numbers = BTreeMap::new();
    let (mut texts, mut with_chains) = (0, 0);
    for seed in 0..5_000 {
        let text = gen::text(0x1000_0000 + seed);
        let judged = Judged::new(&text);
        let Ok(program) = judged.accepted() else {
            continue;
        };
        texts += 1;
        with_chains += usize::from(has_chain(program));
        let whole = run(program, 5_000);
        let mut rng = Rng::new(seed);
        let few = 0..whole.steps.min(40);
        let some = (0..5).map(|_| rng.below(whole.steps as usize + 2) as u32);
        for allowed in few.chain(some).chain([whole.steps, whole.steps + 1, 5_000]) {
            let run = run(program, allowed);
            *numbers.entry(run.number).or_insert(0) += 1;
            assert!([0, 21, 22, 23, 27].contains(&run.number), "seed {seed}");
            // 21 comes exactly where the allowed steps are taken.
            let out = run.number == 21;
            let taken = allowed == run.steps && run.number != 0;
            assert_eq!(out, taken, "seed {seed}");
            assert!(out || run == whole, "seed {seed}");
        }
    }
    println!("{texts} accepted texts, {with_chains} with chains: {numbers:?}");
    assert!(texts > 1_500 && with_chains > 300);
    let numbers: Vec<u32> = numbers.into_keys().collect();
    assert_eq!(numbers, [0, 21, 22, 23, 27]);
}

/// Does a line of the program ask for a chain, open or shut one?
fn has_chain(program: &Program) -> bool {
    let chain = |formula: &[Atom]| {
        let is = |atom: &Atom| matches!(atom, Atom::Permission(Share::Chain, _));
        formula.iter().any(is)
    };
    let lines = program.statements.iter();
    let contracts = program.blocks.iter();
    let contracts = contracts.flat_map(|block| [&block.requires[..], &block.ensures[..]]);
    let formulas = lines.clone().filter_map(|line| line.action.formula());
    contracts.chain(formulas).any(chain)
        || lines
            .into_iter()
            .any(|line| matches!(line.action, Action::Open(_) | Action::Shut(_)))
}

/// Adds what the walk of one text has seen to what the others have.
fn walk_one(text: &[u8], program: &Program, all: &mut Seen) {
    let seen = walk(program, 600, true);
    assert_eq!(seen.violation, None, "{}", String::from_utf8_lossy(text));
    all.calls += seen.calls;
    all.ended += seen.ended;
    all.changed += seen.changed;
    all.changed_by_reads += seen.changed_by_reads;
    all.changed_by_chains += seen.changed_by_chains;
    all.shared += seen.shared;
    all.deepest = all.deepest.max(seen.deepest);
}

#[test]
fn calls_leave_what_is_not_handed_over_whole() {
    let (mut accepted, mut refused) = (Seen::default(), Seen::default());
    for seed in 0..10_000 {
        let text = gen::text(0x2000_0000 + seed);
        let Ok(program) = read(&text) else { continue };
        match check(&text).0 {
            0 => walk_one(&text, &program, &mut accepted),
            _ => walk_one(&text, &program, &mut refused),
        }
    }
    println!("accepted: {accepted:?}\nrefused: {refused:?}");
    assert!(accepted.calls > 20_000 && accepted.ended > 10_000);
    assert!(accepted.changed > 10_000 && accepted.deepest == 64);
    assert!(accepted.shared > 2_000 && accepted.changed_by_reads > 200);
    assert!(accepted.changed_by_chains > 200);
    assert!(refused.calls > 2_000 && refused.ended > 1_000);
    assert!(refused.changed > 500);
}
