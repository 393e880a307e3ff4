//! W9.7 and W9.8: the machine's walk, `open` and `shut`.

use crate::common::{ran, script};
use crate::main_with;
use model::machine::{Machine, Step};
use model::names::FIRST_LOCAL;
use model::read;

/// The stop of a main by its statements, the first on line 14.
fn stops(cases: &[(&str, (u32, u32, u32))]) {
    for &(statements, stop) in cases {
        let text = script(&main_with(statements));
        assert_eq!(ran(&text, 1_000), stop, "{statements}");
    }
}

/// Three cards, s before t before u, on the lines 14 to 18.
const THREE: &str = "new s S\nnew t S\nnew u S\nset s p t\nset t p u\n";

/// The stops of what follows the three cards, from line 19 on; the numbers are
/// those of lines and steps after it.
fn after_three(cases: &[(&str, (u32, u32, u32))]) {
    for &(statements, (number, line, steps)) in cases {
        let source = format!("{THREE}{statements}");
        stops(&[(&source, (number, 18 + line, 5 + steps))]);
    }
}

#[test]
fn the_walk_reaches_null() {
    stops(&[
        ("assert chain s p", (0, 15, 2)),
        ("new s S\nassert chain s p", (0, 16, 3)),
        // Null holds and takes nothing: no 25.
        ("assert chain s p chain s p chain s q chain k p", (0, 15, 2)),
    ]);
    after_three(&[
        ("assert chain s p", (0, 2, 2)),
        ("assert chain t p", (0, 2, 2)),
        // By q it ends at once, and takes other locations.
        ("assert chain s q chain s p chain t q", (0, 2, 2)),
    ]);
}

#[test]
fn a_ring_is_26() {
    after_three(&[
        ("set u p s\nassert chain s p", (26, 2, 1)),
        ("set u p t\nassert chain s p", (26, 2, 1)),
        ("set u p u\nassert chain s p", (26, 2, 1)),
        ("set u p u\nassert chain u p", (26, 2, 1)),
        ("set s p s\nassert chain s p", (26, 2, 1)),
        // Another field is another walk.
        ("set u q s\nassert chain s p", (0, 3, 3)),
        // A ring that the walk does not come to.
        ("set s q s\nassert chain t q", (0, 3, 3)),
    ]);
}

#[test]
fn what_is_not_held_whole_is_24() {
    after_three(&[
        ("release acc s p\nassert chain s p", (24, 2, 1)),
        ("release acc u p\nassert chain s p", (24, 2, 1)),
        ("release read t p\nassert chain s p", (24, 2, 1)),
        ("release read s p\nassert chain t p", (0, 3, 3)),
        ("release acc s q acc s n\nassert chain s p", (0, 3, 3)),
        // In the order of the walk: what comes first.
        ("set u p s\nrelease acc u p\nassert chain s p", (24, 3, 2)),
        ("set u p t\nrelease acc s p\nassert chain s p", (24, 3, 2)),
        ("set t p t\nrelease acc u p\nassert chain s p", (26, 3, 2)),
        // A location that was passed is 26 before it is looked at again.
        ("set u p s\nassert chain s p", (26, 2, 1)),
    ]);
}

#[test]
fn what_an_earlier_atom_took_is_24() {
    after_three(&[
        ("assert acc u p chain s p", (24, 1, 0)),
        ("assert read u p chain s p", (24, 1, 0)),
        ("assert chain u p chain s p", (24, 1, 0)),
        ("assert chain s p chain u p", (24, 1, 0)),
        ("assert chain s p acc t p", (24, 1, 0)),
        ("assert chain s p read s p", (24, 1, 0)),
        ("assert chain t p acc s p", (0, 2, 2)),
        ("assert acc s p chain t p", (0, 2, 2)),
        // Taken comes before the ring that is behind it.
        ("set u p u\nassert acc t p chain s p", (24, 2, 1)),
        // Reading is over the whole A, taken or not.
        ("assert chain s p eq s.p t", (0, 2, 2)),
        ("assert chain s p eq s.p u", (26, 1, 0)),
        // Two chains that meet.
        (
            "set s q u\nset t q u\nassert chain s q chain t q",
            (24, 3, 2),
        ),
    ]);
}

/// "If it reaches null, all that it passed is taken whole."
#[test]
fn the_footprint_is_all_that_is_passed() {
    after_three(&[
        ("release chain t p\nassert acc s p", (0, 3, 3)),
        ("release chain t p\nassert read t p", (24, 2, 1)),
        ("release chain t p\nassert read u p", (24, 2, 1)),
        (
            "release chain s p\nset s q s\nassert acc s q acc s n",
            (0, 4, 4),
        ),
        ("release chain s p\nassert chain s p", (24, 2, 1)),
    ]);
}

/// The halves of each location `.p` that main and the called method hold, at the
/// first step in the method.
#[test]
fn a_chain_over_a_call() {
    let source = "class S\nfield S p\nmethod int m S w\nrequires chain this p\nensures chain w p\nassert\n\
                  end\nmain\nvar S s\nvar S t\nvar S u\nvar int a\nnew s S\nnew t S\nnew u S\nset s p t\n\
                  call a s m t\nassert acc u p\nassert acc t p\nassert acc s p\nend";
    let text = script(source);
    let program = read(&text).expect("a program");
    let mut machine = Machine::new(&program);
    while machine.frames.len() == 1 {
        assert_eq!(machine.step(), Ok(Step::On));
    }
    let held = |frame: usize| [0, 1, 2].map(|at| machine.frames[frame].held.halves(at));
    assert_eq!((held(0), held(1)), ([0, 0, 2], [2, 2, 0]));
    // Of s the chain from t comes back: the rest is lost.
    assert_eq!(ran(&text, 1_000), (24, 20, 9));
}

#[test]
fn open_on_the_machine() {
    stops(&[
        // x null first, whatever is held.
        ("open t s p", (25, 14, 0)),
        ("new s S\nopen t s p", (0, 16, 3)),
    ]);
    after_three(&[
        ("open u s p", (0, 2, 2)),
        ("release acc s p\nopen u s p", (24, 2, 1)),
        ("release read s p\nopen u s p", (24, 2, 1)),
        ("release acc u p\nopen t s p", (24, 2, 1)),
        ("set u p s\nopen t s p", (26, 2, 1)),
        // A stays as it is.
        (
            "open u s p\nset s p s\nset t p t\nassert acc s p acc t p",
            (0, 5, 5),
        ),
        ("open t s p\nopen u s p", (0, 3, 3)),
    ]);
    // y gets the value of `x.f`.
    let text = script(&main_with(&format!("{THREE}open u s p")));
    let program = read(&text).expect("a program");
    let mut machine = Machine::new(&program);
    while machine.step() == Ok(Step::On) {}
    assert_eq!(machine.frame().values[FIRST_LOCAL..][..3], [1, 2, 2]);
}

#[test]
fn shut_on_the_machine() {
    stops(&[("shut s p", (25, 14, 0)), ("new s S\nshut s p", (0, 16, 3))]);
    after_three(&[
        ("shut s p\nset s p s\nset t p s\nset u p s", (0, 5, 5)),
        // No half of `x.f`: before the walk.
        ("set u p u\nrelease acc s p\nshut s p", (24, 3, 2)),
        // A half: the walk comes first, then both halves.
        ("set u p u\nrelease read s p\nshut s p", (26, 3, 2)),
        ("release read s p\nshut s p", (24, 2, 1)),
        ("release acc u p\nshut s p", (24, 2, 1)),
        ("set u p s\nshut s p", (26, 2, 1)),
        ("set s p s\nshut s p", (26, 2, 1)),
        // Not the chain of x, but that of its value.
        ("shut u p", (0, 2, 2)),
    ]);
}

/// The walk takes as many steps as the chain has cards, not their square.
#[test]
fn long_chains() {
    let source = "class S\nfield S p\nmain\nvar S s\nvar S t\nvar int i\nvar int one\nlet one 1\nlet s null\n\
                  loop ne i 250 chain s p eq one 1\nnew t S\nset t p s\nshut t p\nlet s t\nadd i i one\n\
                  again\nassert chain s p\nset s p s\nassert chain s p\nend";
    let text = script(source);
    assert_eq!(model::check(&text), (12, 18));
    assert_eq!(ran(&text, 5_000), (26, 19, 1_755));
    let text = script(&source.replace("set s p s\n", ""));
    assert_eq!(model::check(&text), (0, 0));
    assert_eq!(ran(&text, 5_000).0, 0);
}
