//! W8.3, W8.5 and W8.6: what a half shows, what is left of a whole, and way (d).

use crate::common::checks;
use crate::{listed, listed_before, mains, method, methods};
use model::names::{FIRST_LOCAL, PARAM, THIS};
use model::text::Share::{Acc, Read};

#[test]
fn one_acc_shows_two_reads() {
    mains(&[
        ("new s S\nassert read s n", 0, 0),
        ("new s S\nassert read s n read s n", 0, 0),
        ("new s S\nassert read s n read s n read s n", 12, 10),
        ("new s S\nrelease read s n read s n read s n", 12, 10),
        ("new s S\nlet t s\nassert read s n read t n", 0, 0),
        (
            "new s S\nlet t s\nassert read s n read t n read s n",
            12,
            11,
        ),
        ("assert read s n", 12, 9),
        ("new s S\nassert read t n", 12, 10),
        ("new s S\nassert read s n read s prev acc s n", 12, 10),
        ("new s S\nassert read s n acc s prev read s n", 0, 0),
    ]);
}

#[test]
fn acc_is_shown_by_an_untouched_acc_alone() {
    mains(&[
        ("new s S\nassert read s n acc s n", 12, 10),
        ("new s S\nassert acc s n read s n", 12, 10),
        ("new s S\nassert acc s n", 0, 0),
        ("new s S\nrelease read s n\nassert acc s n", 12, 11),
        ("new s S\nrelease read s n\nset s n a", 12, 11),
        ("new s S\nrelease read s n\nassert read s n", 0, 0),
    ]);
    methods(&[
        ("read this n read w n eq this w", "assert acc this n", 12, 9),
        // `set` goes by the first acc, past a read.
        (
            "read this n acc w n eq this w",
            "set this n i\nassert eq this.n i",
            13,
            10,
        ),
        ("read this n acc w n eq this w", "set this n i", 0, 0),
        ("read this n eq this w", "set w n i", 12, 9),
    ]);
    let two = method("read this n read w n eq this w", "acc this n", "assert");
    checks(&[(&two, 12, 10)]);
}

/// "taken from an `acc` it leaves a `read` of that path with its facts."
#[test]
fn a_half_is_left_in_its_place() {
    let source = crate::common::main_with("new s S\nrelease read s prev\nassert eq s.prev null");
    checks(&[(&source, 0, 0)]);
    let s = FIRST_LOCAL;
    let whole = [listed(Acc, s, "prev"), listed(Acc, s, "n")];
    assert_eq!(listed_before(&source, 10), whole);
    let half = [listed(Read, s, "prev"), listed(Acc, s, "n")];
    assert_eq!(listed_before(&source, 11), half);
    mains(&[
        ("new s S\nrelease read s n\nassert read s n eq s.n 0", 0, 0),
        ("new s S\nrelease read s n\nlet a s.n\nassert eq a 0", 0, 0),
        (
            "new s S\nrelease read s n\nrelease read s n\nassert eq s.n 0",
            11,
            12,
        ),
        // A fact through the path stays when its last half goes.
        (
            "new s S\nset s n a\nlet b s.n\nrelease read s n\nassert eq s.n b\nrelease read s n\n\
             assert eq a b",
            0,
            0,
        ),
        // `eq` and `ne` read the state as it was, whatever the formula took.
        ("new s S\nrelease read s n read s n eq s.n 0", 0, 0),
        ("new s S\nrelease acc s n ne s null eq s.n 0", 0, 0),
    ]);
}

/// A name that is still listed keeps its facts (W3.8).
#[test]
fn of_two_entries_of_one_name_one_goes() {
    let held = "acc this n eq this.n 3 read this n";
    let source = method(held, "", "release acc this n\nassert eq this.n 3");
    checks(&[(&source, 0, 0)]);
    assert_eq!(listed_before(&source, 10), [listed(Read, THIS, "n")]);
    let source = method(held, "", "release read this n\nassert eq this.n 3");
    checks(&[(&source, 0, 0)]);
    let halves = [listed(Read, THIS, "n"), listed(Read, THIS, "n")];
    assert_eq!(listed_before(&source, 10), halves);
    let source = method(
        held,
        "",
        "release read this n read this n\nassert eq this.n 3",
    );
    checks(&[(&source, 0, 0)]);
    assert_eq!(listed_before(&source, 10), [listed(Read, THIS, "n")]);
}

#[test]
fn read_takes_the_first_that_is_listed() {
    let body = "release read this n\nassert acc this n";
    methods(&[
        ("read w n acc this n eq this w", body, 0, 0),
        ("acc w n read this n eq this w", body, 12, 10),
        // A half that an acc left comes before a later entry.
        (
            "acc this n read w n eq this w",
            "release read w n read w n\nassert read this n",
            0,
            0,
        ),
    ]);
    let halves = "acc this n read w n eq this w";
    let source = method(halves, "", "release read w n read w n\nassert");
    assert_eq!(listed_before(&source, 10), [listed(Read, PARAM, "n")]);
}

/// A path resolves to the first listed, be it a half.
#[test]
fn a_half_is_a_listed_path() {
    methods(&[
        ("read this n", "let i this.n", 0, 0),
        (
            "read this n eq this.n 3 acc w n eq this w",
            "assert eq w.n 3",
            0,
            0,
        ),
        // (c) by a half.
        ("read this n", "assert ne this null", 0, 0),
        ("read this n eq w null", "assert ne this w", 0, 0),
        // A half is a successor: i is assigned, and this.n is left of its value.
        (
            "read this n eq this.n 3 read this prev",
            "let i this.n\nlet x this.prev\nrelease read this prev\nassert eq i 3 eq this.n i",
            0,
            0,
        ),
    ]);
    // What is dropped gives way to the half, in the list's order before null.
    let body =
        "let x this.prev\nset w prev x\nlet x w\nrelease acc w prev\nassert eq this.prev null";
    methods(&[("read this prev eq this.prev null acc w prev", body, 0, 0)]);
}

#[test]
fn way_d_needs_an_acc_among_the_two() {
    methods(&[
        ("read this n read w n", "assert ne this w", 13, 9),
        ("acc this n read w n", "assert ne this w ne w this", 0, 0),
        ("read this n acc w n", "assert ne this w ne w this", 0, 0),
        ("acc this n acc w n", "assert ne this w", 0, 0),
        ("acc this n read w prev", "assert ne this w", 13, 9),
        // Of the state before the formula, whatever it took by then.
        ("acc this n read w n", "assert read this n ne this w", 0, 0),
        ("acc this n read w n", "release acc this n ne this w", 0, 0),
        (
            "acc this n read w n",
            "release read this n\nassert ne this w",
            13,
            10,
        ),
        // Two entries of one name.
        ("read this n read this n", "assert ne this this", 13, 9),
        ("acc this n read this n", "assert ne this this", 0, 0),
        ("read this n read w n eq this w", "assert ne this w", 13, 9),
    ]);
}

/// In requires of a call, and in ensures at `end`, `return`, `join` and `again`.
#[test]
fn halves_are_shown_wherever_a_formula_is() {
    let held = |ensures: &str, body: &str| method("read this n", ensures, body);
    checks(&[
        (&held("read this n", "let i this.n"), 0, 0),
        (&held("acc this n", "let i this.n"), 12, 10),
        (&held("read this n", "return i"), 0, 0),
        (&held("acc this n", "return i"), 12, 9),
        (&held("", "if eq i 0\nelse\njoin read this n"), 0, 0),
        (&held("", "if eq i 0\nelse\njoin acc this n"), 12, 11),
        (&held("", "loop ne i i read this n\nagain"), 0, 0),
        (&held("", "loop ne i i acc this n\nagain"), 12, 9),
        (
            &held("", "loop ne i i read this n\nrelease read this n\nagain"),
            12,
            11,
        ),
        (&held("", "call i this m w\nassert read this n"), 12, 10),
        (&held("read this n", "call i this m w"), 0, 0),
    ]);
    let known = "read this n ne this null";
    methods(&[(known, "release read this n\ncall i this m w", 12, 10)]);
}
