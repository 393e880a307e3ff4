//! W9.4: the checker's rule for `open`, and `open` before `shut`.

use crate::common::checks;
use crate::{before, listed, listed_before, method, methods};
use model::checker::Term;
use model::names::{FIRST_LOCAL, PARAM, THIS};
use model::text::Share::{Acc, Chain};

const X: usize = FIRST_LOCAL;
const Y: usize = FIRST_LOCAL + 1;
const CARD: &str = "chain this p ne this null";

/// "x ≠ null shown (13); `chain x f` shown (12)", in this order.
#[test]
fn what_open_takes() {
    methods(&[
        (CARD, "open x this p", 0, 0),
        ("chain this p", "open x this p", 13, 15),
        ("ne this null", "open x this p", 12, 15),
        ("", "open x this p", 13, 15),
        ("chain this q ne this null", "open x this p", 12, 15),
        ("acc this p", "open x this p", 12, 15),
        (
            "chain this p eq this w ne w null",
            "open x this p\nassert acc w p",
            0,
            0,
        ),
        (CARD, "open x this p\nassert chain this p", 12, 16),
        (CARD, "open x this p\nopen y this p", 12, 16),
        (CARD, "open x this p\nopen y x p", 13, 16),
    ]);
}

/// "`x.f` listed as a new `acc` at the end ...; the fact `x.f` = y ...; `chain y f`
/// listed".
#[test]
fn what_open_gives() {
    methods(&[
        (CARD, "open x this p\nassert acc this p", 0, 0),
        (CARD, "open x this p\nassert eq this.p x", 0, 0),
        (CARD, "open x this p\nassert chain x p", 0, 0),
        (CARD, "open x this p\nassert chain this p", 12, 16),
        (CARD, "open x this p\nassert acc x p", 12, 16),
        (CARD, "open x this p\nassert ne x null", 13, 16),
        (CARD, "open x this p\nset this p w\nassert chain x p", 0, 0),
        (
            CARD,
            "open x this p\nif ne x null\nopen y x p\nassert eq x.p y ne this x chain y p\nelse\njoin",
            0,
            0,
        ),
    ]);
    let source = method(CARD, "", "open x this p\nassert");
    let expected = [listed(Acc, THIS, "p"), listed(Chain, X, "p")];
    assert_eq!(listed_before(&source, 16), expected);
}

/// "whatever is listed": a further entry, and "the fact `x.f` = y with this very
/// name (not resolved)".
#[test]
fn open_adds_its_own_name() {
    let held = "acc w p eq w.p null chain this p ne this null eq this w";
    let source = method(held, "", "open x this p\nassert");
    let expected = [
        listed(Acc, PARAM, "p"),
        listed(Acc, THIS, "p"),
        listed(Chain, X, "p"),
    ];
    assert_eq!(listed_before(&source, 16), expected);
    let last = before(&source, 16, |state| {
        let fact = state.facts[state.facts.len() - 1];
        (
            fact.equal,
            fact.left == Term::Path(THIS, b"p"),
            fact.right == Term::Var(X),
        )
    });
    assert_eq!(last, (true, true, true));
    // `this.p` resolves to `w.p`, of which nothing says that it is x.
    checks(&[(
        &method(held, "", "open x this p\nassert eq this.p x"),
        13,
        16,
    )]);
}

/// "y removed": what was known of it goes, or goes on under another name.
#[test]
fn open_removes_y() {
    let with = |more: &str| format!("new x S\nset x n i\nshut x p\n{more}");
    methods(&[
        (CARD, &with("open x this p\nassert ne x null"), 13, 19),
        (
            CARD,
            &with("let y x\nopen x this p\nassert chain y p ne y null"),
            0,
            0,
        ),
        (CARD, &with("open x this p\nassert acc x n"), 12, 19),
        (
            CARD,
            &with("let y x\nopen x this p\nassert acc y n eq y.n i"),
            0,
            0,
        ),
    ]);
    // y was another name of x's card, whose chain was listed for it.
    let source = method(
        "ne this null",
        "",
        "new x S\nshut x p\nlet y x\nopen x y p\nassert eq y.p x acc y n chain x p",
    );
    checks(&[(&source, 0, 0)]);
    let listed = listed_before(&source, 19);
    assert!(listed.contains(&crate::listed(Chain, X, "p")));
    assert!(listed.contains(&crate::listed(Acc, Y, "p")));
}

/// "no path is consumed, so the facts stay as they are": also `1 = 1` until y is
/// removed, which drops it.
#[test]
fn open_keeps_facts() {
    methods(&[
        (
            "chain this p ne this null acc w p eq w.p this",
            "open x this p\nassert eq w.p this ne this null",
            0,
            0,
        ),
        // Through y: the facts go to its successor.
        (
            "chain this p ne this null acc w p acc w q eq w.p w.q",
            "let x w.p\nopen x this p\nassert eq w.p w.q",
            0,
            0,
        ),
    ]);
}

/// "Where x ~ null shows the chain, the state is one that no run reaches; the line
/// is done all the same."
#[test]
fn open_of_what_is_null_and_not_null() {
    let source = method("eq this null ne this null", "", "open x this p\nassert");
    checks(&[(&source, 0, 0)]);
    let expected = [listed(Acc, THIS, "p"), listed(Chain, X, "p")];
    assert_eq!(listed_before(&source, 16), expected);
}

/// `open` and `shut` one after the other leave what was there.
#[test]
fn open_and_shut() {
    let source = method(CARD, "", "open x this p\nshut this p\nassert chain this p");
    checks(&[(&source, 0, 0)]);
    assert_eq!(listed_before(&source, 17), [listed(Chain, THIS, "p")]);
    // x is ~ to what is gone, and its chain went with it.
    methods(&[
        (CARD, "open x this p\nshut this p\nassert chain x p", 12, 17),
        (CARD, "open x this p\nlet x null\nshut this p", 12, 17),
        (
            CARD,
            "open x this p\nlet y x\nlet x null\nshut this p",
            0,
            0,
        ),
        (CARD, "open x this p\nset this p w\nshut this p", 12, 17),
        (
            "chain this p ne this null chain w p",
            "open x this p\nset this p w\nshut this p\nassert chain x p",
            0,
            0,
        ),
    ]);
}
