//! W9.5: the checker's rule for `shut`.

use crate::common::checks;
use crate::{listed, listed_before, mains, method, methods};
use model::names::{PARAM, THIS};
use model::text::Share::{Chain, Read};

/// "`x.f` resolves to p (else 12); the first listed chain by f of a variable ~ p
/// is consumed, or p ~ null, else 12; then `acc x f` is shown (12; a `read` is not
/// enough)".
#[test]
fn what_shut_takes() {
    methods(&[
        ("", "shut this p", 12, 15),
        ("chain this p", "shut this p", 12, 15),
        ("acc this p", "shut this p", 12, 15),
        ("acc this p eq this.p null", "shut this p", 0, 0),
        ("acc this p eq this.p w chain w p", "shut this p", 0, 0),
        ("acc this p chain w p", "shut this p", 12, 15),
        ("acc this p eq this.p w chain w q", "shut this p", 12, 15),
        ("acc this p eq this.p w eq w null", "shut this p", 0, 0),
        ("read this p eq this.p null", "shut this p", 12, 15),
        (
            "read this p read this p eq this.p null",
            "shut this p",
            0,
            0,
        ),
        ("acc w p eq w.p null eq this w", "shut this p", 0, 0),
        ("acc this p eq this.p null", "shut this q", 12, 15),
        // The chain of x itself is no chain of the value.
        ("acc this p chain this p", "shut this p", 12, 15),
        // A ring, which no run reaches, is shown all the same.
        (
            "acc this p eq this.p this chain this p",
            "shut this p",
            0,
            0,
        ),
    ]);
}

#[test]
fn what_shut_takes_of_new_cards() {
    mains(&[
        (
            "new s S\nshut s p\nshut s q\nassert chain s p chain s q",
            0,
            0,
        ),
        ("new s S\nshut s p\nshut s p", 12, 16),
        ("shut s p", 12, 14),
        ("let s null\nshut s p", 12, 15),
    ]);
}

#[test]
fn what_shut_gives() {
    let source = method(
        "acc this p eq this.p w chain w p",
        "",
        "shut this p\nassert",
    );
    assert_eq!(listed_before(&source, 16), [listed(Chain, THIS, "p")]);
    methods(&[
        (
            "acc this p eq this.p null",
            "shut this p\nassert chain this p",
            0,
            0,
        ),
        (
            "acc this p eq this.p null",
            "shut this p\nassert acc this p",
            12,
            16,
        ),
        (
            "acc this p eq this.p null",
            "shut this p\nlet x this.p",
            11,
            16,
        ),
        (
            "acc this p eq this.p w chain w p",
            "shut this p\nassert chain w p",
            12,
            16,
        ),
    ]);
}

#[test]
fn what_is_known_after_shut() {
    methods(&[
        // What shows that x is not null may go with `x.f`.
        (
            "acc this p eq this.p null",
            "shut this p\nassert ne this null",
            13,
            16,
        ),
        (
            "acc this p eq this.p null ne this null",
            "shut this p\nassert ne this null",
            0,
            0,
        ),
        // The chain has the name that the line has.
        (
            "acc w p eq w.p null eq this w",
            "shut this p\nassert chain w p",
            0,
            0,
        ),
    ]);
    let source = method("acc w p eq w.p null eq this w", "", "shut this p\nassert");
    assert_eq!(listed_before(&source, 16), [listed(Chain, THIS, "p")]);
}

/// The remainder drops `x.f`: facts through it stay, unless its name is still
/// listed.
#[test]
fn what_shut_drops() {
    methods(&[
        (
            "acc this p eq this.p null eq this.p w",
            "let x this.p\nlet y this.p\nshut this p\nassert eq x y eq w null",
            0,
            0,
        ),
        (
            "acc this p read this p eq this.p null",
            "shut this p\nassert eq this.p null",
            0,
            0,
        ),
        // A read listed first is p, and a later acc is taken.
        (
            "read w p acc this p eq this w eq w.p null",
            "shut w p\nassert read w p chain w p",
            0,
            0,
        ),
        (
            "read w p acc this p eq this w eq this.p null",
            "shut w p\nassert eq w.p null",
            0,
            0,
        ),
    ]);
    let held = "read w p acc this p eq this w eq w.p null";
    let source = method(held, "", "shut w p\nassert");
    let expected = [listed(Read, PARAM, "p"), listed(Chain, PARAM, "p")];
    assert_eq!(listed_before(&source, 16), expected);
}

/// Of two chains of variables ~ `x.f` the first goes.
#[test]
fn shut_takes_the_first_chain() {
    let held = "acc this p eq this.p w chain w p";
    let body = "let x w\nlet y w\nassert";
    let source = method(
        &format!("{held} chain w p"),
        "",
        &format!("{body}\nshut this p\nassert"),
    );
    let expected = [listed(Chain, PARAM, "p"), listed(Chain, THIS, "p")];
    checks(&[(&source, 0, 0)]);
    assert_eq!(listed_before(&source, 19), expected);
    // A listed chain goes though `x.f` ~ null.
    let held = "acc this p eq this.p w chain w p eq w null";
    let source = method(held, "", "shut this p\nassert");
    assert_eq!(listed_before(&source, 16), [listed(Chain, THIS, "p")]);
}
