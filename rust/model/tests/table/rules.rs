//! The numbers 10 to 13, and the order of the rules.

use crate::common::{checks, main_with, ran, script};
use crate::method_with;
use model::printed;

#[test]
fn number_10() {
    let contract = |requires: &str, ensures: &str| {
        method_with("method S m S w", &format!("{requires}\n{ensures}\nend"))
    };
    checks(&[
        (&contract("requires eq this.n 1", "ensures"), 10, 5),
        (
            &contract("requires eq this.n 1 acc this n", "ensures"),
            10,
            5,
        ),
        (
            &contract("requires acc this n eq this.n 1", "ensures"),
            0,
            0,
        ),
        (
            &contract("requires acc this n eq this.prev null", "ensures"),
            10,
            5,
        ),
        (&contract("requires acc this n eq w.n 1", "ensures"), 10, 5),
        // By the names as written, also where the two are known to be equal.
        (
            &contract("requires acc this n eq w this eq w.n 1", "ensures"),
            10,
            5,
        ),
        (
            &contract("requires acc this n", "ensures eq this.n 1"),
            10,
            6,
        ),
        (
            &contract("requires acc this n", "ensures ne 1 this.n acc this n"),
            10,
            6,
        ),
        // 10 comes before the rules, also for lines before it.
        (&contract("requires", "ensures acc this n eq w.n 1"), 10, 6),
    ]);
    checks(&[
        (
            &main_with("new s S\nif eq a a\nelse\njoin eq s.n 0"),
            10,
            12,
        ),
        (
            &main_with("new s S\nif eq a a\nelse\njoin acc s n eq s.n 0"),
            0,
            0,
        ),
        (
            &main_with("assert acc s n\nif eq a a\nelse\njoin eq s.n 0"),
            10,
            12,
        ),
        // `assert`, `release` and `if` are not covered.
        (
            &main_with("new s S\nassert eq s.n 0\nrelease eq s.n 0"),
            0,
            0,
        ),
        (&main_with("new s S\nif eq s.n 0\nelse\njoin"), 0, 0),
        // 9 comes before 10 for the whole text.
        (&main_with("if eq a a\nelse\njoin eq s.n 0\nlet s 1"), 7, 12),
    ]);
    // A run works on such a text.
    let text = script(&main_with("new s S\nif eq a a\nelse\njoin eq s.n 0"));
    assert_eq!(ran(&text, 1_000), (0, 13, 5));
    assert!(printed(&text).starts_with(b"check\t10\t12\nrun\t0\t13\t5\nvar\ts\t1\n"));
}

#[test]
fn number_11() {
    checks(&[
        (&main_with("let a s.n"), 11, 9),
        (&main_with("assert eq s.n 0"), 11, 9),
        (&main_with("assert ne 1 s.n"), 11, 9),
        (&main_with("release eq 0 s.n"), 11, 9),
        (&main_with("if eq s.n 0\nelse\njoin"), 11, 9),
        (&main_with("if eq 1 s.n\nelse\njoin"), 11, 9),
        (&main_with("new s S\nrelease acc s n\nlet a s.n"), 11, 11),
        (
            &main_with("new s S\nrelease acc s n\nlet s s.prev\nlet t s.prev"),
            11,
            12,
        ),
        (&main_with("new s S\nassert eq t.n 0"), 11, 10),
        // `eq` and `ne` read the whole state, also what was consumed.
        (&main_with("new s S\nassert acc s n eq s.n 0"), 0, 0),
        (&main_with("new s S\nrelease acc s n eq s.n 0"), 0, 0),
    ]);
}

#[test]
fn number_12() {
    checks(&[
        (&main_with("set s n a"), 12, 9),
        (&main_with("assert acc s n"), 12, 9),
        (&main_with("release acc s n"), 12, 9),
        (&main_with("new s S\nassert acc s n acc s n"), 12, 10),
        (&main_with("new s S\nassert acc s n\nassert acc s n"), 0, 0),
        (
            &main_with("new s S\nrelease acc s n\nassert acc s n"),
            12,
            11,
        ),
        (
            &main_with("new s S\nif eq a a\nassert acc s n\nelse\njoin\nassert acc s n"),
            12,
            14,
        ),
        // In the order of the atoms.
        (&main_with("new s S\nassert eq s.n 1 acc t n"), 13, 10),
        (&main_with("new s S\nassert acc t n eq s.n 1"), 12, 10),
        (&main_with("new s S\nassert eq t.n 1 acc t n"), 11, 10),
        (&main_with("new s S\nassert acc t n eq t.n 1"), 12, 10),
    ]);
    let ensures = |ensures: &str, body: &str| {
        method_with(
            "method int m int w",
            &format!("requires\n{ensures}\n{body}end"),
        )
    };
    checks(&[
        (&ensures("ensures acc this n", ""), 12, 7),
        (&ensures("ensures eq w 1", "return w\n"), 13, 7),
        (&ensures("ensures eq w result", "return w\n"), 0, 0),
        (&ensures("ensures eq w result", ""), 13, 7),
    ]);
}

#[test]
fn number_13() {
    checks(&[
        (&main_with("assert eq a 0"), 13, 9),
        (&main_with("assert eq s null"), 13, 9),
        (&main_with("assert eq s t"), 13, 9),
        (&main_with("assert eq s s eq a a eq 1 1 eq null null"), 0, 0),
        (&main_with("assert ne s null"), 13, 9),
        (&main_with("assert ne a a"), 13, 9),
        (&main_with("assert eq 1 2"), 13, 9),
        (&main_with("assert ne 1 1"), 13, 9),
        (
            &main_with("if eq a 1\nassert eq a 1\nelse\nassert ne a 1\njoin"),
            0,
            0,
        ),
        (
            &main_with("if eq a 1\nassert ne a 2\nelse\nassert ne 1 a\njoin"),
            0,
            0,
        ),
        (&main_with("if ne a 1\nassert eq a 1\nelse\njoin"), 13, 10),
        (
            &main_with("if ne a 1\nassert ne a 1\nelse\nassert eq 1 a\njoin"),
            0,
            0,
        ),
    ]);
    let receiver = "class S\nmethod int m int w\nrequires eq w 1\nensures\nend\nmain\nvar S s\n\
                    var int a\nvar int b\nLINES\nend";
    checks(&[
        (&receiver.replace("LINES", "call a s m b"), 13, 10),
        (&receiver.replace("LINES", "new s S\ncall a s m b"), 13, 11),
        (
            &receiver.replace("LINES", "new s S\nlet b 1\ncall a s m b"),
            0,
            0,
        ),
    ]);
}

#[test]
fn branches_in_order_of_lines() {
    // The lines of the second branch come before the first end's failure.
    checks(&[
        (
            &main_with("if eq a a\nelse\nassert eq a 1\njoin eq a 2"),
            13,
            11,
        ),
        (&main_with("if eq a a\nlet a 2\nelse\njoin eq a 2"), 13, 12),
        (&main_with("if eq a a\nelse\nlet a 2\njoin eq a 2"), 13, 12),
        (
            &main_with("if eq a a\nlet a 2\nelse\nlet a 2\njoin eq a 2"),
            0,
            0,
        ),
        // The whole formula for the first end, then for the second: 13 of the
        // first end's second atom comes before 12 of the second end.
        (
            &main_with("new s S\nif eq a a\nelse\nrelease acc s n\njoin acc s n eq a 7"),
            13,
            13,
        ),
        (
            &main_with("new s S\nif eq a a\nrelease acc s n\nelse\njoin acc s n eq a 7"),
            12,
            13,
        ),
        // The state after is the formula alone.
        (
            &main_with("let a 2\nif eq a a\nelse\njoin\nassert eq a 2"),
            13,
            13,
        ),
        (
            &main_with("let a 2\nif eq a a\nelse\njoin eq a 2\nassert eq a 2"),
            0,
            0,
        ),
    ]);
}
