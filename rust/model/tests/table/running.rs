//! The rows of a run: 0 and 21 to 27.

use crate::common::{example, main_with, ran, script, text};
use model::{check, printed, run};

#[test]
fn a_run_that_ends_or_is_out_of_steps() {
    let text = script(&main_with(
        "let a 1\nif eq a 1\nlet b 2\nelse\nlet b 3\njoin\nlet a 4",
    ));
    assert_eq!(ran(&text, 0), (21, 9, 0));
    assert_eq!(ran(&text, 3), (21, 12, 3));
    assert_eq!(ran(&text, 4), (21, 14, 4));
    assert_eq!(ran(&text, 7), (0, 16, 7));
    assert_eq!(ran(&text, u32::MAX), (0, 16, 7));
    assert_eq!(run(&text, 7).values[..4], [0, 0, 4, 2]);
    let text = script(&main_with(
        "if eq a 1\nlet b 2\nelse\nlet b 3\njoin\nlet a 4",
    ));
    assert_eq!(ran(&text, 1), (21, 12, 1));
    assert_eq!(ran(&text, 2), (21, 13, 2));
    assert_eq!(ran(&text, 5), (0, 15, 5));
    assert_eq!(run(&text, 5).values[..4], [0, 0, 4, 3]);
}

#[test]
fn numbers_24_25_and_26() {
    for (statements, expected) in [
        ("set s n a", (25, 9, 0)),
        ("let a s.n", (25, 9, 0)),
        ("assert eq 1 s.n", (25, 9, 0)),
        ("assert acc s n", (25, 9, 0)),
        ("if eq s.n 1\nelse\njoin", (25, 9, 0)),
        ("new s S\nrelease acc s n\nset s n a", (24, 11, 2)),
        ("new s S\nrelease acc s n\nlet a s.n", (24, 11, 2)),
        (
            "new s S\nrelease acc s n\nif eq s.n 1\nelse\njoin",
            (24, 11, 2),
        ),
        ("new s S\nrelease acc s n\nassert eq s.n 0", (24, 11, 2)),
        (
            "new s S\nrelease acc s n acc s prev\nassert acc s n",
            (24, 11, 2),
        ),
        ("new s S\nassert acc s n acc s n", (24, 10, 1)),
        ("new s S\nlet t s\nassert acc s n acc t n", (24, 11, 2)),
        ("new s S\nassert acc s n eq s.n 0", (0, 11, 3)),
        ("new s S\nrelease acc s n eq s.n 0", (0, 11, 3)),
        ("assert eq a 1", (26, 9, 0)),
        ("assert ne a 0", (26, 9, 0)),
        ("release eq a 1", (26, 9, 0)),
        ("if eq a 0\nelse\njoin eq a 1", (26, 11, 2)),
        ("if eq a 1\nelse\njoin eq a 1", (26, 11, 1)),
        // Atoms in order, of two sides the left first.
        ("new s S\nassert eq t.n s.n eq a 1", (25, 10, 1)),
        ("new s S\nrelease acc s n\nassert eq s.n t.n", (24, 11, 2)),
        ("new s S\nrelease acc s n\nassert eq t.n s.n", (25, 11, 2)),
        ("assert eq a 1 acc s n", (26, 9, 0)),
        ("assert acc s n eq a 1", (25, 9, 0)),
    ] {
        assert_eq!(
            ran(&script(&main_with(statements)), 100),
            expected,
            "{statements}"
        );
    }
}

#[test]
fn calls_and_ends_in_a_run() {
    let source = |requires: &str, ensures: &str, body: &str, main: &str| {
        script(
            &format!(
                "class S\nfield S prev\nfield int n\nmethod S m S w\nrequires {requires}\n\
                 ensures {ensures}\n{body}end\nmain\nvar S s\nvar S t\nvar S r\n{main}\nend"
            )
            .replace(" \n", "\n"),
        )
    };
    // A null receiver comes before requires.
    assert_eq!(
        ran(&source("eq 1 2", "", "", "call r s m t"), 9),
        (25, 12, 0)
    );
    assert_eq!(
        ran(&source("eq 1 2", "", "", "new s S\ncall r s m t"), 9),
        (26, 13, 1)
    );
    assert_eq!(
        ran(&source("acc w n", "", "", "new s S\ncall r s m t"), 9),
        (25, 13, 1)
    );
    assert_eq!(
        ran(
            &source("acc this n acc w n", "", "", "new s S\ncall r s m s"),
            9
        ),
        (24, 13, 1)
    );
    // A failed ensures stops at the method's end.
    assert_eq!(
        ran(&source("", "eq 1 2", "", "new s S\ncall r s m t"), 9),
        (26, 7, 2)
    );
    assert_eq!(
        ran(&source("", "acc this n", "", "new s S\ncall r s m t"), 9),
        (24, 7, 2)
    );
    // What requires hands over and ensures does not give back is lost.
    let lost = source(
        "acc this n",
        "",
        "",
        "new s S\ncall r s m t\nassert eq s.n 0",
    );
    assert_eq!(ran(&lost, 9), (24, 14, 3));
    let kept = source(
        "acc this n",
        "acc this n",
        "",
        "new s S\ncall r s m t\nassert eq s.n 0",
    );
    assert_eq!(ran(&kept, 9), (0, 15, 5));
    // Without a return the result is null; a new object can be handed back.
    assert_eq!(model::trial(&kept, 9).values[..3], [1, 0, 0]);
    let made = source(
        "",
        "acc result n ne result null",
        "var S x\nnew x S\nreturn x\n",
        "new s S\ncall r s m t\nset r n r\nassert acc r n",
    );
    assert_eq!(ran(&made, 9), (7, 17, 0));
    let made = source(
        "",
        "acc result n",
        "var S x\nnew x S\nreturn x\n",
        "new s S\ncall r s m t\nassert acc r n\nassert acc r prev",
    );
    assert_eq!(check(&made), (12, 18));
    assert_eq!(ran(&made, 99), (24, 18, 5));
    assert_eq!(model::trial(&made, 99).values[..3], [1, 0, 2]);
    // W2: "`return x` sets the result, tests ensures and goes back to the
    // caller in one step."
    let once = |line: &str| source("", "eq result this", line, "new s S\ncall r s m t");
    let right = once("return this\n");
    assert_eq!(check(&right), (0, 0));
    assert_eq!(model::trial(&right, 99).values[..3], [1, 0, 1]);
    assert_eq!(ran(&right, 99), (0, 15, 4));
    let wrong = once("return w\n");
    assert_eq!(check(&wrong), (13, 7));
    assert_eq!(ran(&wrong, 99), (26, 7, 2));
    assert_eq!(check(&once("return w\nreturn this\n")), (4, 8));
}

#[test]
fn values_are_mains_also_inside_a_call() {
    let text = text(&example());
    for allowed in 3..5 {
        assert_eq!(run(&text, allowed).values[..3], [1, 7, 0], "{allowed}");
    }
    assert_eq!(run(&text, 5).values[..3], [1, 7, 7]);
    assert_eq!(ran(&text, 3), (21, 7, 3));
    assert_eq!(ran(&text, 4), (21, 8, 4));
    assert_eq!(ran(&text, 5), (21, 17, 5));
    assert_eq!(ran(&text, 6), (21, 18, 6));
}

#[test]
fn a_refused_text_does_not_run() {
    for (source, number, line) in [
        ("main\nx\nend", 4, 2),
        ("main\nlet a 1\nend", 6, 2),
        ("main\nvar int a\nlet a null\nend", 7, 3),
        ("main\n", 8, 1),
    ] {
        assert_eq!(ran(&script(source), 100), (number, line, 0));
        assert_eq!(ran(&script(source), 0), (number, line, 0));
        let expected = format!("check\t{number}\t{line}\n");
        assert_eq!(printed(&script(source)), expected.as_bytes());
    }
}

/// W1: "A result beyond 32 bits signed stops the run: −2147483648 less 1 does,
/// −2147483647 less 1 doesn't."
#[test]
fn number_27() {
    for (a, b, line, expected, value) in [
        (-2147483648i64, 1, "sub a a b", (27, 11, 2), -2147483648),
        (-2147483647, 1, "sub a a b", (0, 12, 4), -2147483648),
        (2147483647, 1, "add a a b", (27, 11, 2), 2147483647),
        (2147483646, 1, "add a b a", (0, 12, 4), 2147483647),
        (0, -2147483648, "sub a a b", (27, 11, 2), 0),
        (-1, -2147483648, "sub a a b", (0, 12, 4), 2147483647),
        (2147483647, 5, "add a a a", (27, 11, 2), 2147483647),
    ] {
        let lines = format!("let a {a}\nlet b {b}\n{line}");
        let text = script(&main_with(&lines));
        assert_eq!(check(&text), (0, 0));
        assert_eq!(ran(&text, 100), expected, "{lines}");
        assert_eq!(run(&text, 100).values[2], value, "{lines}");
    }
}

/// W2: each `return` is one step, and a run goes on after the `call`.
#[test]
fn a_return_in_a_branch() {
    let source = |w: u32| {
        format!(
            "class S\nmethod int m int w\nrequires\nensures ne result 3\nvar int i\n\
             if eq w 1\nlet i 2\nreturn i\nelse\nif eq w 2\nreturn w\nelse\njoin\njoin\n\
             let i 5\nreturn i\nend\nmain\nvar S s\nvar int a\nvar int b\nnew s S\n\
             let b {w}\ncall a s m b\nend"
        )
    };
    // Line 11 returns w, of which nothing is known in a run's words.
    for (w, steps, value) in [(1, 7, 2), (2, 7, 2), (4, 10, 5)] {
        let text = script(&source(w));
        assert_eq!(check(&text), (0, 0));
        assert_eq!(ran(&text, 99), (0, 25, steps), "{w}");
        assert_eq!(run(&text, 99).values[1], value, "{w}");
    }
}
