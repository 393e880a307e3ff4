//! What is known of variables and paths, and the ways of showing `ne`.

use crate::common::{checks, main_with, script, S};
use crate::method;
use model::check;

#[test]
fn a_variable_assigned_leaves_its_place_to_an_equal_one() {
    checks(&[
        (
            &main_with("new s S\nlet t s\nlet s null\nassert acc t n eq t.n 0"),
            0,
            0,
        ),
        (
            &main_with("new s S\nlet t s\nnew s S\nassert acc t n acc s n ne s t"),
            0,
            0,
        ),
        (&main_with("new s S\nlet s null\nassert acc s n"), 12, 11),
        // Equal through a constant: a takes b's place in b = 7, then b is free.
        (
            &main_with("let a 7\nlet b 7\nlet b 1\nassert eq a 7 eq b 1"),
            0,
            0,
        ),
        // Equal through a path, which goes with t: s is its successor.
        (
            &main_with("new t S\nlet s t.prev\nlet t s\nassert eq t null"),
            0,
            0,
        ),
        (
            &main_with("new t S\nlet s t.prev\nassert eq s null eq s t.prev"),
            0,
            0,
        ),
        (
            &main_with("new t S\nlet s t.prev\nlet a t.n\nnew t S\nassert eq s null"),
            0,
            0,
        ),
    ]);
}

#[test]
fn let_with_a_path_of_its_own_variable() {
    checks(&[
        // No other name for s: the path goes with it, and null is what is left.
        (&main_with("new s S\nlet s s.prev\nassert eq s null"), 0, 0),
        (&main_with("new s S\nlet s s.prev\nassert eq s s"), 0, 0),
        // t takes the place of s, also in the path.
        (
            &main_with("new s S\nlet t s\nlet s s.prev\nassert eq s t.prev eq s null"),
            0,
            0,
        ),
        (
            &main_with("new s S\nlet t s\nlet s t.prev\nassert eq s t.prev acc t n"),
            0,
            0,
        ),
        // r is x: no change.
        (
            &main_with("new s S\nlet s s\nassert acc s n eq s.n 0"),
            0,
            0,
        ),
        // r is another term that is ~ x: x is removed and added again.
        (
            &main_with("let a 7\nlet b a\nlet a b\nassert eq a b eq b 7"),
            0,
            0,
        ),
        (
            &main_with("let a 7\nlet b a\nlet a b\nlet b 1\nassert eq a 7"),
            0,
            0,
        ),
    ]);
}

/// "the first such (order: `this`, w, locals, `result`) takes its place": t and
/// u are ~ s through the path alone. W3: whichever has the path, `set` does not
/// part them.
#[test]
fn an_equal_variable_takes_the_place() {
    let source = |order: &str, last: &str| {
        format!(
            "{S}main\nvar S s\n{order}\nnew s S\nset s prev s\nlet t s.prev\nlet u s.prev\n\
             let s null\nset t prev s\n{last}\nend"
        )
    };
    checks(&[
        (&source("var S t\nvar S u", "assert acc t prev"), 0, 0),
        (&source("var S t\nvar S u", "assert acc u prev"), 0, 0),
        (&source("var S u\nvar S t", "assert acc t prev"), 0, 0),
        (&source("var S u\nvar S t", "assert acc u prev"), 0, 0),
    ]);
    // `this` and w come before the locals; `result` comes after them, and has
    // a value only where a method returns.
    let in_method = |lines: &str| method("acc this prev", "", lines);
    let parted = "let x this\nset x prev x\nlet y x.prev\nlet x null\nset y prev x";
    checks(&[(&in_method(&format!("{parted}\nassert acc this prev")), 0, 0)]);
    let made = "new x S\nset x prev x\nlet y x.prev\nlet x null\nset y prev x";
    checks(&[(&in_method(&format!("{made}\nassert acc y prev")), 0, 0)]);
}

/// A variable that is only ~ x is removed and added. W3: the `b = b` that it
/// leaves goes, so that the facts do not pile up.
#[test]
fn let_of_an_equal_variable_keeps_the_count_of_facts() {
    let lets = |count: usize| {
        let lines = vec!["let a b"; count].join("\n");
        check(&script(&main_with(&lines)))
    };
    assert_eq!(lets(64), (0, 0));
    assert_eq!(lets(200), (0, 0));
    let same = vec!["let a a"; 100].join("\n");
    assert_eq!(check(&script(&main_with(&same))), (0, 0));
}

/// "if r is left, add x = r": a path of x that goes with x adds nothing, so a
/// state with 64 facts has room.
#[test]
fn a_path_that_is_not_left_adds_no_fact() {
    let facts = " ne 1 2".repeat(7);
    let calls = ["call a m facts b"; 9].join("\n");
    let source = |last: &str| {
        format!(
            "class C\nfield C f\nclass M\nmethod C all int w\nrequires\nensures acc result f\n\
             var C c\nnew c C\nreturn c\nend\nmethod int facts int w\nrequires\n\
             ensures{facts}\nend\nmain\nvar M m\nvar int a\nvar int b\nvar C c\nvar C d\n\
             new m M\ncall c m all b\n{calls}\n{last}\nend"
        )
    };
    checks(&[
        (&source("let c c.f\nassert eq c c"), 0, 0),
        (&source("let d c.f"), 14, 32),
        (&source("let c c.f\nassert acc c f"), 12, 33),
    ]);
}

/// W3: "An equality that now has one term on both sides goes too".
#[test]
fn facts_of_a_variable_with_itself_go() {
    let rounds = |lets: usize| {
        let line = |at: usize| ["let a b", "let a 1"][at % 2];
        let lines: Vec<&str> = (0..lets).map(line).collect();
        check(&script(&main_with(&lines.join("\n"))))
    };
    // After each round there is `a = 1` alone.
    assert_eq!(rounds(200), (0, 0));
}

/// `set` drops the facts of its path before it adds one: they do not pile up.
#[test]
fn many_sets_of_one_path() {
    let sets = ["set s n a"; 100].join("\n");
    let source = main_with(&format!("new s S\n{sets}"));
    assert_eq!(check(&script(&source)), (0, 0));
}

#[test]
fn ne_by_a_listed_inequality() {
    let in_branch = |lines: &str| main_with(&format!("if ne a b\n{lines}\nelse\njoin"));
    checks(&[
        (&in_branch("assert ne a b"), 0, 0),
        (&in_branch("assert ne b a"), 0, 0),
        (
            &main_with("let a 1\nif ne a b\nassert ne 1 b ne b 1\nelse\njoin"),
            0,
            0,
        ),
        (
            &main_with("if ne s t\nlet s t\nassert ne s t\nelse\njoin"),
            13,
            11,
        ),
        (
            &main_with("if eq s t\nassert eq t s\nelse\nassert ne t s\njoin"),
            0,
            0,
        ),
        (&main_with("if eq s t\nassert ne t s\nelse\njoin"), 13, 10),
        // An inequality is no equality's witness, and does not chain.
        (
            &main_with("if ne a b\nif ne b 1\nassert ne a 1\nelse\njoin\nelse\njoin"),
            13,
            11,
        ),
    ]);
}

#[test]
fn ne_by_different_numbers() {
    checks(&[
        (
            &main_with("let a 1\nlet b 2\nassert ne a b ne a 2 ne 1 b ne 1 2"),
            0,
            0,
        ),
        (&main_with("let a 1\nlet b 1\nassert ne a b"), 13, 11),
        (
            &main_with("new s S\nlet a s.n\nassert ne s.n 1 ne a -1"),
            0,
            0,
        ),
        // A state that contradicts itself has no rule of its own: `a` is ~ to
        // two numbers, so it differs from itself, and `b` is still unknown.
        (
            &main_with("let a 1\nif eq a 2\nassert ne a a ne 1 1 eq 1 2\nelse\njoin"),
            0,
            0,
        ),
        (
            &main_with("let a 1\nif eq a 2\nassert ne b 1\nelse\njoin"),
            13,
            11,
        ),
        (
            &main_with("let a 1\nif eq a 2\nassert ne 3 3\nelse\njoin"),
            13,
            11,
        ),
    ]);
}

#[test]
fn ne_by_null_and_a_listed_permission() {
    checks(&[
        (
            &method("acc this n", "", "assert ne this null ne null this"),
            0,
            0,
        ),
        (&method("", "", "assert ne this null"), 13, 11),
        (&method("acc w n", "", "assert ne this null"), 13, 11),
        (
            &method("acc this n", "", "let x this\nassert ne x null"),
            0,
            0,
        ),
        (
            &method("acc this n", "", "release acc this n\nassert ne this null"),
            13,
            12,
        ),
        (
            &method("acc this n eq w null", "", "assert ne this w ne w this"),
            0,
            0,
        ),
        (
            &method("acc this n", "acc this n ne this null", "assert"),
            0,
            0,
        ),
        // Consumed permissions are still read in the same formula.
        (
            &method("acc this n", "", "release acc this n ne this null"),
            0,
            0,
        ),
    ]);
}

#[test]
fn ne_by_two_entries_for_one_field() {
    checks(&[
        (
            &method("acc this n acc w n", "", "assert ne this w ne w this"),
            0,
            0,
        ),
        (
            &method("acc this n acc w prev", "", "assert ne this w"),
            13,
            11,
        ),
        (
            &method("acc this n acc w n", "", "let x w\nassert ne this x"),
            0,
            0,
        ),
        (
            &method("acc this n acc w n", "", "assert ne this this"),
            13,
            11,
        ),
        // Two entries may have one name.
        (
            &method("acc this n acc this n", "", "assert ne this this"),
            0,
            0,
        ),
        (
            &method("acc this n acc w n eq w this", "", "assert ne w w"),
            0,
            0,
        ),
        (&main_with("new s S\nnew t S\nassert ne s t"), 0, 0),
        (
            &main_with("new s S\nnew t S\nrelease acc t n acc t prev\nassert ne s t"),
            13,
            12,
        ),
    ]);
}
