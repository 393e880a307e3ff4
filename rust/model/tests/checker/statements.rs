//! The rule of each kind of statement, and of methods.

use crate::common::{checks, main_with, ran, script, S};
use crate::method;
use model::check;

#[test]
fn the_remainder_is_without_consumed_paths() {
    checks(&[
        (&main_with("new s S\nlet a s.n\nassert eq a 0"), 0, 0),
        (
            &main_with("new s S\nlet a s.n\nrelease acc s n\nassert eq a 0"),
            0,
            0,
        ),
        (
            &main_with("new s S\nrelease acc s n\nassert eq s.n 0"),
            11,
            11,
        ),
        (
            &main_with("new s S\nlet a s.n\nrelease acc s prev\nassert eq a 0 eq s.n a"),
            0,
            0,
        ),
        (
            &main_with("new s S\nrelease acc s n\nassert ne s null eq s.prev null"),
            0,
            0,
        ),
        // One entry of two with one name is consumed: "a name still listed is
        // not dropped".
        (
            &method(
                "acc this n eq this.n 1 acc this n",
                "",
                "release acc this n\nassert eq this.n 1",
            ),
            0,
            0,
        ),
        (
            &method(
                "acc this n eq this.n 1 acc this n",
                "",
                "release acc this n\nassert acc this n",
            ),
            0,
            0,
        ),
    ]);
}

/// W3: "two terms that are left shall be ~ exactly if they were ~ before", on
/// whichever side of a fact the dropped path stood.
#[test]
fn what_a_dropped_path_linked_stays_linked() {
    checks(&[
        (
            &main_with("new s S\nlet a s.n\nlet b s.n\nassert eq a b"),
            0,
            0,
        ),
        (
            &main_with("new s S\nlet a s.n\nlet b s.n\nrelease acc s n\nassert eq a b"),
            0,
            0,
        ),
        (
            &main_with("new s S\nlet b s.n\nset s n a\nassert eq b a"),
            13,
            12,
        ),
        (
            &main_with("new s S\nset s n a\nlet b s.n\nassert eq b a"),
            0,
            0,
        ),
        (
            &main_with("new s S\nlet a s.n\nlet b s.n\nnew s S\nassert eq a b"),
            0,
            0,
        ),
    ]);
}

#[test]
fn set_drops_the_facts_of_its_path() {
    checks(&[
        (&main_with("new s S\nset s n a\nassert eq s.n a"), 0, 0),
        (&main_with("new s S\nset s n a\nassert eq s.n 0"), 13, 11),
        (
            &main_with("new s S\nlet b s.n\nset s n a\nassert eq b 0"),
            0,
            0,
        ),
        // By another name of the object.
        (
            &main_with("new s S\nlet t s\nset t n a\nassert eq s.n a"),
            0,
            0,
        ),
        (
            &main_with("new s S\nlet t s\nset t n a\nassert eq s.n 0"),
            13,
            12,
        ),
        // What was known of another object's field stays.
        (
            &main_with("new s S\nnew t S\nset t n a\nassert eq s.n 0"),
            0,
            0,
        ),
        (
            &main_with("new s S\nset s prev s\nassert eq s.prev s"),
            0,
            0,
        ),
    ]);
}

/// W2: "The checker shows ensures at that line", after document 01's rule for
/// `return x`.
#[test]
fn return_assigns_result_and_shows_ensures() {
    checks(&[
        (&method("", "eq result w", "return w"), 0, 0),
        (&method("", "eq result w", "return this"), 13, 11),
        (&method("", "eq result this", "return this"), 0, 0),
        (&method("", "eq result w", "let x w\nreturn x"), 0, 0),
        (&method("", "eq result w", "return result"), 13, 11),
        (&method("", "eq result result", "return result"), 0, 0),
        (
            &method("", "acc result n eq result.n 0", "new x S\nreturn x"),
            0,
            0,
        ),
        (
            &method("", "acc result n", "new x S\nnew x S\nreturn x"),
            0,
            0,
        ),
        (
            &method("", "acc result n", "new x S\nrelease acc x n\nreturn x"),
            12,
            13,
        ),
        // Before any return nothing is known of `result`.
        (&method("", "eq result null", "assert"), 13, 12),
        // An `end` straight after a `return` shows nothing, every other does.
        (&method("", "eq result w", "return w"), 0, 0),
        (
            &method(
                "",
                "eq result w",
                "if eq w this\nreturn w\nelse\nreturn w\njoin",
            ),
            13,
            16,
        ),
    ]);
}

/// W2: "A branch whose last line is a `return` has no end to show at `join`".
#[test]
fn a_branch_that_returns_shows_nothing_at_join() {
    let ends = |first: &str, second: &str, join: &str| {
        let lines = format!("if eq w this\n{first}else\n{second}join {join}\nassert eq x w");
        method("", "", &lines)
    };
    checks(&[
        (&ends("", "let x w\n", "eq x w"), 13, 14),
        (&ends("let x w\n", "", "eq x w"), 13, 14),
        (&ends("let x w\n", "let x w\n", "eq x w"), 0, 0),
        (&ends("return w\n", "let x w\n", "eq x w"), 0, 0),
        (&ends("let x w\n", "return w\n", "eq x w"), 0, 0),
        (&ends("return w\n", "", "eq x w"), 13, 14),
        // Nothing is shown at all; the state after is the formula alone.
        (&ends("return w\n", "return w\n", "eq x w"), 0, 0),
        (&ends("return w\n", "return w\n", "eq x null"), 13, 16),
        // A branch that ends in an inner `join` has an end to show.
        (
            &ends(
                "if eq 1 1\nreturn w\nelse\nreturn w\njoin eq x w\n",
                "return w\n",
                "eq x w",
            ),
            0,
            0,
        ),
        (
            &ends(
                "if eq 1 1\nreturn w\nelse\nreturn w\njoin\n",
                "return w\n",
                "eq x w",
            ),
            13,
            19,
        ),
    ]);
}

#[test]
fn new_knows_its_fields() {
    checks(&[
        (
            &main_with("new s S\nassert eq s.prev null eq s.n 0 ne s null acc s prev acc s n"),
            0,
            0,
        ),
        (
            &main_with("new s S\nassert eq s.prev s.prev ne s s.prev"),
            0,
            0,
        ),
        (&main_with("new s S\nassert eq s.n 1"), 13, 10),
    ]);
    checks(&[(
        "class E\nmain\nvar E e\nnew e E\nassert ne e null\nend",
        0,
        0,
    )]);
}

/// A class with a method `give`, which hands over and gets back.
fn calls(requires: &str, ensures: &str, statements: &str) -> String {
    format!(
        "{S}method S give S w\nrequires {requires}\nensures {ensures}\nend\nmain\nvar S s\nvar S t\n\
         var S r\nvar int a\n{statements}\nend"
    )
    .replace(" \n", "\n")
}

#[test]
fn a_call_hands_over_and_gets_back() {
    // The method's own end is on line 7, the first statement of main on 13.
    let given = |statements: &str| calls("acc this n", "acc this n", statements);
    checks(&[
        (
            &given("new s S\ncall r s give t\nassert acc s n acc s prev"),
            0,
            0,
        ),
        (
            &given("new s S\ncall r s give t\nassert eq s.prev null"),
            0,
            0,
        ),
        (&given("new s S\ncall r s give t\nassert eq s.n 0"), 13, 15),
        (
            &given("new s S\nlet t s\ncall r t give t\nassert acc s n"),
            0,
            0,
        ),
        (
            &given("new s S\nlet r s\ncall r s give t\nassert acc s n acc s prev"),
            0,
            0,
        ),
        (
            &given("new s S\nlet r s\ncall r s give t\nassert eq r s"),
            13,
            16,
        ),
        (&given("call r s give t"), 13, 13),
        (&given("new s S\nrelease acc s n\ncall r s give t"), 12, 15),
        (
            &given("new s S\nrelease acc s prev\ncall r s give t\nassert acc s n"),
            0,
            0,
        ),
        // r's own permissions are lost when it is assigned.
        (
            &given("new s S\nnew r S\ncall r s give t\nassert acc r prev"),
            12,
            16,
        ),
    ]);
    // The receiver's y ≠ null comes before requires.
    checks(&[(&calls("acc w n", "", "call r s give t"), 13, 13)]);
    checks(&[(&calls("acc w n", "", "new s S\ncall r s give t"), 12, 14)]);
    checks(&[(&calls("eq w null", "", "new s S\ncall r s give t"), 13, 14)]);
}

#[test]
fn ensures_speaks_of_the_callers_variables() {
    let body = |ensures: &str, statements: &str| {
        calls("acc this n acc w n", ensures, statements).replacen(
            "end\nmain",
            "return w\nend\nmain",
            1,
        )
    };
    let same = |statements: &str| body("acc this n acc w n eq result w", statements);
    checks(&[
        (
            &same("new s S\nnew t S\ncall r s give t\nassert eq r t acc r n acc s n"),
            0,
            0,
        ),
        (
            &same("new s S\nnew t S\ncall r s give t\nassert eq r s"),
            13,
            17,
        ),
        (
            &same("new s S\nnew t S\ncall r s give t\nassert ne r s"),
            0,
            0,
        ),
        (&same("new s S\ncall r s give s"), 12, 15),
    ]);
}

#[test]
fn conditions_are_resolved() {
    checks(&[
        (
            &main_with("new s S\nlet t s\nif eq t.n 5\nassert eq s.n 5 eq 0 5\nelse\njoin"),
            0,
            0,
        ),
        (
            &main_with("new s S\nset s n a\nif eq s.n 5\nassert eq a 5\nelse\nassert ne a 5\njoin"),
            0,
            0,
        ),
        (
            &main_with("if eq 1 2\nassert eq 1 2\nelse\nassert ne 1 2\njoin"),
            0,
            0,
        ),
        (&main_with("if eq 1 2\nelse\nassert eq 1 2\njoin"), 13, 11),
    ]);
}

#[test]
fn join_leaves_its_formula_alone() {
    checks(&[
        (&main_with("new s S\nif eq a 1\nelse\njoin acc s n\nassert acc s n"), 0, 0),
        (&main_with("new s S\nif eq a 1\nelse\njoin acc s n\nassert acc s prev"), 12, 13),
        (&main_with("new s S\nif eq a 1\nelse\njoin acc s n\nassert eq s.n 0"), 13, 13),
        (&main_with("new s S\nif eq a 1\nelse\njoin acc s n\nassert ne s null"), 0, 0),
        // By ~ in each end: the one branch holds it as t.n, the other as s.n.
        (
            &main_with("if eq a 1\nnew s S\nlet t s\nelse\nnew t S\nlet s t\njoin acc t n eq s t\nassert acc s n"),
            0,
            0,
        ),
        (&main_with("if eq a 1\nnew s S\nelse\njoin acc s n"), 12, 12),
    ]);
    // `join` leaves A as it is: a run goes on with what check has forgotten.
    let text = script(&main_with(
        "new s S\nif eq a 1\nelse\njoin\nassert eq s.n 0",
    ));
    assert_eq!(check(&text), (11, 13));
    assert_eq!(ran(&text, 100), (0, 14, 5));
}

#[test]
fn branches_four_deep() {
    let deep = |inner: &str| {
        main_with(&format!(
            "new s S\nif eq a 1\nif eq a 2\nif eq a 3\nif eq a 4\n{inner}\nelse\njoin acc s n\n\
             else\njoin acc s n\nelse\njoin acc s n\nelse\njoin acc s n\nassert acc s n"
        ))
    };
    checks(&[
        (&deep("assert eq a 4 eq 1 4"), 0, 0),
        (&deep("release acc s n"), 12, 16),
        (&deep("assert eq a 5"), 13, 14),
        (&deep("new s S\nset s n a"), 0, 0),
    ]);
}

#[test]
fn methods_in_the_order_of_lines() {
    let source = "class S\nfield int n\nmethod int a int w\nrequires\nensures\nset this n w\nend\n\
                  method int b int w\nrequires\nensures acc this n\nend\nmain\nvar int i\n\
                  assert eq i 1\nend";
    assert_eq!(check(&script(source)), (12, 6));
    assert_eq!(
        check(&script(&source.replace("set this n w\n", "assert\n"))),
        (12, 11)
    );
    let source = source
        .replace("set this n w\n", "assert\n")
        .replace("ensures acc this n", "ensures");
    assert_eq!(check(&script(&source)), (13, 14));
}

/// Two classes may have a field of one name. Null links variables of different
/// classes; then a path goes by the name of its field alone.
#[test]
fn variables_of_two_classes_linked_by_null() {
    let source = "class A\nfield int f\nmethod int m A w\nrequires acc w f eq w null\nensures\n\
                  var B y\nlet y null\nBODY\nend\nclass B\nfield int f\nmain\nend";
    checks(&[
        (&source.replace("BODY", "assert eq y.f w.f acc y f"), 0, 0),
        (
            &source.replace("BODY", "release acc y f\nassert acc w f"),
            12,
            9,
        ),
    ]);
}

/// W1: "The checker removes x and keeps no fact of the new value."
#[test]
fn add_and_sub_remove_their_variable() {
    checks(&[
        (&main_with("let a 1\nadd a a a\nassert eq a 2"), 13, 11),
        (&main_with("let a 1\nsub b a a\nassert eq b 0"), 13, 11),
        (
            &main_with("let a 1\nlet b 2\nadd b a a\nassert eq a 1"),
            0,
            0,
        ),
        (
            &main_with("let a 1\nlet b a\nadd a a b\nassert eq b 1"),
            0,
            0,
        ),
        (
            &main_with("let a 1\nlet b a\nadd a a b\nassert eq a b"),
            13,
            12,
        ),
        (&main_with("add a a b\nassert eq a a"), 0, 0),
    ]);
}
