//! The numbers 6, 7 and 9: names, types and what may be assigned.

use crate::common::{checks, main_with, script};
use crate::method_with;
use model::check;

#[test]
fn number_6_undeclared() {
    let body = |line: &str| main_with(line);
    for line in [
        "let x 1",
        "let a x",
        "let a x.n",
        "let a s.x",
        "set x n a",
        "set s x a",
        "set s n x",
        "new x S",
        "new s X",
        "new s int",
        "new s null",
        "call x s m a",
        "call a x m a",
        "call a s x a",
        "assert eq a x",
        "assert acc x n",
        "assert acc s x",
        "release acc x n",
        "if eq a x\nelse\njoin",
        "if eq x.n a\nelse\njoin",
        "let a int",
        "let int 1",
        "let null null",
        "let this 1",
        "let a this",
        "let a result",
        "let result 1",
        "let a null.n",
        "let a this.n",
        "let a s.null",
        "let a a.null",
        "let a a.int",
        "set s n null",
        "set null n a",
        "set s this a",
        "assert acc null n",
        "assert acc this n",
        "assert eq result null",
        "new this S",
        "call a this m a",
        "call a s null a",
        "call a a this a",
        "call a s m int",
    ] {
        assert_eq!(check(&script(&body(line))), (6, 9), "{line}");
    }
}

#[test]
fn number_6_declarations() {
    checks(&[
        ("class int\nmain\nend", 6, 1),
        ("class C\nclass null\nmain\nend", 6, 2),
        ("class C\nclass C\nmain\nend", 6, 2),
        ("class C\nclass D\nclass E\nclass D\nmain\nend", 6, 4),
        ("class C\nfield X f\nmain\nend", 6, 2),
        ("class C\nfield null f\nmain\nend", 6, 2),
        ("class C\nfield this f\nmain\nend", 6, 2),
        ("class C\nfield int this\nmain\nend", 6, 2),
        ("class C\nfield int f\nfield C f\nmain\nend", 6, 3),
        (
            "class C\nfield int f\nclass D\nfield int f\nmain\nend",
            0,
            0,
        ),
        (
            "class C\nmethod X m int w\nrequires\nensures\nend\nmain\nend",
            6,
            2,
        ),
        (
            "class C\nmethod int m X w\nrequires\nensures\nend\nmain\nend",
            6,
            2,
        ),
        (
            "class C\nmethod int int int w\nrequires\nensures\nend\nmain\nend",
            6,
            2,
        ),
        (
            "class C\nmethod int m int this\nrequires\nensures\nend\nmain\nend",
            6,
            2,
        ),
        (
            "class C\nmethod int m int result\nrequires\nensures\nend\nmain\nend",
            6,
            2,
        ),
        ("main\nvar X x\nend", 6, 2),
        ("main\nvar int x\nvar int x\nend", 6, 3),
        ("main\nvar int result\nend", 6, 2),
        ("main\nvar result x\nend", 6, 2),
    ]);
    let twice = "class C\nmethod int m int w\nrequires\nensures\nend\n\
                 method C m C w\nrequires\nensures\nend\nmain\nend";
    assert_eq!(check(&script(twice)), (6, 6));
    assert_eq!(
        check(&script(&twice.replacen("end\n", "end\nclass D\n", 1))),
        (0, 0)
    );
    let local = "class C\nmethod int m int w\nrequires\nensures\nvar C w\nend\nmain\nend";
    assert_eq!(check(&script(local)), (6, 5));
}

#[test]
fn number_6_names_not_allowed_there() {
    let contract = |requires: &str, ensures: &str| {
        let lines = format!("requires {requires}\nensures {ensures}\nvar S x\nend");
        method_with("method S m S w", lines.replace(" \n", "\n").as_str())
    };
    checks(&[
        (&contract("eq this w", "eq this w"), 0, 0),
        (&contract("eq this w", "eq this result"), 13, 8),
        (&contract("eq result null", "eq w w"), 6, 5),
        (&contract("eq x null", "eq w w"), 6, 5),
        (&contract("eq w w", "eq x null"), 6, 6),
        (&contract("acc result n", "eq w w"), 6, 5),
        (
            &contract("acc w n", "acc result n acc w n acc this n"),
            12,
            8,
        ),
        (&contract("eq s null", "eq w w"), 6, 5),
    ]);
    // In the body `this`, w, the locals and `result` may be read.
    let body = "requires\nensures\nvar S x\nlet x result\nlet x this\nlet x w\nlet x x\nend";
    assert_eq!(check(&script(&method_with("method S m S w", body))), (0, 0));
}

#[test]
fn the_first_of_two_declarations_counts() {
    // The field of type S comes first: `s.f` is an S on line 5, before both.
    let source = "class A\nmethod int m S w\nrequires acc w f\nensures\nBODY\nend\n\
                  class S\nfield S f\nfield int f\nmain\nend";
    checks(&[
        (&source.replace("BODY", "assert eq w.f null"), 6, 9),
        (&source.replace("BODY", "assert eq w.f 1"), 7, 5),
    ]);
    let source = "class A\nmethod int m S w\nrequires acc w f\nensures\nend\n\
                  class S\nfield S f\nclass S\nfield int g\nmain\nend";
    checks(&[
        (source, 6, 8),
        (&source.replace("acc w f", "acc w g"), 6, 3),
    ]);
    // An undeclared type counts by its name until its own line.
    let source = "class A\nmethod int m S w\nrequires acc w f acc w g\nensures\nBODY\nend\n\
                  class S\nfield X f\nfield X g\nfield Y h\nmain\nend";
    checks(&[
        (&source.replace("BODY", "assert eq w.f w.g"), 6, 8),
        (&source.replace("BODY", "assert eq w.f w.h"), 7, 5),
        (&source.replace("BODY", "assert eq w.f null"), 6, 8),
        (&source.replace("BODY", "assert eq w.f 1"), 7, 5),
        (&source.replace("BODY", "assert eq w.f this"), 7, 5),
    ]);
}

#[test]
fn a_reserved_word_is_no_class_also_if_declared_later() {
    let source = "class A\nmethod int m int w\nrequires\nensures\nvar int i\nBODY\nend\n\
                  class int\nmain\nend";
    checks(&[
        (&source.replace("BODY", "new i int"), 6, 6),
        (&source.replace("BODY", "let i 5"), 6, 8),
    ]);
}

#[test]
fn number_7() {
    for line in [
        "let a null",
        "let a s",
        "let s 1",
        "let s a",
        "let a s.prev",
        "let s s.n",
        "let t s.n",
        "set s n s",
        "set s prev a",
        "set a n a",
        "new a S",
        "assert eq a null",
        "assert ne 1 null",
        "assert eq s 0",
        "assert eq s.prev 1",
        "assert eq s.n null",
        "assert acc a n",
        "let a a.n",
        "let a a.zzz",
        "call a a m a",
        "call a b zzz a",
        "if eq s 1\nelse\njoin",
        "if ne 1 1\nelse\njoin eq s a",
        "release eq s a",
    ] {
        let at = if line.starts_with("if ne") { 11 } else { 9 };
        assert_eq!(check(&script(&main_with(line))), (7, at), "{line}");
    }
    let two = |line: &str| {
        format!(
            "class C\nmethod C m D w\nrequires\nensures\nBODY\nend\nclass D\nmain\nvar C c\n\
             var C e\nvar D d\nvar int i\n{line}\nend"
        )
        .replace("BODY\n", "return this\n")
    };
    checks(&[
        (&two("new c D"), 7, 13),
        (&two("let c d"), 7, 13),
        (&two("assert eq c d"), 7, 13),
        (&two("assert eq c e ne d d eq null null"), 13, 13),
        (&two("call e c m d"), 13, 13),
        (&two("call e c m e"), 7, 13),
        (&two("call e c m i"), 7, 13),
        (&two("call d c m d"), 7, 13),
        (&two("call i c m d"), 7, 13),
        (&two("call d d m d"), 6, 13),
        (&two("let i 1").replace("return this", "return w"), 7, 5),
        (
            &two("let i 1").replace("return this", "return result"),
            0,
            0,
        ),
    ]);
}

#[test]
fn number_9() {
    let method = |line: &str| {
        let lines = format!("requires ne this null\nensures\nvar S x\nvar S y\n{line}\nend");
        method_with("method S m S w", &lines)
    };
    for line in [
        "let this null",
        "let w null",
        "let result null",
        "let w w",
        "let this this",
        "new this S",
        "new w S",
        "new result S",
        "call this x m y",
        "call w x m y",
        "call result x m y",
        "call x x m y",
        "call x y m x",
        "call x x m x",
    ] {
        assert_eq!(check(&script(&method(line))), (9, 9), "{line}");
    }
    // A field of `this` may be set, `return` may give back `result`, and `let`
    // may read what it assigns.
    checks(&[
        (&method("let x x"), 0, 0),
        (&method("return result"), 0, 0),
        (&method("return this"), 0, 0),
        (&method("call x this m this"), 0, 0),
        (&method("set this prev w"), 12, 9),
    ]);
}

#[test]
fn the_lowest_of_6_7_and_9_on_a_line() {
    let method = |line: &str| {
        let lines = format!("requires ne this null\nensures\nvar S x\nvar int i\n{line}\nend");
        method_with("method S m S w", &lines)
    };
    checks(&[
        (&method("let this 5"), 7, 9),
        (&method("let this z"), 6, 9),
        (&method("let i null"), 7, 9),
        (&method("new this Z"), 6, 9),
        (&method("call x x m i"), 7, 9),
        (&method("call x x z i"), 6, 9),
        (&method("call i i m z"), 6, 9),
        (&method("call i i m i"), 7, 9),
        (&method("assert eq x 1 eq z z"), 6, 9),
        (&method("assert eq x 1 acc x z"), 6, 9),
        // Line by line: 9 on an earlier line comes before 6 on a later one.
        (&method("let this null\nlet z z"), 9, 9),
        (&method("let x 1\nlet z z"), 7, 9),
    ]);
}

/// W1: the rows of `add` and `sub`.
#[test]
fn add_and_sub() {
    for (line, number) in [
        ("add a b", 4),
        ("add a b 1", 4),
        ("sub a b a.n", 4),
        ("add a b null", 6),
        ("sub this a b", 6),
        ("add s a b", 7),
        ("sub a s b", 7),
        ("sub a b t", 7),
        ("add a a a", 0),
        ("sub a b b", 0),
    ] {
        let expected = if number == 0 { (0, 0) } else { (number, 9) };
        assert_eq!(check(&script(&main_with(line))), expected, "{line}");
    }
    let in_method = |line: &str| {
        let lines = format!("requires\nensures\nvar int i\n{line}\nend");
        check(&script(&method_with("method int m int w", &lines)))
    };
    assert_eq!(in_method("add i w result"), (0, 0));
    assert_eq!(in_method("add w i i"), (9, 8));
    assert_eq!(in_method("sub result i i"), (9, 8));
    // Both 7 and 9 hold: the lower.
    assert_eq!(in_method("add this i i"), (7, 8));
    assert_eq!(in_method("add w this i"), (7, 8));
}
