//! W9.1 and W9.2: form, names and types, number 9, and number 10.

use crate::common::{checks, script};
use crate::{mains, method, methods};
use model::faults::{Fault, Sides};
use model::form::{self, fault, Malformed, Operand, ATOM_SHAPES};
use model::framing::unframed_in;
use model::names::{resolve_noted, Type};
use model::text::{self, Atom, Line, Share};
use model::{check, trial};

#[test]
fn an_atom_of_every_formula() {
    let held = "chain this p";
    let whole = method(
        held,
        held,
        &format!(
            "assert {held}\nloop ne i 0 {held}\nlet i 0\nagain\nif eq i 0\nelse\njoin {held}\n\
             release {held}\nassert eq i i\nlet x null\nshut x p\nreturn i"
        ),
    );
    // All but the last two lines: `shut` wants a path, and `release` let the chain go.
    checks(&[(&whole, 12, 25)]);
    let whole = method(
        held,
        held,
        &format!("assert {held}\nloop ne i 0 {held}\nlet i 0\nagain\nif eq i 0\nelse\njoin {held}"),
    );
    checks(&[(&whole, 0, 0)]);
    let eight = " chain s p".repeat(8);
    mains(&[
        ("let s null\nrelease chain s p", 0, 0),
        (&format!("let s null\nassert{eight}"), 0, 0),
        (&format!("let s null\nassert{eight} chain s p"), 4, 15),
        (&format!("let s null\nloop ne a a{eight}\nagain"), 0, 0),
        (
            &format!("let s null\nloop ne a a{eight} chain s p\nagain"),
            4,
            15,
        ),
    ]);
    let line = text::line(b"assert\tchain\ts\tp");
    let expected = vec![Atom::Permission(Share::Chain, b"s", b"p")];
    assert_eq!(line, Some(Line::Assert(expected)));
}

#[test]
fn no_condition() {
    mains(&[
        ("if chain s p\nelse\njoin", 4, 14),
        ("loop chain s p\nagain", 4, 14),
        ("loop chain s p eq a a\nagain", 4, 14),
    ]);
    let shape = ATOM_SHAPES.iter().find(|shape| shape.word == "chain");
    assert!(!shape.expect("a shape").condition);
}

/// Form and names as `acc x f`; "f a field with x's class as its type (else 7)".
#[test]
fn names_and_types_of_the_atom() {
    let cases = [
        ("chain s p", 12),
        ("chain s q", 12),
        ("chain k p", 12),
        ("chain s n", 7),
        ("chain s t", 7),
        ("chain a p", 7),
        ("chain s zz", 6),
        ("chain zz p", 6),
        ("chain null p", 6),
        ("chain this p", 6),
        ("chain s null", 6),
        ("chain a null", 6),
        ("chain s", 4),
        ("chain s p p", 4),
        ("chain s.p p", 4),
        ("chain 1 p", 4),
        ("chain s 1", 4),
        ("Chain s p", 4),
        ("chains s p", 4),
    ];
    for (atom, number) in cases {
        mains(&[(&format!("assert {atom}"), number, 14)]);
        mains(&[(&format!("release eq a a {atom}"), number, 14)]);
        mains(&[(&format!("loop eq a a {atom}\nagain"), number, 14)]);
    }
    methods(&[
        ("chain w p chain this q", "assert", 0, 0),
        ("chain x p", "assert", 6, 9),
        ("chain result p", "assert", 6, 9),
        ("chain this t", "assert", 7, 9),
    ]);
    checks(&[(&method("", "chain result p", "assert"), 7, 10)]);
}

#[test]
fn names_and_types_of_shut() {
    let cases = [
        ("shut s p", 12),
        ("shut k p", 12),
        ("shut s n", 7),
        ("shut s t", 7),
        ("shut a p", 7),
        ("shut s zz", 6),
        ("shut zz p", 6),
        ("shut null p", 6),
        ("shut this p", 6),
        ("shut s", 4),
        ("shut s p p", 4),
        ("shut s.p p", 4),
        ("shut s.p", 4),
    ];
    for (line, number) in cases {
        mains(&[(line, number, 14)]);
    }
}

#[test]
fn names_and_types_of_open() {
    let cases = [
        ("open t s p", 13),
        ("open t s q", 13),
        ("open k k p", 9),
        ("open t s n", 7),
        ("open t s t", 7),
        // y of f's type, where f is no link, and y of another class.
        ("open k s t", 7),
        ("open k s p", 7),
        ("open a s p", 7),
        ("open t a p", 7),
        ("open s s p", 9),
        // 7 and 9: the lower.
        ("open s s n", 7),
        ("open t s zz", 6),
        ("open t zz p", 6),
        ("open zz s p", 6),
        ("open null s p", 6),
        ("open this s p", 6),
        ("open result s p", 6),
        ("open t s null", 6),
        ("open t s", 4),
        ("open t s p p", 4),
        ("open t s.p p", 4),
        ("open 1 s p", 4),
        ("open", 4),
    ];
    for (line, number) in cases {
        mains(&[(line, number, 14)]);
    }
}

/// "Number 9 covers `open`: y may not be `this`, w, `result` or x"; x may be any.
#[test]
fn number_9() {
    let held = "chain this p chain w p ne this null ne w null";
    methods(&[
        (held, "open this w p", 9, 15),
        (held, "open w this p", 9, 15),
        (held, "open x x p", 9, 15),
        (held, "open this this p", 9, 15),
        (held, "open x this p\nopen y w p", 0, 0),
        (
            held,
            "open x this p\nshut this p\nopen x w p\nshut w p",
            0,
            0,
        ),
        // `result` is int here.
        (held, "open result this p", 7, 15),
    ]);
    let source = method(held, "", "open result this p").replace("method int m", "method S m");
    checks(&[(&source, 9, 15)]);
    // x may be `result`, of which nothing is known.
    let source = source.replace("open result this p", "open x result p");
    checks(&[(&source, 13, 15)]);
}

#[test]
fn faults_of_the_form() {
    let number = form::Fault::Field(Operand::Variable, Malformed::NumberForName);
    let path = form::Fault::Field(Operand::Variable, Malformed::PathForName);
    let name = form::Fault::Field(Operand::Name, Malformed::NumberForName);
    for (line, expected) in [
        ("assert chain s", Some((1, form::Fault::ShortAtom))),
        ("assert chain 1 p", Some((2, number))),
        ("assert chain s.p p", Some((2, path))),
        ("if chain s p", Some((1, form::Fault::NoCondition))),
        ("assert chain s p", None),
        ("open t s p", None),
        ("open 1 s p", Some((1, number))),
        ("open t s.p p", Some((2, path))),
        ("open t s 1", Some((3, name))),
        (
            "open t s",
            Some((3, form::Fault::Missing("f", Operand::Name))),
        ),
        ("open t s p p", Some((4, form::Fault::Extra))),
        ("shut s p", None),
        (
            "shut",
            Some((1, form::Fault::Missing("x", Operand::Variable))),
        ),
        ("shut s p p", Some((3, form::Fault::Extra))),
    ] {
        let line = line.replace(' ', "\t");
        assert_eq!(fault(line.as_bytes()), expected, "{line}");
    }
}

/// The noted fault of a main's first statement.
fn noted<T>(line: &str, look: impl FnOnce(Fault) -> T) -> T {
    let text = script(&crate::main_with(line));
    let lines = text::lines(&text).expect("lines");
    look(resolve_noted(&lines).expect_err("a fault").fault)
}

#[test]
fn faults_of_names_and_types() {
    let (s, n, t) = (&b"s"[..], &b"n"[..], &b"t"[..]);
    for line in ["assert chain s n", "open u s n", "shut s n"] {
        noted(line, |fault| {
            assert_eq!(fault, Fault::NoLink(s, n, Type::Int), "{line}");
        });
    }
    noted("assert chain s t", |fault| {
        assert_eq!(fault, Fault::NoLink(s, t, Type::Class(b"T")));
    });
    noted("open k s p", |fault| {
        let open = matches!(
            fault,
            Fault::Mismatch {
                sides: Sides::Open,
                ..
            }
        );
        assert!(open, "{fault:?}");
    });
    noted("open s s p", |fault| assert_eq!(fault, Fault::Same(s)));
}

/// Neither word is reserved.
#[test]
fn names() {
    let source =
        "class chain\nfield chain open\nmain\nvar chain shut\nvar chain chain\nnew shut chain\n\
                  shut shut open\nassert chain shut open\nopen chain shut open\nend";
    let text = script(source);
    assert_eq!(check(&text), (0, 0));
    assert_eq!(trial(&text, 9).steps, 5);
}

/// "a chain is no listed path": number 10.
#[test]
fn number_10_is_not_served() {
    let contract = |formula: &str, number: u32, line: u32| {
        checks(&[(&method(formula, "", "assert"), number, line)]);
        let ensured = method(formula, formula, "assert");
        checks(&[(&ensured, number, line)]);
    };
    contract("chain this p eq this.p null", 10, 9);
    contract("chain this p ne this.p w", 10, 9);
    contract("chain this p acc this p eq this.p null", 0, 0);
    contract("acc this p eq this.p w chain w p", 0, 0);
    mains(&[
        (
            "let s null\nif eq a a\nelse\njoin chain s p eq s.p null",
            10,
            17,
        ),
        ("let s null\nloop ne s.p null chain s p\nagain", 10, 15),
        ("let s null\nloop ne s null chain s p\nagain", 0, 0),
    ]);
    let line = text::line(b"join\tchain\ts\tp\teq\ts.p\tnull").expect("a line");
    assert_eq!(unframed_in(&line), Some((1, &b"s"[..], &b"p"[..])));
}

/// The lines count toward 256 and stand where other statements do.
#[test]
fn statement_lines() {
    let many = |count: usize| {
        let lines = "shut s p\nopen t s p\n".repeat(count / 2);
        script(&crate::main_with(&format!("new s S\n{}", lines.trim_end())))
    };
    assert_eq!(check(&many(254)), (0, 0));
    assert_eq!(check(&many(256)).0, 5);
    let text = script("class S\nfield S p\nopen t s p\nmain\nend");
    assert_eq!(check(&text), (4, 3));
    methods(&[("", "return i\nopen x y p", 4, 16)]);
    methods(&[("", "return i\nshut x p", 4, 16)]);
}
