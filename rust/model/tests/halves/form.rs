//! W8.1 and W8.2: the atom's form and names, and number 10.

use crate::common::{checks, script, S};
use crate::{mains, method, methods};
use model::form::{fault, Fault, Malformed, Operand, ATOM_SHAPES};
use model::framing::unframed_in;
use model::text::{self, Atom, Line, Share};
use model::{check, trial};

#[test]
fn an_atom_of_every_formula() {
    let held = "read this n";
    let whole = method(
        held,
        held,
        &format!(
            "assert {held}\nloop ne i 0 {held}\nlet i 0\nagain\nif eq i 0\nelse\njoin {held}\n\
             release eq i i"
        ),
    );
    checks(&[(&whole, 0, 0)]);
    mains(&[("new s S\nrelease read s n", 0, 0)]);
    // Eight atoms are the most, and so are eight behind the condition of a loop.
    let eight = " read s n".repeat(8);
    mains(&[
        (&format!("new s S\nassert{eight}"), 12, 10),
        (&format!("new s S\nassert{eight} read s n"), 4, 10),
        (&format!("new s S\nloop ne a a{eight}\nagain"), 12, 10),
        (
            &format!("new s S\nloop ne a a{eight} read s n\nagain"),
            4,
            10,
        ),
    ]);
    let line = text::line(b"assert\tread\ts\tn\tacc\ts\tn");
    let expected = vec![
        Atom::Permission(Share::Read, b"s", b"n"),
        Atom::Permission(Share::Acc, b"s", b"n"),
    ];
    assert_eq!(line, Some(Line::Assert(expected)));
}

#[test]
fn form_and_names_are_those_of_acc() {
    let cases = [
        ("X s", 4),
        ("X s n n", 4),
        ("X s.n n", 4),
        ("X 1 n", 4),
        ("X s 1", 4),
        ("X null.n n", 4),
        ("X s zz", 6),
        ("X zz n", 6),
        ("X null n", 6),
        ("X this n", 6),
        ("X s this", 6),
        ("X a n", 7),
        ("X a null", 6),
    ];
    for share in Share::ALL {
        for (atom, number) in cases {
            let atom = atom.replace('X', share.word());
            for line in ["assert X", "release eq a a X", "loop eq a b X\nagain"] {
                let line = line.replace('X', &atom);
                mains(&[(&line, number, 9)]);
            }
        }
    }
    mains(&[("assert Read s n", 4, 9), ("assert reads s n", 4, 9)]);
    // A contract names no local; `result` is one of ensures alone.
    methods(&[("read x n", "assert", 6, 5)]);
    methods(&[("read result n", "assert", 6, 5)]);
    checks(&[(&method("", "read result n", "assert"), 7, 6)]);
}

#[test]
fn no_condition() {
    mains(&[
        ("if read s n\nelse\njoin", 4, 9),
        ("loop read s n\nagain", 4, 9),
        ("loop read s n eq a b\nagain", 4, 9),
    ]);
    for line in ["if\tread\ts\tn", "loop\tread\ts\tn"] {
        assert_eq!(fault(line.as_bytes()), Some((1, Fault::NoCondition)));
    }
    let shape = ATOM_SHAPES.iter().find(|shape| shape.word == "read");
    assert!(!shape.expect("a shape").condition);
}

/// The reasons are those of `acc`.
#[test]
fn faults_of_the_form() {
    let number = Fault::Field(Operand::Variable, Malformed::NumberForName);
    let path = Fault::Field(Operand::Variable, Malformed::PathForName);
    for (line, expected) in [
        ("assert read s", Some((1, Fault::ShortAtom))),
        ("assert read 1 n", Some((2, number))),
        ("assert read s.n n", Some((2, path))),
        ("assert Read s n", Some((1, Fault::UnknownAtom))),
        ("assert read s n", None),
    ] {
        let line = line.replace(' ', "\t");
        assert_eq!(fault(line.as_bytes()), expected, "{line}");
    }
}

/// `read` is not reserved, and neither is `acc`.
#[test]
fn a_name() {
    let source = "class read\nfield int read\nmain\nvar read read\nnew read read\n\
                  assert read read read acc read read\nend";
    assert_eq!(check(&script(source)), (12, 6));
    let source = source.replace(" acc read read", "");
    assert_eq!(check(&script(&source)), (0, 0));
    assert_eq!(trial(&script(&source), 9).steps, 3);
}

#[test]
fn number_10_is_served() {
    let contract = |formula: &str, number: u32, line: u32| {
        let source =
            format!("{S}method int m S w\nrequires {formula}\nensures {formula}\nend\nmain\nend");
        checks(&[(&source, number, line)]);
    };
    contract("read this n eq this.n 0", 0, 0);
    contract("read this n read w n eq this.n w.n", 0, 0);
    contract("eq this.n 0 read this n", 10, 5);
    contract("read w n eq this w eq this.n 0", 10, 5);
    contract("read this prev eq this.n 0", 10, 5);
    mains(&[
        ("new s S\nif eq 1 1\nelse\njoin read s n eq s.n 0", 0, 0),
        ("new s S\nif eq 1 1\nelse\njoin eq s.n 0 read s n", 10, 12),
        ("new s S\nloop ne s.n 0 read s n\nagain", 0, 0),
        ("new s S\nloop ne s.n 0 read s prev\nagain", 10, 10),
        ("new s S\nloop ne a 0 eq s.n 0 read s n\nagain", 10, 10),
        ("new s S\nloop ne a 0 read s n eq s.n 0\nagain", 0, 0),
    ]);
    let bytes = b"join\tread\ts\tn\teq\ts.n\tt.n";
    let line = text::line(bytes).expect("a line");
    assert_eq!(unframed_in(&line), Some((1, &b"t"[..], &b"n"[..])));
}
