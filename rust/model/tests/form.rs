//! The form of a line, field by field, is the reader's.

use model::form::Operand::{Expression, Name, Variable};
use model::form::{fault, fields, Fault, Malformed};

/// A line has no fault exactly if the reader takes its form.
#[test]
fn faults_are_those_of_the_reader() {
    let (mut formed, mut faulty) = (0, 0);
    for seed in 0..3_000 {
        let text = generator::text(0x7000_0000 + seed);
        for line in text.split(|&byte| byte == b'\n') {
            let found = fault(line);
            let taken = model::text::line(line).is_some();
            let shown = String::from_utf8_lossy(line);
            assert_eq!(found.is_none(), taken, "{found:?} {shown}");
            match found {
                None => formed += 1,
                Some((at, _)) => {
                    faulty += 1;
                    assert!(at <= fields(line).len());
                }
            }
        }
    }
    assert!(formed > 50_000 && faulty > 1_000, "{formed} {faulty}");
}

const REASONS: [(&str, usize, Fault); 24] = [
    ("", 0, Fault::EmptyLine),
    ("feild int a", 0, Fault::UnknownWord),
    ("let a", 2, Fault::Missing("e", Expression)),
    ("end x", 1, Fault::Extra),
    (
        "set c tag 7",
        3,
        Fault::Field(Variable, Malformed::NumberForName),
    ),
    (
        "call r c.p m k",
        2,
        Fault::Field(Variable, Malformed::PathForName),
    ),
    (
        "let a b.c.d",
        2,
        Fault::Field(Expression, Malformed::LongPath),
    ),
    (
        "let a 007",
        2,
        Fault::Field(Expression, Malformed::LeadingZero),
    ),
    (
        "let a -0",
        2,
        Fault::Field(Expression, Malformed::MinusZero),
    ),
    (
        "let a 2147483648",
        2,
        Fault::Field(Expression, Malformed::OutOfRange),
    ),
    ("let a +1", 2, Fault::Field(Expression, Malformed::PlusSign)),
    (
        "let a \"s\"",
        2,
        Fault::Field(Expression, Malformed::Character(0)),
    ),
    (
        "class abcdefghijklm",
        1,
        Fault::Field(Name, Malformed::TooLong),
    ),
    ("class 7up", 1, Fault::Field(Name, Malformed::FirstDigit)),
    ("var int  a", 2, Fault::Field(Name, Malformed::Empty)),
    ("assert eq a", 1, Fault::ShortAtom),
    ("assert and a b", 1, Fault::UnknownAtom),
    ("if acc x f", 1, Fault::NoCondition),
    ("if eq 1 1 ne 1 1", 4, Fault::Extra),
    ("loop", 1, Fault::NoCondition),
    ("loop acc x f eq 1 1", 1, Fault::NoCondition),
    ("loop eq 1", 1, Fault::ShortAtom),
    ("loop eq 1 1 acc x", 4, Fault::ShortAtom),
    ("again x", 1, Fault::Extra),
];

#[test]
fn one_reason_each() {
    for (line, at, expected) in REASONS {
        let text = line.replace(' ', "\t");
        assert_eq!(fault(text.as_bytes()), Some((at, expected)), "{line}");
    }
    let nine = format!("assert{}", "\teq\t1\t1".repeat(9));
    assert_eq!(fault(nine.as_bytes()), Some((25, Fault::NinthAtom)));
    // A condition and eight atoms.
    let nine = nine.replace("assert", "loop");
    assert_eq!(fault(nine.as_bytes()), None);
    let ten = format!("{nine}\teq\t1\t1");
    assert_eq!(fault(ten.as_bytes()), Some((28, Fault::NinthAtom)));
}
