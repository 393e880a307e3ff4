//! Every kind of line and of atom: its word, its operands and what follows.

/// What an operand of a line is.
#[derive(Clone, Copy, Debug, PartialEq, Eq)]
pub enum Operand {
    /// `int` or the name of a class.
    Type,
    /// A name that the line declares, or that of a class, field or method.
    Name,
    /// A variable.
    Variable,
    /// A number, `null`, a variable or a path.
    Expression,
}

/// What follows a line's operands.
#[derive(Clone, Copy, Debug, PartialEq, Eq)]
pub enum Tail {
    Nothing,
    /// 0 to 8 atoms.
    Formula,
    /// One `eq` or `ne`.
    Condition,
    /// One `eq` or `ne`, and 0 to 8 atoms after it.
    Loop,
}

/// A kind of line: its word, its operands with the letters that stand for them,
/// and what follows.
#[derive(Clone, Copy, Debug, PartialEq, Eq)]
pub struct Shape {
    pub word: &'static str,
    pub operands: &'static [(&'static str, Operand)],
    pub tail: Tail,
    /// A line of this kind, for trying where it may stand.
    pub(crate) sample: &'static str,
}

const fn shape(
    word: &'static str,
    operands: &'static [(&'static str, Operand)],
    tail: Tail,
    sample: &'static str,
) -> Shape {
    Shape {
        word,
        operands,
        tail,
        sample,
    }
}

use Operand::{Expression, Name, Type, Variable};

/// Every kind of line, in the paper's order.
pub const SHAPES: &[Shape] = &[
    shape("class", &[("C", Name)], Tail::Nothing, "class\tC"),
    shape(
        "field",
        &[("T", Type), ("f", Name)],
        Tail::Nothing,
        "field\tint\tf",
    ),
    shape(
        "method",
        &[("T", Type), ("m", Name), ("T", Type), ("w", Name)],
        Tail::Nothing,
        "method\tint\tm\tint\tw",
    ),
    shape("requires", &[], Tail::Formula, "requires"),
    shape("ensures", &[], Tail::Formula, "ensures"),
    shape("main", &[], Tail::Nothing, "main"),
    shape(
        "var",
        &[("T", Type), ("x", Name)],
        Tail::Nothing,
        "var\tint\tx",
    ),
    shape(
        "set",
        &[("x", Variable), ("f", Name), ("y", Variable)],
        Tail::Nothing,
        "set\tx\tf\ty",
    ),
    shape(
        "let",
        &[("x", Variable), ("e", Expression)],
        Tail::Nothing,
        "let\tx\t0",
    ),
    shape(
        "add",
        &[("x", Variable), ("y", Variable), ("z", Variable)],
        Tail::Nothing,
        "add\tx\ty\tz",
    ),
    shape(
        "sub",
        &[("x", Variable), ("y", Variable), ("z", Variable)],
        Tail::Nothing,
        "sub\tx\ty\tz",
    ),
    shape(
        "new",
        &[("x", Variable), ("C", Name)],
        Tail::Nothing,
        "new\tx\tC",
    ),
    shape(
        "call",
        &[
            ("x", Variable),
            ("y", Variable),
            ("m", Name),
            ("z", Variable),
        ],
        Tail::Nothing,
        "call\tx\ty\tm\tz",
    ),
    shape(
        "open",
        &[("y", Variable), ("x", Variable), ("f", Name)],
        Tail::Nothing,
        "open\ty\tx\tf",
    ),
    shape(
        "shut",
        &[("x", Variable), ("f", Name)],
        Tail::Nothing,
        "shut\tx\tf",
    ),
    shape("return", &[("x", Variable)], Tail::Nothing, "return\tx"),
    shape("assert", &[], Tail::Formula, "assert"),
    shape("release", &[], Tail::Formula, "release"),
    shape("if", &[], Tail::Condition, "if\teq\t0\t0"),
    shape("else", &[], Tail::Nothing, "else"),
    shape("join", &[], Tail::Formula, "join"),
    shape("loop", &[], Tail::Loop, "loop\teq\t0\t0"),
    shape("again", &[], Tail::Nothing, "again"),
    shape("end", &[], Tail::Nothing, "end"),
];

/// A kind of atom: its word and its two operands.
pub struct AtomShape {
    pub word: &'static str,
    pub operands: [(&'static str, Operand); 2],
    /// May it stand after `if` or `loop`?
    pub condition: bool,
}

/// Every kind of atom.
pub const ATOM_SHAPES: &[AtomShape] = &[
    AtomShape {
        word: "acc",
        operands: [("x", Variable), ("f", Name)],
        condition: false,
    },
    AtomShape {
        word: "read",
        operands: [("x", Variable), ("f", Name)],
        condition: false,
    },
    AtomShape {
        word: "chain",
        operands: [("x", Variable), ("f", Name)],
        condition: false,
    },
    AtomShape {
        word: "eq",
        operands: [("e", Expression), ("e", Expression)],
        condition: true,
    },
    AtomShape {
        word: "ne",
        operands: [("e", Expression), ("e", Expression)],
        condition: true,
    },
];
