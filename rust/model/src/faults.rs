//! Why a line has number 6, 7 or 9: an observation point of the names.

use crate::names::{Kind, Type};
use crate::number::{Reason, Refusal};
use crate::text::{self, reserved, Name};

/// What a name stands for, where the line looks it up.
#[derive(Clone, Copy, Debug, PartialEq, Eq)]
#[non_exhaustive]
pub enum Role<'a> {
    Variable,
    Class,
    /// A field of this class.
    Field(Name<'a>),
    /// A method of this class.
    Method(Name<'a>),
}

/// Which two types must agree.
#[derive(Clone, Copy, Debug, PartialEq, Eq)]
#[non_exhaustive]
pub enum Sides {
    /// The sides of an `eq` or `ne`.
    Atom,
    /// A variable and its new value.
    Let,
    /// A field and its new value.
    Set,
    /// A method's parameter and the argument.
    Argument,
    /// The variable that takes a call's result, and the method's result.
    Result,
    /// A method's result and what is returned.
    Return,
    /// A variable and the class of its new object.
    New,
    /// The variable of an `open` and the field whose value it takes.
    Open,
}

/// Why a line has number 6, 7 or 9.
#[derive(Clone, Copy, Debug, PartialEq, Eq)]
#[non_exhaustive]
pub enum Fault<'a> {
    Undeclared(Name<'a>, Role<'a>),
    Reserved(Name<'a>),
    Twice(Name<'a>),
    /// Two types that do not fit; the sides as they stand in the line.
    Mismatch {
        sides: Sides,
        left: (text::Expr<'a>, Kind<'a>),
        right: (text::Expr<'a>, Kind<'a>),
    },
    /// An int variable before a field or method.
    NoObject(Name<'a>),
    /// An object variable in an `add` or `sub`.
    NoInt(Name<'a>),
    /// The field of a chain, of an `open` or of a `shut`, whose type is not the
    /// class of the variable before it: x, f and the field's type.
    NoLink(Name<'a>, Name<'a>, Type<'a>),
    /// `this`, w or `result` assigned.
    Assigned(Name<'a>),
    /// The x of a call is also its y or z, or the y of an `open` its x.
    Same(Name<'a>),
}

/// A refusal with its fault, and the place of its atom on the line from 0; the
/// condition of a `loop` is the first.
#[derive(Clone, Copy, Debug, PartialEq, Eq)]
pub struct Noted<'a> {
    pub refusal: Refusal,
    pub fault: Fault<'a>,
    pub atom: usize,
}

/// The lowest number noted on a line: "for two on one line the lower", with the
/// first fault of that number and the place of its atom.
#[derive(Debug, Default)]
pub struct Faults<'a> {
    pub lowest: Option<(Reason, Fault<'a>, usize)>,
    /// The atom that is looked at.
    pub(crate) atom: usize,
}

impl<'a> Faults<'a> {
    pub(crate) fn note(&mut self, reason: Reason, fault: Fault<'a>) {
        if self.lowest.is_none_or(|(lowest, ..)| reason < lowest) {
            self.lowest = Some((reason, fault, self.atom));
        }
    }

    pub(crate) fn note_if(&mut self, holds: bool, reason: Reason, fault: Fault<'a>) {
        if holds {
            self.note(reason, fault);
        }
    }

    /// A name declared here is not reserved and not declared before.
    pub(crate) fn declared(&mut self, name: Name<'a>, twice: bool) {
        self.note_if(reserved(name), Reason::Name, Fault::Reserved(name));
        self.note_if(twice, Reason::Name, Fault::Twice(name));
    }
}
