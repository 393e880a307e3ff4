//! Why a text is refused, and where.

use crate::{explain, Kind};
use core::fmt;

/// A refused text: the kind of its fault, the line, and what they mean.
#[derive(Clone, Copy, Debug, PartialEq, Eq, Hash)]
pub struct Refusal {
    kind: Kind,
    line: u32,
}

impl Refusal {
    pub(crate) fn new(kind: Kind, line: u32) -> Refusal {
        Refusal { kind, line }
    }

    /// The number.
    pub fn number(self) -> u32 {
        self.kind.number()
    }

    /// The line, from 1; 0 where the whole text is refused. For number 8 it is
    /// the last line.
    pub fn line(self) -> u32 {
        self.line
    }

    /// What the number means.
    pub fn kind(self) -> Kind {
        self.kind
    }
}

impl fmt::Display for Refusal {
    fn fmt(&self, f: &mut fmt::Formatter<'_>) -> fmt::Result {
        explain::words_at(f, self.line, self.number())
    }
}

impl core::error::Error for Refusal {}
