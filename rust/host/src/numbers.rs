//! The numbers that the calls return, as types. A new number is a case here, a
//! row of [`EXPLANATIONS`](crate::EXPLANATIONS) and a name in the C header.

/// An enum whose cases are numbers: every case listed, and found by its number.
macro_rules! numbered {
    ($(#[$about:meta])* $name:ident { $($(#[$case_about:meta])* $case:ident = $number:literal,)* }) => {
        $(#[$about])*
        #[derive(Clone, Copy, Debug, PartialEq, Eq, Hash, PartialOrd, Ord)]
        #[non_exhaustive]
        pub enum $name {
            $($(#[$case_about])* $case = $number,)*
        }

        impl $name {
            /// Every case, in the order of their numbers.
            pub const ALL: &'static [$name] = &[$($name::$case),*];

            /// The case of a number, if it has one.
            pub fn of(number: u32) -> Option<$name> {
                $name::ALL.iter().copied().find(|case| case.number() == number)
            }

            /// Its number.
            pub const fn number(self) -> u32 {
                self as u32
            }
        }
    };
}

numbered! {
    /// The reasons for which a text is refused.
    Kind {
        /// 2: the text is longer than [`TEXT_BYTES`](crate::limits::TEXT_BYTES).
        TextTooLong = 2,
        /// 3: a byte other than tab, LF, 33 to 126, or a last line without LF.
        Byte = 3,
        /// 4: an unknown word, a wrong count or form of fields, a line out of place.
        Form = 4,
        /// 5: a limit of the text is passed.
        Limit = 5,
        /// 6: a name that is undeclared, not allowed there, reserved or declared twice.
        Name = 6,
        /// 7: a wrong type.
        Type = 7,
        /// 8: the text ends before main's `end`.
        Unfinished = 8,
        /// 9: an assigned variable that must not be.
        Assigned = 9,
        /// 10: a contract, `join` or `loop` reads a path without its `acc` or `read`.
        Unframed = 10,
        /// 11: a path that does not resolve.
        Unresolved = 11,
        /// 12: a permission that is not shown.
        NoPermission = 12,
        /// 13: an `eq` or `ne` that is not shown.
        NotShown = 13,
        /// 14: the checker's state is full.
        StateFull = 14,
    }
}

numbered! {
    /// The reasons for which a text that check accepts has no bound.
    Excess {
        /// 15: a `loop`, or a `call` that can lead back to its own method.
        Unbounded = 15,
        /// 16: the bound is above [`BOUND`](crate::limits::BOUND).
        BoundPassed = 16,
    }
}

numbered! {
    /// The reasons for which no set is given for a `requires *`, of a text that the
    /// reader takes.
    Lack {
        /// 17: with no set of at most [`FILLED`](crate::limits::FILLED) permissions is
        /// the text accepted.
        Unfilled = 17,
        /// 18: there is no `requires *`, or a second one.
        Stars = 18,
    }
}

numbered! {
    /// The reason for which no script of a count is run.
    NotCounted {
        /// 19: there is no script, there are more than
        /// [`SCRIPTS`](crate::limits::SCRIPTS), a share is 0, or the shares are above
        /// [`OBJECTS`](crate::limits::OBJECTS) together.
        Shares = 19,
    }
}

numbered! {
    /// Why the machine stopped before main's `end` was done.
    Stop {
        /// 21: the allowed steps are taken.
        OutOfSteps = 21,
        /// 22: no room for a further object.
        HeapFull = 22,
        /// 23: no room for a further frame.
        FramesFull = 23,
        /// 24: a permission is missing.
        PermissionMissing = 24,
        /// 25: null was followed.
        NullFollowed = 25,
        /// 26: an `eq` or `ne` was false, or a chain was a ring.
        FormulaFalse = 26,
        /// 27: a sum or difference beyond 32 bits signed.
        Overflow = 27,
    }
}

numbered! {
    /// The stops that an accepted text may meet. That it meets no other, and
    /// that run returns no other for any text, are theorems about the library
    /// (`one-claim-returned`, `run-returns-never-stuck`).
    AcceptedStop {
        /// 21: the allowed steps are taken.
        OutOfSteps = 21,
        /// 22: no room for a further object.
        HeapFull = 22,
        /// 23: no room for a further frame.
        FramesFull = 23,
        /// 27: a sum or difference beyond 32 bits signed.
        Overflow = 27,
    }
}

impl From<AcceptedStop> for Stop {
    fn from(stop: AcceptedStop) -> Stop {
        known(Stop::of(stop.number()), stop.number())
    }
}

/// A returned number as a case. The library returns none that has no case: that
/// would be a library of another version than this crate, and no answer can be
/// made of it.
pub(crate) fn known<T>(case: Option<T>, number: u32) -> T {
    match case {
        Some(case) => case,
        None => panic!("number {number}: the library is not of this crate's version"),
    }
}
