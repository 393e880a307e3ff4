//! The numbers that the calls return, as the table of document 01 has them, with
//! those of document 02.

/// Check: accepted. Run: main's `end` done.
pub const DONE: u32 = 0;
/// A lent area of wrong length.
pub const AREA: u32 = 1;

/// Why a text is refused, has no bound or is not filled in, or why four are not run;
/// the value is the number.
#[derive(Clone, Copy, Debug, PartialEq, Eq, PartialOrd, Ord, Hash)]
pub enum Reason {
    /// Text too long.
    TooLong = 2,
    /// A byte other than tab, LF, 33 to 126; or a last line without LF.
    Byte = 3,
    /// Unknown word, wrong count or form of fields, line out of place.
    Form = 4,
    /// A limit of the text passed.
    Limit = 5,
    /// Name undeclared, not allowed there, reserved or declared twice.
    Name = 6,
    /// Wrong type.
    Type = 7,
    /// Text ends before main's `end`.
    Unfinished = 8,
    /// `this`, w or `result` assigned; or `call x` with x the same name as y or z.
    Assigned = 9,
    /// `requires`, `ensures`, `join` or `loop` reads `x.f` with no `acc x f`, or
    /// `read x f` (W8), that serves it.
    Unframed = 10,
    /// A path that does not resolve.
    Unresolved = 11,
    /// A permission not shown.
    NoPermission = 12,
    /// An `eq` or `ne`, its paths resolved, not shown.
    NotShown = 13,
    /// State full.
    StateFull = 14,
    /// A `loop`, or a `call` that can lead back to the method that it is in (W6).
    Unbounded = 15,
    /// Main's bound passes 1,000,000 (W6).
    BoundPassed = 16,
    /// No set of `acc` atoms for the star is accepted (W11).
    Unfilled = 17,
    /// No star, or a second one (W11).
    Stars = 18,
    /// No scripts, more than four, or shares that are 0 or sum above 256 (W12).
    Shares = 19,
}

impl Reason {
    pub const fn number(self) -> u32 {
        self as u32
    }
}

pub const TOO_LONG: u32 = Reason::TooLong.number();
pub const BYTE: u32 = Reason::Byte.number();
pub const FORM: u32 = Reason::Form.number();
pub const LIMIT: u32 = Reason::Limit.number();
pub const NAME: u32 = Reason::Name.number();
pub const TYPE: u32 = Reason::Type.number();
pub const UNFINISHED: u32 = Reason::Unfinished.number();
pub const ASSIGNED: u32 = Reason::Assigned.number();
pub const UNFRAMED: u32 = Reason::Unframed.number();
pub const UNRESOLVED: u32 = Reason::Unresolved.number();
pub const NO_PERMISSION: u32 = Reason::NoPermission.number();
pub const NOT_SHOWN: u32 = Reason::NotShown.number();
pub const STATE_FULL: u32 = Reason::StateFull.number();
pub const UNBOUNDED: u32 = Reason::Unbounded.number();
pub const BOUND_PASSED: u32 = Reason::BoundPassed.number();
pub const UNFILLED: u32 = Reason::Unfilled.number();
pub const STARS: u32 = Reason::Stars.number();
pub const SHARES: u32 = Reason::Shares.number();

/// Allowed steps taken, main's `end` not done: no step is stopped by it.
pub const OUT_OF_STEPS: u32 = 21;

/// Why a step is stopped; the value is the number.
#[derive(Clone, Copy, Debug, PartialEq, Eq, PartialOrd, Ord, Hash)]
pub enum Stop {
    /// Heap full.
    HeapFull = 22,
    /// Frames full.
    FramesFull = 23,
    /// Permission missing.
    PermissionMissing = 24,
    /// Null followed.
    NullFollowed = 25,
    /// Formula false.
    FormulaFalse = 26,
    /// A sum or difference beyond 32 bits signed (W1).
    Overflow = 27,
}

impl Stop {
    pub const fn number(self) -> u32 {
        self as u32
    }
}

pub const HEAP_FULL: u32 = Stop::HeapFull.number();
pub const FRAMES_FULL: u32 = Stop::FramesFull.number();
pub const PERMISSION_MISSING: u32 = Stop::PermissionMissing.number();
pub const NULL_FOLLOWED: u32 = Stop::NullFollowed.number();
pub const FORMULA_FALSE: u32 = Stop::FormulaFalse.number();
pub const OVERFLOW: u32 = Stop::Overflow.number();

/// A text refused: why, and the line that the table gives.
#[derive(Clone, Copy, Debug, PartialEq, Eq)]
pub struct Refusal {
    pub reason: Reason,
    pub line: u32,
}

impl Refusal {
    pub const fn number(self) -> u32 {
        self.reason.number()
    }
}
