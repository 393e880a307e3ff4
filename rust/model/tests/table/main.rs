//! Each row of the table, and the order of tests where two rows hold.

mod areas;
#[path = "../common/mod.rs"]
mod common;
mod naming;
mod reading;
mod rules;
mod running;

use common::S;

/// A class `S` with its two fields and a method with these lines after its
/// `method` line, which is line 4.
pub fn method_with(method: &str, lines: &str) -> String {
    format!("{S}{method}\n{lines}\nmain\nend")
}

/// The papers' numbers, with what stands for each in the model.
#[test]
fn numbers() {
    use model::number::Reason::*;
    use model::number::Stop::*;
    let refused = [
        TooLong,
        Byte,
        Form,
        Limit,
        Name,
        Type,
        Unfinished,
        Assigned,
        Unframed,
        Unresolved,
        NoPermission,
        NotShown,
        StateFull,
        Unbounded,
        BoundPassed,
        Unfilled,
        Stars,
        Shares,
    ];
    assert!(refused.map(|reason| reason.number()).into_iter().eq(2..=19));
    let stopped = [
        HeapFull,
        FramesFull,
        PermissionMissing,
        NullFollowed,
        FormulaFalse,
        Overflow,
    ];
    assert!(stopped.map(|stop| stop.number()).into_iter().eq(22..=27));
}
