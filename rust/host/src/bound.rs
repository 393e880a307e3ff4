//! What a run can take at most, known before it, or why no bound is given.

use crate::limits::BOUNDS_BYTES;
use crate::{explain, Excess, Refusal, Returned};
use core::fmt;

/// What a run can take at most. No run of the text passes it, and one that is
/// allowed so many steps never stops for want of steps.
#[derive(Clone, Copy, Debug, PartialEq, Eq, Hash)]
#[non_exhaustive]
pub struct Bound {
    /// The steps.
    pub steps: u32,
    /// The frames that are open at a time, main's counted. A run that needs more
    /// than [`FRAMES`](crate::limits::FRAMES) stops there.
    pub frames: u32,
}

/// Why a text has no bound.
#[derive(Clone, Copy, Debug, PartialEq, Eq, Hash)]
#[non_exhaustive]
pub enum NoBound {
    /// Check refuses the text.
    Refused(Refusal),
    /// Check accepts the text: it may run, as long as steps are allowed.
    Accepted {
        /// Why there is no bound.
        excess: Excess,
        /// The first line that is the reason; 0 for [`Excess::BoundPassed`].
        line: u32,
    },
}

impl Bound {
    /// What bound returned, and what it left in the bounds area; none for a number
    /// that it does not return.
    pub(crate) fn of(
        returned: Returned,
        bounds: &[u8; BOUNDS_BYTES],
    ) -> Option<Result<Bound, NoBound>> {
        let line = returned.line();
        if let Some(excess) = Excess::of(returned.number()) {
            return Some(Err(NoBound::Accepted { excess, line }));
        }
        if let Some(refusal) = returned.refusal() {
            return Some(Err(NoBound::Refused(refusal)));
        }
        let [a, b, c, d, e, f, g, h] = *bounds;
        let bound = Bound {
            steps: u32::from_le_bytes([a, b, c, d]),
            frames: u32::from_le_bytes([e, f, g, h]),
        };
        (returned.number() == 0).then_some(Ok(bound))
    }
}

impl NoBound {
    /// The number.
    pub fn number(self) -> u32 {
        match self {
            NoBound::Refused(refusal) => refusal.number(),
            NoBound::Accepted { excess, .. } => excess.number(),
        }
    }

    /// The line, from 1; 0 where the whole text is meant.
    pub fn line(self) -> u32 {
        match self {
            NoBound::Refused(refusal) => refusal.line(),
            NoBound::Accepted { line, .. } => line,
        }
    }
}

impl fmt::Display for Bound {
    fn fmt(&self, f: &mut fmt::Formatter<'_>) -> fmt::Result {
        let some = |count| if count == 1 { "" } else { "s" };
        let Bound { steps, frames } = *self;
        write!(f, "at most {steps} step{}, ", some(steps))?;
        write!(f, "{frames} frame{}", some(frames))
    }
}

impl fmt::Display for NoBound {
    fn fmt(&self, f: &mut fmt::Formatter<'_>) -> fmt::Result {
        explain::words_at(f, self.line(), self.number())
    }
}

impl core::error::Error for NoBound {}

impl From<Refusal> for NoBound {
    fn from(refusal: Refusal) -> NoBound {
        NoBound::Refused(refusal)
    }
}
