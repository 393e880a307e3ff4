//! What a call returns, taken apart.

use crate::limits::{BOUNDS_BYTES, COUNT_BYTES, PLACES_BYTES, RESULTS_BYTES};
use crate::{Bound, Counted, Ending, Filled, Kind, NoBound, NotCounted, NotFilled, Outcome};
use crate::{Refusal, Share};
use core::fmt;

/// What a call returns: number × 65,536 + line.
///
/// ```
/// let returned = nuyardi::Returned::of(13 * 65_536 + 2);
/// assert_eq!((returned.number(), returned.line()), (13, 2));
/// assert_eq!(returned.refusal().map(|refusal| refusal.kind()), Some(nuyardi::Kind::NotShown));
/// assert_eq!(nuyardi::Returned::of(0).refusal(), None);
/// ```
#[derive(Clone, Copy, PartialEq, Eq, Hash)]
pub struct Returned(u32);

/// The word counts so many for each number: lines stand below it.
const NUMBER: u32 = 65_536;

impl Returned {
    /// The word that a call returned.
    pub const fn of(word: u32) -> Returned {
        Returned(word)
    }

    /// The word itself.
    pub const fn word(self) -> u32 {
        self.0
    }

    /// The number.
    pub const fn number(self) -> u32 {
        self.0 / NUMBER
    }

    /// The line, from 1; 0 where there is none.
    pub const fn line(self) -> u32 {
        self.0 % NUMBER
    }

    /// The refusal, if it is one.
    pub fn refusal(self) -> Option<Refusal> {
        Kind::of(self.number()).map(|kind| Refusal::new(kind, self.line()))
    }

    /// How a call that runs the text ended, with what it left in the results
    /// area; none for a number that none of them returns.
    ///
    /// ```
    /// use nuyardi::{limits, Returned};
    /// let mut results = [0; limits::RESULTS_BYTES];
    /// (results[0], results[4]) = (2, 7);
    /// let text = b"main\nvar\tint\ta\nlet\ta\t7\nend\n";
    /// let outcome = Returned::of(4).outcome(text, &results).unwrap();
    /// assert_eq!(outcome.to_string(), "finished at line 4 after 2 steps");
    /// assert_eq!(outcome.variable("a").unwrap().value, nuyardi::Value::Int(7));
    /// ```
    pub fn outcome<'t>(self, text: &'t [u8], results: &[u8; RESULTS_BYTES]) -> Option<Outcome<'t>> {
        let ending = Ending::of(self.number())?;
        Some(Outcome::of(self, ending, text, results))
    }

    /// The bound, with what the call left in the bounds area; none for a number
    /// that bound does not return.
    ///
    /// ```
    /// let bounds = [2, 0, 0, 0, 1, 0, 0, 0];
    /// let bound = nuyardi::Returned::of(0).bound(&bounds).unwrap().unwrap();
    /// assert_eq!((bound.steps, bound.frames), (2, 1));
    /// ```
    pub fn bound(self, bounds: &[u8; BOUNDS_BYTES]) -> Option<Result<Bound, NoBound>> {
        Bound::of(self, bounds)
    }

    /// The `requires` line that is filled in, with what the call left in the places
    /// area; none for a number that fill does not return.
    ///
    /// ```
    /// let text = b"class\tS\nfield\tint\tn\nmethod\tint\tm\tint\tk\nrequires\t*\n\
    ///     ensures\nset\tthis\tn\tk\nend\nmain\nend\n";
    /// let filled = nuyardi::Returned::of(0).filled(text, &[1, 0, 0, 0]).unwrap().unwrap();
    /// assert_eq!(filled.to_string(), "requires\tacc\tthis\tn");
    /// ```
    pub fn filled<'t>(
        self,
        text: &'t [u8],
        places: &[u8; PLACES_BYTES],
    ) -> Option<Result<Filled<'t>, NotFilled>> {
        Filled::of(self, text, places)
    }

    /// What became of the scripts of a count, with what the call left in the results
    /// area; none for a number that count does not return.
    ///
    /// ```
    /// use nuyardi::{limits, Returned, Share};
    /// let mut results = [0; limits::COUNT_BYTES];
    /// (results[0], results[4]) = (2, 1);
    /// let scripts = [Share::new(b"main\nend\n", 256)];
    /// let counted = Returned::of(0).counted(&scripts, &results).unwrap().unwrap();
    /// let outcome = counted.scripts().next().unwrap().unwrap();
    /// assert_eq!(outcome.to_string(), "finished at line 2 after 1 step");
    /// ```
    pub fn counted<'t>(
        self,
        scripts: &[Share<'t>],
        results: &[u8; COUNT_BYTES],
    ) -> Option<Result<Counted<'t>, NotCounted>> {
        Counted::of(self, scripts, results)
    }
}

impl fmt::Debug for Returned {
    fn fmt(&self, f: &mut fmt::Formatter<'_>) -> fmt::Result {
        write!(f, "number {}, line {}", self.number(), self.line())
    }
}
