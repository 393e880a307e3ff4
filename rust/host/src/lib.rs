//! Check and run catalogue scripts: the safe Rust face of the proved library.
//!
//! ```
//! use nuyardi::{Station, Value};
//! let mut station = Station::new();
//! let outcome = station.run(b"main\nvar\tint\ta\nlet\ta\t7\nend\n", 1_000)?;
//! assert!(outcome.finished());
//! assert_eq!(outcome.variable("a").map(|a| a.value), Some(Value::Int(7)));
//! # Ok::<(), nuyardi::Refusal>(())
//! ```
//!
//! A refusal names a line and says what usually helps:
//!
//! ```
//! let refusal = nuyardi::check(b"main\nlet\ta\t7\nend\n").unwrap_err();
//! assert_eq!((refusal.number(), refusal.line()), (6, 2));
//! assert_eq!(refusal.kind(), nuyardi::Kind::Name);
//! assert!(refusal.to_string().starts_with("line 2: a name that is not declared"));
//! ```
//!
//! No text makes a call panic. Calls share nothing: threads with a [`Station`]
//! each may check and run at the same time. The crate has no `std`; without its
//! feature `alloc` a station's area stands where the station does, and nothing is
//! allocated. Without its feature `library` no library is linked: there are the
//! numbers, what they mean, and the limits, and no call.

#![no_std]
#![deny(missing_docs)]

#[cfg(feature = "alloc")]
extern crate alloc;

mod bound;
#[cfg(feature = "library")]
#[allow(missing_docs)]
pub mod calls;
mod counted;
mod explain;
mod filled;
pub mod limits;
mod numbers;
mod outcome;
mod refusal;
mod returned;
#[cfg(feature = "library")]
mod station;

pub use bound::{Bound, NoBound};
pub use counted::{Counted, Share};
pub use explain::{explain, Explanation, EXPLANATIONS};
pub use filled::{Filled, NotFilled, Permission};
pub use numbers::{AcceptedStop, Excess, Kind, Lack, NotCounted, Stop};
pub use outcome::{AcceptedEnding, Ending, Outcome, Value, Variable};
pub use refusal::Refusal;
pub use returned::Returned;
#[cfg(feature = "library")]
pub use station::{Accepted, OwnWork, Station};

/// Checks a text: accepted, or refused with a number and a line.
///
/// ```
/// assert!(nuyardi::check(b"main\nend\n").is_ok());
/// assert_eq!(nuyardi::check(b"main\n").unwrap_err().kind(), nuyardi::Kind::Unfinished);
/// ```
///
/// It makes areas for this call; a [`Station`] keeps its areas for the next one.
#[cfg(feature = "library")]
pub fn check(text: &[u8]) -> Result<Accepted<'_>, Refusal> {
    Station::new().check(text)
}

/// Runs a text for at most that many steps, if check accepts it; see [`Station::run`].
///
/// ```
/// let outcome = nuyardi::run(b"main\nvar\tint\ta\nlet\ta\t1\nend\n", 1_000)?;
/// assert_eq!(outcome.ending(), nuyardi::AcceptedEnding::Finished);
/// assert_eq!((outcome.line(), outcome.steps()), (4, 2));
/// # Ok::<(), nuyardi::Refusal>(())
/// ```
#[cfg(feature = "library")]
pub fn run(text: &[u8], steps: u32) -> Result<Outcome<'_, AcceptedEnding>, Refusal> {
    Station::new().run(text, steps)
}

/// What [`run`] answers, on the lean machine; see [`Station::lean`].
///
/// ```
/// let text = b"main\nvar\tint\ta\nlet\ta\t1\nend\n";
/// assert_eq!(nuyardi::lean(text, 1_000), nuyardi::run(text, 1_000));
/// assert_eq!(nuyardi::lean(text, 1_000)?.steps(), 2);
/// # Ok::<(), nuyardi::Refusal>(())
/// ```
#[cfg(feature = "library")]
pub fn lean(text: &[u8], steps: u32) -> Result<Outcome<'_, AcceptedEnding>, Refusal> {
    Station::new().lean(text, steps)
}

/// Runs a text for at most that many steps, accepted or not; see [`Station::trial`].
///
/// ```
/// let outcome = nuyardi::trial(b"main\nvar\tint\ta\nassert\teq\ta\t1\nend\n", 1_000);
/// assert_eq!(outcome.ending(), nuyardi::Ending::Stopped(nuyardi::Stop::FormulaFalse));
/// assert_eq!((outcome.line(), outcome.steps()), (3, 0));
/// ```
#[cfg(feature = "library")]
pub fn trial(text: &[u8], steps: u32) -> Outcome<'_> {
    Station::new().trial(text, steps)
}

/// The most steps and frames of a run, known before it; see [`Station::bound`].
///
/// ```
/// let bound = nuyardi::bound(b"main\nvar\tint\ta\nlet\ta\t7\nend\n")?;
/// assert_eq!((bound.steps, bound.frames), (2, 1));
/// # Ok::<(), nuyardi::NoBound>(())
/// ```
#[cfg(feature = "library")]
pub fn bound(text: &[u8]) -> Result<Bound, NoBound> {
    Station::new().bound(text)
}

/// The permissions that a line `requires *` stands for; see [`Station::fill`].
///
/// ```
/// let text = b"class\tS\nfield\tint\tn\nmethod\tint\tm\tint\tk\nrequires\t*\n\
///     ensures\nset\tthis\tn\tk\nend\nmain\nend\n";
/// assert_eq!(nuyardi::fill(text)?.to_string(), "requires\tacc\tthis\tn");
/// # Ok::<(), nuyardi::NotFilled>(())
/// ```
#[cfg(feature = "library")]
pub fn fill(text: &[u8]) -> Result<Filled<'_>, NotFilled> {
    Station::new().fill(text)
}

/// Up to four scripts over one heap, one step of each a round; see [`Station::count`].
///
/// ```
/// use nuyardi::Share;
/// let scripts = [Share::new(b"main\nend\n", 128), Share::new(b"main\n", 128)];
/// let counted = nuyardi::count(&scripts, 1_000)?;
/// let ended: Vec<bool> = counted.scripts().map(|script| script.is_ok()).collect();
/// assert_eq!(ended, [true, false]);
/// # Ok::<(), nuyardi::NotCounted>(())
/// ```
#[cfg(feature = "library")]
pub fn count<'t>(scripts: &[Share<'t>], rounds: u32) -> Result<Counted<'t>, NotCounted> {
    Station::new().count(scripts, rounds)
}
