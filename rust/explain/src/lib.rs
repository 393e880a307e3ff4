//! What is to be said of a catalogue script beyond numbers and lines: the cause of
//! a refusal or a stop and a fix that was tried, what the checker knows at a line, each
//! step of a run, the cards as a table or a picture, the calls that a bound comes
//! from, what a `requires *` stands for, what becomes of the scripts of a count, and a
//! text in its form; for people, and as
//! JSON.
//!
//! ```
//! use explain::{Asked, Model, Report};
//! let text = b"main\nvar\tint\ta\nlet\tb\t7\nend\n";
//! let report = Report::of(&mut Model, "a.script", text, Asked::Check);
//! assert_eq!(report.refusal.map(|refusal| refusal.line()), Some(3));
//! assert!(report.cause.unwrap().text.contains("`b`"));
//! ```
//!
//! Numbers, lines, steps and values are those of who [`Answers`]: the proved
//! library with the feature `library`, else the model. All other words come from
//! the model, and are left out where it answers otherwise.

#![forbid(unsafe_code)]
#![deny(missing_docs)]

pub mod all;
mod answers;
pub mod bound;
pub mod cards;
pub mod cause;
pub mod chains;
pub mod counting;
pub mod draw;
pub mod filling;
pub mod fix;
pub mod fmt;
#[cfg(test)]
mod hostile;
pub mod json;
pub mod known;
mod moves;
pub mod nearest;
pub mod objects;
pub mod report;
mod rounds;
pub mod routes;
pub mod script;
mod second;
pub mod show;
pub mod trace;
pub mod warn;

pub use answers::{Answers, Model};
pub use bound::Bounded;
pub use cause::Cause;
pub use counting::Counting;
pub use filling::Filling;
pub use json::Json;
pub use report::{Asked, Report};
