//! Up to four scripts over one heap: what became of each, or why none was run.

use crate::limits::{COUNT_BYTES, RESULTS_BYTES, SCRIPTS, SCRIPT_BYTES};
use crate::numbers::known;
use crate::{explain, AcceptedEnding, NotCounted, Outcome, Refusal, Returned};
use core::fmt;

/// A script of a count: its text, and its share of the heap.
#[derive(Clone, Copy, Debug, PartialEq, Eq, Hash)]
#[non_exhaustive]
pub struct Share<'t> {
    /// The text.
    pub text: &'t [u8],
    /// The most objects that it makes, at least 1; it has
    /// [`FIELDS_EACH`](crate::limits::FIELDS_EACH) fields for each.
    pub objects: u32,
}

impl<'t> Share<'t> {
    /// A text with a share of so many objects.
    pub const fn new(text: &'t [u8], objects: u32) -> Share<'t> {
        Share { text, objects }
    }
}

/// The texts and shares as the call takes them: those past the count are empty.
pub(crate) fn apart<'t>(scripts: &[Share<'t>]) -> ([&'t [u8]; SCRIPTS], [u32; SCRIPTS]) {
    let (mut texts, mut shares) = ([&b""[..]; SCRIPTS], [0; SCRIPTS]);
    for (at, script) in scripts.iter().enumerate().take(SCRIPTS) {
        (texts[at], shares[at]) = (script.text, script.objects);
    }
    (texts, shares)
}

/// What became of the scripts of a count.
#[derive(Clone, Copy, PartialEq, Eq, Hash)]
pub struct Counted<'t> {
    texts: [&'t [u8]; SCRIPTS],
    scripts: usize,
    results: [u8; COUNT_BYTES],
}

impl<'t> Counted<'t> {
    /// What count returned, the scripts, and what it left in the results area; none
    /// for a number that it does not return.
    pub(crate) fn of(
        returned: Returned,
        scripts: &[Share<'t>],
        results: &[u8; COUNT_BYTES],
    ) -> Option<Result<Counted<'t>, NotCounted>> {
        if let Some(none) = NotCounted::of(returned.number()) {
            return Some(Err(none));
        }
        let (texts, _) = apart(scripts);
        let counted = Counted {
            texts,
            scripts: scripts.len().min(SCRIPTS),
            results: *results,
        };
        (returned.number() == 0).then_some(Ok(counted))
    }

    /// What became of each script, in order: refused as by check, or run to an
    /// [`AcceptedEnding`] as [`run`](crate::Station::run) does it alone, with its share
    /// for the heap and the rounds as steps.
    pub fn scripts(&self) -> impl Iterator<Item = Result<Outcome<'t, AcceptedEnding>, Refusal>> {
        let Counted { texts, results, .. } = *self;
        (0..self.scripts).map(move |at| script(texts[at], &results[at * SCRIPT_BYTES..]))
    }
}

/// What stands at the start of some bytes: what run returned, then its results.
fn script<'t>(text: &'t [u8], bytes: &[u8]) -> Result<Outcome<'t, AcceptedEnding>, Refusal> {
    let (mut word, mut results) = ([0; 4], [0; RESULTS_BYTES]);
    let (first, rest) = bytes.split_at(word.len());
    word.copy_from_slice(first);
    results.copy_from_slice(&rest[..RESULTS_BYTES]);
    let returned = Returned::of(u32::from_le_bytes(word));
    match returned.refusal() {
        Some(refusal) => Err(refusal),
        None => {
            let number = returned.number();
            let ending = known(AcceptedEnding::of(number), number);
            Ok(Outcome::of(returned, ending, text, &results))
        }
    }
}

impl fmt::Debug for Counted<'_> {
    fn fmt(&self, f: &mut fmt::Formatter<'_>) -> fmt::Result {
        f.debug_list().entries(self.scripts()).finish()
    }
}

impl fmt::Display for NotCounted {
    fn fmt(&self, f: &mut fmt::Formatter<'_>) -> fmt::Result {
        explain::words(f, self.number())
    }
}

impl core::error::Error for NotCounted {}
