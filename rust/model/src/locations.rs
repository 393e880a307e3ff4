//! Locations with the halves of each: what a frame holds, and footprints.

use crate::limits;

/// A location (object, field), as the place of the field in the heap.
pub type Location = usize;

/// So many locations have their halves in one word, two bits each.
const IN_WORD: usize = 32;
const WORDS: usize = limits::HEAP_FIELDS / IN_WORD;

/// W8: "a location now has 0, 1 or 2 halves with each frame, over all frames at
/// most 2 in sum": no sum of a caller's halves and those that come back to it
/// passes its two bits.
#[derive(Clone, Copy, Debug, Default, PartialEq, Eq)]
pub struct Locations([u64; WORDS]);

impl Locations {
    pub const NONE: Locations = Locations([0; WORDS]);

    /// How many halves of the location there are: 0, 1 or 2.
    pub fn halves(&self, location: Location) -> u8 {
        (self.0[location / IN_WORD] >> (2 * (location % IN_WORD)) & 3) as u8
    }

    /// Is there a half of it, or both?
    pub fn contains(&self, location: Location) -> bool {
        self.halves(location) > 0
    }

    pub(crate) fn add(&mut self, location: Location, halves: u8) {
        self.0[location / IN_WORD] += u64::from(halves) << (2 * (location % IN_WORD));
    }

    /// The locations of which more halves are here than in the other.
    pub fn without(&self, other: &Locations) -> Vec<Location> {
        let words = self.0.iter().zip(other.0).enumerate();
        let unlike = words.filter(|(_, (word, gone))| **word != *gone);
        let places = unlike.flat_map(|(at, _)| IN_WORD * at..IN_WORD * (at + 1));
        let more = |place: &Location| self.halves(*place) > other.halves(*place);
        places.filter(more).collect()
    }

    pub(crate) fn add_all(&mut self, other: &Locations) {
        for (word, more) in self.0.iter_mut().zip(other.0) {
            *word += more;
        }
    }

    pub(crate) fn remove_all(&mut self, other: &Locations) {
        for (word, gone) in self.0.iter_mut().zip(other.0) {
            *word -= gone;
        }
    }
}
