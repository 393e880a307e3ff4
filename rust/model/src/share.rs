//! The kinds of permission. W8: "A new atom `read x f` is half a permission; a
//! location now has 0, 1 or 2 halves with each frame, over all frames at most 2 in
//! sum, and `acc` is both." W9: the atom `chain x f` is to a whole chain of them.

/// What a permission is to.
#[derive(Clone, Copy, Debug, PartialEq, Eq, PartialOrd, Ord)]
pub enum Share {
    /// One half of a location.
    Read,
    /// Both halves of it.
    Acc,
    /// Both halves of every location passed on the way from x by f to null.
    Chain,
}

impl Share {
    pub const ALL: [Share; 3] = [Share::Acc, Share::Read, Share::Chain];
    /// Those that list a path.
    pub const OF_PATHS: [Share; 2] = [Share::Acc, Share::Read];

    /// The word of its atom.
    pub fn word(self) -> &'static str {
        match self {
            Share::Read => "read",
            Share::Acc => "acc",
            Share::Chain => "chain",
        }
    }

    /// The share whose atom begins with the word.
    pub fn named(word: &[u8]) -> Option<Share> {
        let named = |share: &Share| share.word().as_bytes() == word;
        Share::ALL.into_iter().find(named)
    }

    /// The halves of each location that it is to.
    pub fn halves(self) -> u8 {
        match self {
            Share::Read => 1,
            Share::Acc | Share::Chain => 2,
        }
    }

    /// Is `x.f` itself a listed path by it? W9: a chain is none.
    pub fn lists_path(self) -> bool {
        self != Share::Chain
    }

    /// What showing a permission leaves of a listed one of this kind; none if this
    /// one does not show it. W8: "`read` is shown by the first listed, unconsumed
    /// `acc` or `read`; taken from an `acc` it leaves a `read`". A chain shows
    /// chains alone, and nothing else does.
    pub fn less(self, shown: Share) -> Option<Option<Share>> {
        match (self, shown) {
            (Share::Acc, Share::Read) => Some(Some(Share::Read)),
            _ => (self == shown).then_some(None),
        }
    }
}
