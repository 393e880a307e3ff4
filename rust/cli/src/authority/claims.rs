//! What a report rests on: theorems with their files, and what is assumed, with
//! its place in `docs/ASSURANCE.md`.

/// A theorem, and the file that proves it.
#[derive(Debug, PartialEq, Eq)]
pub struct Theorem {
    pub name: &'static str,
    pub file: &'static str,
}

/// The claim: run refuses as check does, or its calls keep what they were not
/// handed and it never ends with 24, 25 or 26.
pub const EVERY_RUN: Theorem = Theorem {
    name: "every-run-returned",
    file: "crates/station/proofs/Demand3.antt",
};

/// Run never returns 24, 25 or 26.
pub const NEVER_STUCK: Theorem = Theorem {
    name: "run-returns-never-stuck",
    file: "crates/station/proofs/Demand3.antt",
};

/// The calls of a trial keep what they were not handed.
pub const TRIAL: Theorem = Theorem {
    name: "trial-returned",
    file: "crates/station/proofs/Demand3.antt",
};

/// No run's count of steps passes the bound; with so many steps none ends with 21.
pub const BOUND: Theorem = Theorem {
    name: "bound-kept",
    file: "crates/station/proofs/Promises.antt",
};

/// No state of a run has more frames than bound says.
pub const FRAMES: Theorem = Theorem {
    name: "frames-enough",
    file: "crates/bound_runs/proofs/Promises.antt",
};

/// Where bound says at most as many frames as there are, no run ends with 23.
pub const FRAMES_FIT: Theorem = Theorem {
    name: "frames-fit",
    file: "crates/bound_runs/proofs/Promises.antt",
};

/// A text that is read is refused with 10 to 14, at one of its lines.
pub const AT_A_LINE: Theorem = Theorem {
    name: "returns-at-a-line",
    file: "crates/station/proofs/Refusals.antt",
};

/// A method does the same, whatever stands in fields that it was not handed: of
/// each text that the reader takes, so of trials too.
pub const UNSEEN: Theorem = Theorem {
    name: "not-handed-not-seen",
    file: "crates/unseen/proofs/SameParts.antt",
};

/// What a method does is a function of its arguments and of what it is handed.
pub const FUNCTION: Theorem = Theorem {
    name: "function-of-handed",
    file: "crates/unseen/proofs/Handed.antt",
};

/// Every theorem that a report names.
#[cfg(test)]
pub const THEOREMS: [&Theorem; 9] = [
    &EVERY_RUN,
    &NEVER_STUCK,
    &TRIAL,
    &BOUND,
    &FRAMES,
    &FRAMES_FIT,
    &AT_A_LINE,
    &UNSEEN,
    &FUNCTION,
];

/// The part of these claims on what a call keeps, in their words.
pub const FRAME_KEPT: &str = "FrameKept";
/// The part on the halves of a field that all frames hold together.
pub const HALVES_KEPT: &str = "HalvesKept";
/// The parts on who holds a chain, and on who is handed one.
pub const CHAINS: [&str; 2] = ["ChainsEnd", "ChainsHanded"];

/// Something that is assumed, and the anchor of its place.
pub struct Assumed {
    pub what: &'static str,
    pub anchor: &'static str,
}

impl Assumed {
    pub fn link(&self) -> String {
        format!("docs/ASSURANCE.md#{}", self.anchor)
    }
}

pub const ASSUMED: [Assumed; 5] = [
    Assumed {
        what: "The kit's logic and prover are right; the sum above says which they are.",
        anchor: "assumed-logic",
    },
    Assumed {
        what: "The definitions say what the papers say, and the papers what the stations want.",
        anchor: "assumed-definitions",
    },
    Assumed {
        what: "A run starts without cards: nothing is said of cards that come from elsewhere.",
        anchor: "assumed-cards",
    },
    Assumed {
        what: "The host lends areas by the header's rules; compiler, linker and machine are right.",
        anchor: "assumed-machine",
    },
    Assumed {
        what: "This command is tested, not proved. Numbers, lines, steps and bounds are the \
               library's; what is read off the text comes from the plain model.",
        anchor: "assumed-command",
    },
];

#[cfg(test)]
mod tests {
    use super::{ASSUMED, CHAINS, FRAME_KEPT, HALVES_KEPT, THEOREMS};
    use std::path::Path;

    fn read(path: &str) -> String {
        let root = Path::new(env!("CARGO_MANIFEST_DIR")).join("../..");
        std::fs::read_to_string(root.join(path)).unwrap_or_else(|error| panic!("{path}: {error}"))
    }

    /// Each theorem stands in its file, and the assurance names it with that file.
    #[test]
    fn theorems_are_there() {
        let page = read("docs/ASSURANCE.md");
        for theorem in THEOREMS {
            let text = read(theorem.file);
            let states = format!("{} : ", theorem.name);
            let stated = |line: &str| line.trim_start_matches("pub ").starts_with(&states);
            assert!(text.lines().any(stated), "{theorem:?}");
            let named = format!("`{}`", theorem.name);
            assert!(
                page.contains(&named) && page.contains(theorem.file),
                "{theorem:?}"
            );
        }
    }

    /// The parts stand in the words of the claims, where the assurance says.
    #[test]
    fn parts_are_there() {
        let page = read("docs/ASSURANCE.md");
        let words = "crates/rules/specs/Runs.antt";
        for part in [FRAME_KEPT, HALVES_KEPT, CHAINS[0], CHAINS[1]] {
            assert!(
                read(words).contains(&format!("abbrev pub {part} : ")),
                "{part}"
            );
            assert!(
                page.contains(&format!("`{part}`")) && page.contains(words),
                "{part}"
            );
        }
    }

    /// Each link leads to a place of the assurance, once.
    #[test]
    fn links_lead_somewhere() {
        let page = read("docs/ASSURANCE.md");
        for assumed in &ASSUMED {
            let id = format!("<a id=\"{}\"></a>", assumed.anchor);
            assert_eq!(page.matches(&id).count(), 1, "{}", assumed.anchor);
        }
    }
}
