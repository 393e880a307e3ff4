//! Fixes of a refused text, each tried before it is told: a fix either makes the
//! text accepted, or removes the refusal and leads to a later one.

mod chains;
mod draft;
pub mod edit;
mod fields;
mod form;
mod lines;
mod names;
mod rules;
mod stars;

use crate::script::Script;
use draft::{Candidate, Draft};
use edit::{applied, changes, Change};

pub use stars::{filled_instead, quickly_tried, with_set, without_stars, STAR};

use model::number;
use model::watch::{Purpose, Record};

/// What check says of a text: number and line, zeros if it is accepted.
pub type Answer = (u32, u32);

/// A fix that was tried.
#[derive(Clone, Debug, PartialEq, Eq)]
pub struct Fix {
    /// What it does, a step each.
    pub steps: Vec<String>,
    /// The text afterwards.
    pub text: Vec<u8>,
    /// Check's answer to that text.
    pub answer: Answer,
}

impl Fix {
    /// Is the text accepted afterwards?
    pub fn accepted(&self) -> bool {
        self.answer.0 == number::DONE
    }

    /// The changes of the text.
    pub fn changes(&self, text: &[u8]) -> Vec<Change> {
        changes(text, &self.text)
    }

    /// What the fix does, and what check says afterwards.
    pub fn said(&self) -> String {
        let steps = self.steps.join("; then ");
        match self.answer {
            (number::DONE, _) => format!("{steps}; the script is then accepted"),
            (number, 0) => format!("{steps}; the text then gets number {number}"),
            (number, line) => format!("{steps}; then line {line} gets number {number}"),
        }
    }
}

/// How far the check of a text comes: the later, the greater. Lines are counted
/// from the end, since a fix may insert some.
pub(crate) type Standing = (u32, i64);

pub(crate) fn standing(text: &[u8], answer: Answer, after: u32) -> Standing {
    let stage = match answer.0 {
        number::DONE => return (9, 0),
        number::TOO_LONG => 0,
        number::BYTE | number::FORM | number::LIMIT => 1,
        number::UNFINISHED => 2,
        number::NAME | number::TYPE | number::ASSIGNED => 3,
        number::UNFRAMED => 4,
        _ => 5,
    };
    let lines = text.iter().filter(|&&byte| byte == b'\n').count() as i64;
    let line = match answer.1 {
        0 => lines,
        line => i64::from(line),
    };
    (stage, line - lines + i64::from(after))
}

/// How far the rules come on the refused line itself: which formula is asked, its
/// first atom that is not shown, and whether the paths of that resolve.
type Detail = (u32, usize, bool);

fn detail(text: &[u8], answer: Answer) -> Detail {
    let rule = matches!(
        answer.0,
        number::UNRESOLVED | number::NO_PERMISSION | number::NOT_SHOWN
    );
    let script = Script::of(text).filter(|_| rule);
    let record = script.and_then(|script| Record::of(&script.lines, &script.program));
    let Some(asked) = record.and_then(|record| record.asked) else {
        return (0, 0, false);
    };
    let formula = match asked.purpose {
        Purpose::Receiver | Purpose::FirstEnd => 1,
        Purpose::Shut if asked.read.is_some() => 0,
        Purpose::Shut if asked.rest.is_some() => 1,
        Purpose::Open if answer.0 == number::NOT_SHOWN => 1,
        _ => 2,
    };
    let resolved = answer.0 == number::NOT_SHOWN;
    (formula, asked.unshown().unwrap_or(0), resolved)
}

/// How much is tried: the bytes of all texts that are checked.
#[derive(Clone, Copy, Debug)]
pub struct Effort {
    /// The bytes.
    pub bytes: usize,
    /// The steps of a fix, one after the other.
    pub depth: usize,
    /// The texts that are followed at each step.
    pub width: usize,
}

/// For a message: one step.
pub const ONE_STEP: Effort = Effort {
    bytes: 2_000_000,
    depth: 1,
    width: 1,
};

/// For `station fix`: the whole way.
pub const WHOLE: Effort = Effort {
    bytes: 60_000_000,
    depth: 14,
    width: 8,
};

/// A text on the way to a fix.
struct Try {
    text: Vec<u8>,
    answer: Answer,
    steps: Vec<String>,
    standing: (Standing, Detail),
}

impl Try {
    fn fix(self) -> Fix {
        Fix {
            steps: self.steps,
            text: self.text,
            answer: self.answer,
        }
    }
}

/// The possible fixes of a refusal.
fn candidates(text: &[u8], answer: Answer) -> Vec<Candidate> {
    let (refused, line) = answer;
    if refused == number::BYTE {
        return form::reformatted(text).into_iter().collect();
    }
    let draft = Draft::of(text);
    if refused == number::UNFINISHED {
        return form::unfinished(&draft);
    }
    let Some(at) = (line as usize)
        .checked_sub(1)
        .filter(|&at| at < draft.lines.len())
    else {
        return Vec::new();
    };
    match refused {
        number::FORM => form::candidates(text, &draft, at),
        number::NAME | number::TYPE | number::ASSIGNED => names::candidates(text, &draft, at),
        number::UNFRAMED => names::framed(text, &draft, at),
        number::UNRESOLVED | number::NO_PERMISSION | number::NOT_SHOWN => {
            rules::candidates(text, &draft)
        }
        _ => Vec::new(),
    }
}

/// The texts that come further than one text by one step, the first that is
/// accepted alone.
fn further(one: &Try, left: &mut usize) -> Vec<Try> {
    let mut found: Vec<Try> = Vec::new();
    for candidate in candidates(&one.text, one.answer) {
        let text = applied(&one.text, &candidate.edits);
        if text == one.text || text.len() > model::limits::TEXT_BYTES {
            continue;
        }
        if *left < text.len() {
            break;
        }
        *left -= text.len();
        let answer = model::check(&text);
        let coarse = standing(&text, answer, candidate.after);
        if coarse < one.standing.0 || found.iter().any(|known| known.text == text) {
            continue;
        }
        let standing = (coarse, detail(&text, answer));
        if standing <= one.standing {
            continue;
        }
        let mut steps = one.steps.clone();
        steps.push(candidate.words);
        let tried = Try {
            text,
            answer,
            steps,
            standing,
        };
        if answer.0 == number::DONE {
            return vec![tried];
        }
        found.push(tried);
    }
    found
}

/// The nearest fix of a text: accepted if one is found, else the one that comes
/// furthest; none for a text that is accepted or that nothing helps.
pub fn fix(text: &[u8], effort: Effort) -> Option<Fix> {
    let answer = model::check(text);
    if answer.0 == number::DONE {
        return None;
    }
    let mut left = effort.bytes;
    let start = Try {
        text: text.to_vec(),
        answer,
        steps: Vec::new(),
        standing: (standing(text, answer, 0), detail(text, answer)),
    };
    let mut front = vec![start];
    let mut best: Option<Try> = None;
    for _ in 0..effort.depth {
        let mut next: Vec<Try> = Vec::new();
        for one in &front {
            let found = further(one, &mut left);
            let accepted = found.iter().any(|found| found.answer.0 == number::DONE);
            if accepted {
                return found.into_iter().next().map(Try::fix);
            }
            let known = |found: &Try| next.iter().any(|known: &Try| known.text == found.text);
            let fresh: Vec<Try> = found.into_iter().filter(|found| !known(found)).collect();
            next.extend(fresh);
        }
        next.sort_by_key(|found| std::cmp::Reverse(found.standing));
        next.truncate(effort.width);
        let Some(first) = next.first() else { break };
        if best
            .as_ref()
            .is_none_or(|best| best.standing < first.standing)
        {
            best = Some(Try {
                text: first.text.clone(),
                answer: first.answer,
                steps: first.steps.clone(),
                standing: first.standing,
            });
        }
        front = next;
    }
    best.map(Try::fix)
}
