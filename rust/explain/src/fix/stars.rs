//! The line `requires *`: the permissions that it stands for, as a fix, and the text
//! with a set of them in its place.

use super::draft::{replace, shown, Candidate, Draft};
use super::Fix;
use crate::Answers;
use model::number;
use nuyardi::limits::{FILLED, PLACES_BYTES};
use nuyardi::{Filled, Returned};

/// The line that is to be filled in.
pub const STAR: &str = "requires\t*";

/// The text with a bare `requires` in the place of each star: its lines are the
/// same, and have the same numbers.
pub fn without_stars(text: &[u8]) -> Vec<u8> {
    let lines = text.split(|&byte| byte == b'\n');
    let bare = lines.map(|line| match line == STAR.as_bytes() {
        true => &b"requires"[..],
        false => line,
    });
    bare.collect::<Vec<_>>().join(&b'\n')
}

/// A text with one star, and a set of places from 1, rising.
pub fn with_set<'t>(text: &'t [u8], set: &[u8]) -> Option<Filled<'t>> {
    let mut places = [0; PLACES_BYTES];
    places.get_mut(..set.len())?.copy_from_slice(set);
    Returned::of(number::DONE).filled(text, &places)?.ok()
}

/// Sets are tried on the way to a message as long as all their texts have no more
/// bytes than this; `station fill` tries them all.
const TRIED_BYTES: usize = 10_000_000;

/// How many sets of so many places there are of all.
fn chosen(all: usize, size: usize) -> usize {
    (0..size).fold(1, |sets, at| sets * all.saturating_sub(at) / (at + 1))
}

/// May all sets of a text with a star be tried on the way to a message?
pub fn quickly_tried(text: &[u8]) -> bool {
    let places = with_set(text, &[]).map_or(0, |filled| filled.choice().count());
    let sets: usize = (0..=FILLED).map(|size| chosen(places, size)).sum();
    sets * text.len() <= TRIED_BYTES
}

/// Number 4 of a line `requires *`: the line as fill gives it.
pub fn candidate(text: &[u8], draft: &Draft, at: usize) -> Option<Candidate> {
    if draft.lines[at].join("\t") != STAR || !quickly_tried(text) {
        return None;
    }
    let found = model::fill(text);
    let filled = with_set(text, &found.places).filter(|_| found.number == number::DONE)?;
    Some(Candidate {
        words: words(&filled),
        ..replace(at, &filled.to_string())
    })
}

fn words(filled: &Filled) -> String {
    let line = shown(&filled.to_string());
    format!("fill in line {}: `{line}`", filled.line())
}

/// The line of the `requires` of the method that a line is in, from 1.
fn requires_of(draft: &Draft, line: u32) -> Option<usize> {
    let (first, _) = draft.block((line as usize).checked_sub(1)?)?;
    let found = draft.word(first) == "method" && draft.word(first + 1) == "requires";
    found.then_some(first + 1)
}

/// The method that a line is in, with the permissions that fill gives in the place of
/// all that its `requires` has: a fix that is accepted, and says so; none where the
/// line is in main, where fill gives no set, or the one that stands there.
pub fn filled_instead(answers: &mut impl Answers, text: &[u8], line: u32) -> Option<Fix> {
    let at = requires_of(&Draft::of(text), line)?;
    let starred = super::applied(text, &replace(at, STAR).edits);
    let filled = quickly_tried(&starred)
        .then(|| answers.fill(&starred))?
        .ok()?;
    let fixed = filled.text();
    (fixed != text && answers.check(&fixed).is_ok()).then(|| Fix {
        steps: vec![words(&filled)],
        text: fixed,
        answer: (number::DONE, 0),
    })
}

#[cfg(test)]
mod tests {
    use super::*;

    #[test]
    fn numbers_of_sets() {
        let sets = |all| (0..=FILLED).map(|size| chosen(all, size)).sum::<usize>();
        assert_eq!([0, 1, 2, 4, 6, 16].map(sets), [1, 2, 4, 16, 57, 2_517]);
    }

    /// A text with a star, eight fields of each class, and so many lines.
    fn starred(lines: usize) -> Vec<u8> {
        let fields: String = (0..8).map(|at| format!("field int f{at}\n")).collect();
        let asserted = "assert eq 1 1 eq 2 2\n".repeat(lines);
        let head = "method int m S w\nrequires *\nensures\n";
        let text = format!("class S\n{fields}{head}{asserted}end\nmain\nend\n");
        text.replace(' ', "\t").into_bytes()
    }

    /// A text that would take long is not filled in on the way to a message.
    #[test]
    fn no_long_wait() {
        let fixed = |text: &[u8]| super::super::fix(text, super::super::ONE_STEP);
        let said = |text: &[u8]| fixed(text).map(|fix| fix.steps.concat());
        let (short, long) = (starred(9), starred(250));
        assert!(quickly_tried(&short) && !quickly_tried(&long));
        let filled = "fill in line 11: `requires`".to_string();
        assert_eq!(said(&short), Some(filled.clone()));
        assert_ne!(said(&long), Some(filled));
    }
}
