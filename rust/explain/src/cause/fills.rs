//! Why a text with a line `requires *` is not filled in: the numbers 17 and 18, and
//! those of the reader.

use super::{cause, Cause};
use crate::fix::{quickly_tried, standing, with_set, without_stars, ONE_STEP, STAR};
use crate::script::{field_range, line, quoted};
use crate::show::counted;
use nuyardi::limits::{FILLED, TEXT_BYTES};
use nuyardi::{Filled, Kind, Lack, NotFilled, Returned};

/// Why the text is not filled in, where the model agrees, and can say so soon.
pub fn fill_cause(text: &[u8], none: NotFilled) -> Option<Cause> {
    let tried = matches!(none, NotFilled::Read { lack, .. } if lack == Lack::Unfilled);
    if tried && !quickly_tried(text) {
        return None;
    }
    let found = model::fill(text);
    if (found.number, found.line) != (none.number(), none.line()) {
        return None;
    }
    match none {
        NotFilled::Refused(refusal) if refusal.kind() == Kind::TextTooLong => cause(text, refusal),
        NotFilled::Refused(refusal) => cause(&without_stars(text), refusal),
        NotFilled::Read { lack, line } => match lack {
            Lack::Stars => Some(stars(text, line)),
            Lack::Unfilled => unfilled(text, line),
            _ => None,
        },
        _ => None,
    }
}

/// The star of a line.
fn mark(text: &[u8], number: u32) -> Option<std::ops::Range<usize>> {
    field_range(line(text, number)?, 1..2)
}

/// No star, or a second one.
fn stars(text: &[u8], number: u32) -> Cause {
    if number == 0 {
        return Cause::new("no method has a line `requires *`")
            .help("write `*` in the place of the atoms of the `requires` that is to be filled in");
    }
    let lines = text.split(|&byte| byte == b'\n');
    let first = lines.take_while(|line| *line != STAR.as_bytes()).count() + 1;
    Cause::new("this is the second line to be filled in, and one may be")
        .mark(mark(text, number))
        .note(format!("the first is line {first}"))
        .help("write one of the two by hand")
}

/// The sets of at most that many places of a number of them: fewer first, then by their
/// places in order.
fn sets(places: usize, most: usize) -> Vec<Vec<u8>> {
    let mut all = vec![Vec::new()];
    let mut last = all.clone();
    for _ in 0..most {
        let longer = |set: &Vec<u8>| {
            let set = set.clone();
            let next = set.last().map_or(1, |&last| usize::from(last) + 1);
            (next..=places).map(move |place| [&set[..], &[place as u8]].concat())
        };
        last = last.iter().flat_map(longer).collect();
        all.extend(last.iter().cloned());
    }
    all
}

/// No set is accepted: how many there are, and what is said of the one that comes
/// furthest.
fn unfilled(text: &[u8], number: u32) -> Option<Cause> {
    let places = with_set(text, &[])?.choice().count();
    let sets = sets(places, FILLED);
    let said = match places {
        0 => "neither `this` nor the parameter has a field, and the text is not accepted with a \
              bare `requires`"
            .to_string(),
        _ => format!(
            "the text is accepted with none of the {} of at most {FILLED} permissions to {}",
            counted(sets.len() as u128, "set"),
            counted(places as u128, "field")
        ),
    };
    let found = Cause::new(said).mark(mark(text, number));
    Some(found.or_note(furthest(text, &sets).and_then(|filled| told(&filled))))
}

/// The set whose text comes furthest, of those that there is time to try.
fn furthest<'t>(text: &'t [u8], sets: &[Vec<u8>]) -> Option<Filled<'t>> {
    let tries = (ONE_STEP.bytes / text.len().max(1)).max(1);
    let mut best = None;
    for set in sets.iter().take(tries) {
        let filled = with_set(text, set)?;
        let fixed = filled.text();
        let standing = standing(&fixed, model::check(&fixed), 0);
        if best.as_ref().is_none_or(|(known, _)| *known < standing) {
            best = Some((standing, filled));
        }
    }
    best.map(|(_, filled)| filled)
}

/// What check says of the text that is filled in so.
fn told(filled: &Filled) -> Option<String> {
    let fixed = filled.text();
    let (number, line) = model::check(&fixed);
    let refusal = Returned::of(number << 16 | line).refusal()?;
    let why = cause(&fixed, refusal).map_or(String::new(), |cause| format!(": {}", cause.text));
    let requires = match filled.places() {
        [] => "a bare `requires`".to_string(),
        _ => format!("`{}`", quoted(&fixed, filled.line())),
    };
    let place = match fixed.len() > TEXT_BYTES {
        true => "the text".to_string(),
        false => format!("line {line}"),
    };
    Some(format!(
        "with {requires}, which comes furthest, {place} gets number {number}{why}"
    ))
}

#[cfg(test)]
mod tests {
    use super::sets;

    /// Of 16 places, as of any, every set once, in the order of the answers.
    #[test]
    fn sets_in_order() {
        assert_eq!(sets(0, 4), [Vec::<u8>::new()]);
        let two: [&[u8]; 4] = [&[], &[1], &[2], &[1, 2]];
        assert_eq!(sets(2, 4), two);
        let all = sets(16, 4);
        assert_eq!(all.len(), 1 + 16 + 120 + 560 + 1_820);
        let order = |set: &Vec<u8>| (set.len(), set.clone());
        assert!(all.windows(2).all(|two| order(&two[0]) < order(&two[1])));
    }
}
