//! Near misses of number 4: lines that have not their form, or are out of place.

use super::misses::{fields, Fields};
use super::rng::Rng;

/// The places of the lines with one of the words.
pub(super) fn places(lines: &Fields, words: &[&[u8]]) -> Vec<usize> {
    let named = |&at: &usize| words.contains(&lines[at][0].as_slice());
    (0..lines.len()).filter(named).collect()
}

/// A line after a `return` that may not stand there.
pub fn after_return(rng: &mut Rng, lines: &mut Fields) {
    let places = places(lines, &[b"return"]);
    let Some(at) = rng.choose(&places) else {
        return;
    };
    let line = match rng.chance(50) {
        true => rng.pick(lines),
        false => lines[rng.pick(&places)].clone(),
    };
    lines.insert(at + 1, line);
}

/// A `loop` or `again` that has not its form, or is out of place.
pub fn loop_form(rng: &mut Rng, lines: &mut Fields) {
    let Some(at) = rng.choose(&places(lines, &[b"loop", b"again"])) else {
        return;
    };
    let line = &mut lines[at];
    match (line[0].as_slice(), rng.below(4)) {
        // No condition, or one of another kind.
        (b"loop", 0) => line.truncate(1),
        (b"loop", 1) => line[1] = rng.pick(&["acc", "read", "chain"]).into(),
        // Nine atoms or ten.
        (b"loop", 2) => {
            let length = 1 + 3 * rng.within(9, 10);
            while line.len() < length {
                line.extend(fields("eq 1 1"));
            }
        }
        (b"again", 0) => line.push(b"eq".to_vec()),
        (b"again", 1) => line[0] = rng.pick(&["else", "join", "end"]).into(),
        (b"again", 2) => lines.insert(at, fields("again")),
        _ => drop(lines.remove(at)),
    }
}

/// W8: a `read` that is a condition, or that has not its form.
pub fn read_form(rng: &mut Rng, lines: &mut Fields) {
    let held = [&b"requires"[..], b"ensures", b"assert", b"release", b"join"];
    let conditions = places(lines, &[b"if", b"loop"]);
    let mut formulas = places(lines, &held);
    formulas.retain(|&at| lines[at].get(1).is_some_and(|word| word == b"read"));
    if let Some(at) = rng.choose(&conditions).filter(|_| rng.chance(50)) {
        lines[at].splice(1..4, fields("read this n"));
        return;
    }
    let Some(at) = rng.choose(&formulas) else {
        return;
    };
    let line = &mut lines[at];
    match rng.below(5) {
        0 => line[1] = rng.pick(&["Read", "reads", "half"]).into(),
        1 => line[2] = rng.pick(&["1", "this.n", "-1"]).into(),
        2 => line[3] = rng.pick(&["1", "n.n", ""]).into(),
        3 => drop(line.remove(3)),
        _ => line.insert(3, b"n".to_vec()),
    }
}

/// Numbers without the form of one, and those that are the last to have it.
const NUMBERS: [&str; 12] = [
    "-0",
    "00",
    "-01",
    "007",
    "+1",
    "-",
    "--1",
    "2147483648",
    "-2147483649",
    "99999999999",
    "2147483647",
    "-2147483648",
];

/// A number that may not have the form of one.
pub fn number_form(rng: &mut Rng, lines: &mut Fields) {
    if let Some(at) = rng.choose(&places(lines, &[b"let"])) {
        lines[at][2] = rng.pick(&NUMBERS).as_bytes().to_vec();
    }
}
