//! W11: texts with a `requires` line to be filled in. A plan has a method that
//! wants some of its places (`wanted`); other texts get a star on one of their
//! methods; near misses have no star, a second one, or one that is out of place.

use super::limits::TEXT_BYTES;
use super::mutate::{fields_of, mutated, text_from};
use super::program::joined;
use super::recipes::push;
use super::rng::Rng;
use super::wanted::plan;
use super::{text_of, Kind};

/// A text for fill: most have an answer, some have each of its numbers.
pub fn starred(rng: &mut Rng) -> Vec<u8> {
    let text = match rng.below(400) {
        0 => return long(rng),
        1..=279 => plan(rng),
        _ => starred_text(rng),
    };
    match rng.below(100) {
        0..=11 => near_miss(rng, &text),
        12..=19 => mutated(rng, &text),
        _ => text,
    }
}

/// A text of another kind, one of whose methods gets the star.
fn starred_text(rng: &mut Rng) -> Vec<u8> {
    let kind = match rng.below(10) {
        0..=4 => Kind::Accepted,
        5..=7 => Kind::Miss(rng.within(3, 14) as u32),
        8 => Kind::Wild,
        _ => Kind::Recipe,
    };
    let text = text_of(rng, kind);
    with_star(rng, &text)
}

type Lines = Vec<Vec<Vec<u8>>>;

fn line(source: &str) -> Vec<Vec<u8>> {
    let fields = source.split(' ').map(str::as_bytes);
    fields.map(<[u8]>::to_vec).collect()
}

/// The text with a star on one of its methods, if it has any.
fn with_star(rng: &mut Rng, text: &[u8]) -> Vec<u8> {
    let mut lines = fields_of(text);
    let requires = |at: &usize| lines[*at][0] == b"requires";
    let methods: Vec<usize> = (0..lines.len()).filter(requires).collect();
    if let Some(at) = rng.choose(&methods) {
        lines[at] = line("requires *");
    }
    text_from(&lines)
}

/// A text with a star too many or too few, or with one out of place.
fn near_miss(rng: &mut Rng, text: &[u8]) -> Vec<u8> {
    let mut lines = fields_of(text);
    let is_star = |fields: &Vec<Vec<u8>>| *fields == line("requires *");
    let Some(star) = lines.iter().position(is_star) else {
        return with_star(rng, text);
    };
    match rng.below(9) {
        0..=2 => return with_star(rng, text),
        3 => lines[star].truncate(1),
        4 => {
            let more = ["acc this n", "*", "eq 1 1", "acc"];
            lines[star].extend(line(rng.pick(&more)));
        }
        5 => lines[star].insert(1, rng.pick(&["acc", "this", "", "**"]).into()),
        6 => lines[star][1] = rng.pick(&["**", "", "acc", "-", "*."]).into(),
        7 => {
            let copy = lines[star].clone();
            lines.insert(rng.below(lines.len()), copy);
        }
        _ => put_star(rng, &mut lines),
    }
    text_from(&lines)
}

/// A star in the place of a field of some line, or after its last.
fn put_star(rng: &mut Rng, lines: &mut Lines) {
    let at = rng.below(lines.len());
    let place = rng.below(lines[at].len());
    match rng.chance(50) {
        true => lines[at][place] = b"*".to_vec(),
        false => lines[at].push(b"*".to_vec()),
    }
}

/// A text of the most bytes, one more or a few less; filled in it has more. Its
/// method wants some of its places, and main has lines to fill it up.
fn long(rng: &mut Rng) -> Vec<u8> {
    let wanted = rng.within(1, 4);
    let mut lines = Vec::new();
    push(
        &mut lines,
        "class S\nfield int a\nfield int b\nfield int c\nfield int d",
    );
    push(&mut lines, "method int m int w\nrequires *\nensures");
    for field in &["a", "b", "c", "d"][..wanted] {
        push(&mut lines, &format!("set this {field} w"));
    }
    push(&mut lines, "end\nmain\nvar int abcdefghijkl");
    let most = TEXT_BYTES + 1 - rng.below(4);
    let full = ["assert", &" eq abcdefghijkl abcdefghijkl".repeat(8)].concat();
    let end = "end\n".len();
    while joined(&lines).len() + full.len() + 60 < most {
        push(&mut lines, &full);
    }
    while let Some(line) = filler(most - end - joined(&lines).len()) {
        push(&mut lines, &line);
    }
    push(&mut lines, "end");
    joined(&lines)
}

/// An `assert` with which so many bytes are filled up, or come nearer to it; none
/// where they are too few.
fn filler(bytes: usize) -> Option<String> {
    let bare = "assert\n".len();
    let least = "assert eq 1 1\n".len();
    if bytes < least || bytes == least + bare {
        return (bytes >= bare).then(|| "assert".to_string());
    }
    if bytes % 2 == 1 {
        return Some("assert".to_string());
    }
    let digits = 1 + (bytes - least) / 2;
    let number = "1".repeat(digits.min(9));
    Some(format!("assert eq {number} {number}"))
}
