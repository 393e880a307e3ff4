//! W12: counts of up to four scripts. Many are short loops that make objects or
//! write to them; others are texts of every kind. Shares are small, so that they are
//! used up, or their sum is near that of the heap.

use super::limits::{OBJECTS, SCRIPTS};
use super::program::joined;
use super::recipes::{full_heap, push, recursion};
use super::rng::Rng;
use super::stars::starred;
use super::{text_of, Kind};

/// What a count is called with.
#[derive(Clone, Debug, PartialEq, Eq)]
pub struct CountDay {
    pub scripts: u32,
    pub rounds: u32,
    pub texts: [Vec<u8>; SCRIPTS],
    pub shares: [u32; SCRIPTS],
}

impl CountDay {
    pub fn random(rng: &mut Rng) -> CountDay {
        CountDay {
            scripts: scripts(rng),
            rounds: rounds(rng),
            texts: texts(rng),
            shares: shares(rng),
        }
    }
}

/// The count of scripts: most often right, sometimes none or too many.
fn scripts(rng: &mut Rng) -> u32 {
    match rng.below(60) {
        0 => 0,
        1 => 5,
        2 => rng.pick(&[6, 260, 65_540, u32::MAX]),
        3..=8 => 1,
        9..=16 => 2,
        17..=26 => 3,
        _ => 4,
    }
}

/// Few rounds, or so many that most scripts come to their end.
fn rounds(rng: &mut Rng) -> u32 {
    match rng.below(10) {
        0 => rng.below(4) as u32,
        1..=3 => rng.below(40) as u32,
        4..=6 => rng.below(300) as u32,
        7..=8 => 1_000,
        _ => 5_000,
    }
}

fn shares(rng: &mut Rng) -> [u32; SCRIPTS] {
    let small = [1, 1, 2, 3, 5, 9, 20, 60];
    let mut shares = std::array::from_fn(|_| rng.pick(&small));
    let at = rng.below(SCRIPTS);
    match rng.below(30) {
        0 => shares[at] = 0,
        1 => shares[at] = rng.pick(&[253, 256, 257, 65_537, 1 << 31, u32::MAX]),
        2 => shares = [rng.pick(&[1 << 30, 1 << 31, u32::MAX]); SCRIPTS],
        3..=5 => fit(rng, &mut shares),
        _ => {}
    }
    shares
}

/// One share such that the first ones, some or all of them, have a sum near 256.
fn fit(rng: &mut Rng, shares: &mut [u32; SCRIPTS]) {
    let last = rng.below(SCRIPTS);
    let before: u32 = shares[..last].iter().sum();
    let sum = rng.pick(&[OBJECTS - 1, OBJECTS, OBJECTS, OBJECTS + 1]) as u32;
    shares[last] = sum.saturating_sub(before);
}

/// Four texts; now and then one of them four times.
fn texts(rng: &mut Rng) -> [Vec<u8>; SCRIPTS] {
    if rng.chance(8) {
        let text = text(rng);
        return std::array::from_fn(|_| text.clone());
    }
    std::array::from_fn(|_| text(rng))
}

fn text(rng: &mut Rng) -> Vec<u8> {
    match rng.below(100) {
        0..=24 => counter(rng),
        25..=49 => maker(rng),
        50..=54 => recursion(rng),
        55..=57 => full_heap(rng),
        58..=61 => b"main\nloop\teq\t1\t1\nagain\nend\n".to_vec(),
        62..=63 => starred(rng),
        64..=79 => text_of(rng, Kind::Accepted),
        80..=87 => text_of(rng, Kind::Recipe),
        88..=97 => {
            let number = rng.within(3, 14) as u32;
            text_of(rng, Kind::Miss(number))
        }
        _ => {
            let kind = rng.pick(&[Kind::Arbitrary, Kind::Mutated, Kind::Wild, Kind::Miss(2)]);
            text_of(rng, kind)
        }
    }
}

/// A class with so many int fields.
fn class(lines: &mut Vec<String>, ints: usize) {
    push(lines, "class E");
    (0..ints).for_each(|at| push(lines, &format!("field int n{at}")));
}

const VARS: &str = "main\nvar E e\nvar E g\nvar int a\nvar int b\nvar int c\nvar int one\n\
                    let one 1";

/// A loop that adds up in a field of one of its objects.
fn counter(rng: &mut Rng) -> Vec<u8> {
    let ints = rng.within(1, 5);
    let field = rng.below(ints);
    let mut lines = Vec::new();
    class(&mut lines, ints);
    push(&mut lines, VARS);
    push(
        &mut lines,
        &format!("let b {}", rng.pick(&[0, 1, 3, 10, 40, -1])),
    );
    (0..rng.below(3)).for_each(|_| push(&mut lines, "new g E"));
    push(&mut lines, "new e E");
    push(
        &mut lines,
        &format!("loop ne a b acc e n{field}\nlet c e.n{field}"),
    );
    push(
        &mut lines,
        rng.pick(&[
            "add c c one",
            "add c c b",
            "sub c c b",
            "add c c c\nsub c c one",
        ]),
    );
    push(&mut lines, &format!("set e n{field} c\nadd a a one"));
    if rng.chance(30) {
        push(&mut lines, "new g E\nset g n0 c");
    }
    push(&mut lines, &format!("again\nlet c e.n{field}\nend"));
    joined(&lines)
}

/// A loop that makes objects, most often until the share is full.
fn maker(rng: &mut Rng) -> Vec<u8> {
    let ints = rng.pick(&[0, 0, 1, 2, 3, 4, 5, 8]);
    let linked = ints < 8 && rng.chance(40);
    let mut lines = Vec::new();
    class(&mut lines, ints);
    if linked {
        push(&mut lines, "field E next");
    }
    push(&mut lines, VARS);
    push(
        &mut lines,
        &format!("let b {}", rng.pick(&[0, 1, 2, 3, 5, 9, 20, 60, -1])),
    );
    push(&mut lines, "loop ne a b");
    push(
        &mut lines,
        rng.pick(&["new e E", "let g e\nnew e E", "new g E\nnew e E"]),
    );
    if ints > 0 {
        push(&mut lines, &format!("set e n{} a", rng.below(ints)));
    }
    if linked {
        push(&mut lines, "set e next g");
    }
    push(&mut lines, "add a a one\nagain");
    if rng.chance(50) {
        push(&mut lines, "new e E\nnew g E\nassert ne e null");
    }
    push(&mut lines, "end");
    joined(&lines)
}
