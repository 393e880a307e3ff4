//! W8: programs with halves by a plan. Two readers of one card, halves that a
//! call takes and its ensures gives back or keeps, a half left of a whole, and
//! lines that lack a half.

use super::full::full_of_halves;
use super::program::joined;
use super::recipes::{grow, push};
use super::rng::Rng;
use crate::number;

const LOCALS: &str = "main\nvar S s\nvar S t\nvar S u\nvar int a\nvar int b\nvar int c\nnew s S\n\
    new t S\nlet u s";

/// A program with halves; more than half are accepted.
pub fn readers(rng: &mut Rng) -> Vec<u8> {
    if rng.chance(20) {
        return full_of_halves(rng);
    }
    let mut lines = declared(rng, LOCALS);
    let tries = rng.within(8, 40);
    if rng.chance(60) {
        grow(rng, &mut lines, tries, line);
    } else {
        (0..tries / 3).for_each(|_| push(&mut lines, &line(rng)));
        push(&mut lines, "end");
    }
    joined(&lines)
}

/// The lines before those of main's body: a card, methods and main's variables.
fn declared(rng: &mut Rng, main: &str) -> Vec<String> {
    let mut lines = Vec::new();
    push(&mut lines, "class S\nfield int n\nfield S p");
    readers_of_a_card(rng, &mut lines);
    writers_of_a_card(rng, &mut lines);
    push(&mut lines, main);
    lines
}

/// Methods that give back the halves that they took, and one that does not.
fn readers_of_a_card(rng: &mut Rng, lines: &mut Vec<String>) {
    let known = rng.pick(&["", " eq result this.n"]);
    let source = "method int look int k\nrequires read this n\nensures read this n KNOWN\nvar int x\n\
                  let x this.n\nreturn x\nend\nmethod int same S w\nrequires read this n read w n\n\
                  ensures read this n read w n\nvar int x\nvar int y\nlet x this.n\nlet y w.n\n\
                  sub x x y\nreturn x\nend\nmethod int keep int k\nrequires read this n\nensures\n\
                  return k\nend\nmethod int through int k\nrequires read this n\nensures read this n\n\
                  var int x\nvar int y";
    push(lines, &source.replace(" KNOWN", known));
    for _ in 0..rng.below(4) {
        let inside = [
            "call x this look k",
            "assert read this n",
            "let x this.n",
            "call x this through y",
        ];
        push(lines, rng.pick(&inside));
    }
    push(lines, "end");
}

/// Methods that take a card whole, beside another or by its halves, and one that
/// gives a half of a new one.
fn writers_of_a_card(rng: &mut Rng, lines: &mut Vec<String>) {
    let whole = ["acc this n", "read this n read this n"];
    let given = ["acc this n", "read this n read this n", "read this n"];
    let (taken, given) = (rng.pick(&whole), rng.pick(&given));
    let both = rng.pick(&["acc this n read w n", "read w n acc this n"]);
    let source =
        "method int write int k\nrequires TAKEN\nensures GIVEN eq this.n k\nset this n k\n\
                  return k\nend\nmethod int copy S w\nrequires BOTH\n\
                  ensures acc this n read w n eq this.n w.n\nvar int x\nlet x w.n\nset this n x\n\
                  return x\nend\nmethod S lend int k\nrequires\nensures read result n\nvar S x\n\
                  new x S\nreturn x\nend";
    let source = source.replace("TAKEN", taken).replace("GIVEN", given);
    push(lines, &source.replace("BOTH", both));
}

/// A line of main, or some.
fn line(rng: &mut Rng) -> String {
    let cards = ["s", "t", "u"];
    let (x, y, z) = (rng.pick(&cards), rng.pick(&cards), rng.pick(&cards));
    let (a, b) = rng.pick(&[("a", "b"), ("b", "c"), ("c", "a")]);
    let held = rng.pick(&["acc X n", "read X n", "read X n", "read X n read X n"]);
    let held = held.replace('X', x);
    match rng.below(25) {
        0 => format!("new {x} S"),
        1 => format!("let {x} {y}"),
        2 => format!("call {x} {y} lend {a}"),
        3 => format!("call {a} {x} look {b}"),
        4 | 5 => format!("call {a} {x} same {y}"),
        6 => format!("call {a} {x} keep {b}"),
        7 => format!("call {a} {x} write {b}"),
        8 => format!("call {a} {x} copy {y}"),
        9 => format!("call {a} {x} through {b}"),
        10 => format!("release {held}"),
        11 => format!("release read {x} n read {y} n"),
        12 => format!("assert {held}"),
        13 => format!("assert read {x} n {held}"),
        14 => format!("assert read {x} n read {y} n read {z} n"),
        15 => format!("assert {} {x} n acc {y} n", rng.pick(&["read", "acc"])),
        16 => format!("set {x} n {a}"),
        17 => format!("let {a} {x}.n"),
        18 => format!("assert eq {x}.n {a}"),
        19 => format!("assert ne {x} {y}"),
        20 => format!("if eq {x} {y}\nelse\njoin {held}"),
        21 => format!("if eq {x} {y}\nassert read {x} n read {y} n\nrelease {held}\nelse\njoin"),
        22 => format!("if eq {a} {b}\nelse\njoin read {x} n read {y} n"),
        23 => format!("loop ne {x}.n {a} {held}\nlet {a} {x}.n\nagain"),
        _ => format!("set {x} p {y}\nrelease read {x} p"),
    }
}

/// Lines that lack a half: 12.
const TOO_LITTLE: [&str; 12] = [
    "release read s n\nset s n a",
    "release read s n\nassert acc s n",
    "call a s keep b\nset s n b",
    "call a s keep b\ncall a s write b",
    "release read s n\ncall a s copy t",
    "release read t n\ncall a s same t\nset t n a",
    "call a s copy s",
    "assert read s n read s n read s n",
    "assert read s n acc s n",
    "assert acc s n acc s n",
    "release read s n\nassert read s n read s n",
    "call s t lend a\nrelease read s n read s n",
];

/// Lines that take two cards with a half each for different ones: 13.
const NOT_TWO: [&str; 3] = [
    "release acc t p read s n read t n\nassert ne s t",
    "release acc s p read t n\ncall s t lend a\nassert ne s t",
    "release acc t p\nif eq a b\nelse\njoin read t n read s n\nassert ne t s",
];

/// A program with a line that is refused with 12 or 13 for want of a half.
pub fn missed(rng: &mut Rng, number: u32) -> Vec<u8> {
    let mut lines = declared(rng, LOCALS);
    let tries = rng.within(0, 8);
    grow(rng, &mut lines, tries, line);
    lines.pop();
    push(&mut lines, "new s S\nnew t S");
    let last = match number {
        number::NOT_SHOWN => rng.pick(&NOT_TWO),
        _ => rng.pick(&TOO_LITTLE),
    };
    push(&mut lines, last);
    push(&mut lines, "end");
    joined(&lines)
}
