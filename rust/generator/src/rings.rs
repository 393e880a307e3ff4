//! W9: cards in a row, a ring or a row that leads into one, some of them let go or
//! taken, and a line that walks over them. A trial stops with 24, 25 or 26, or not.

use super::program::joined;
use super::recipes::push;
use super::rng::Rng;

/// Methods that ask for a chain, or for two.
const METHODS: &str = "class S\nfield int n\nfield S p\nfield S q\nmethod int ask S w\nrequires chain this p\n\
    ensures chain this p\nend\nmethod int both S w\nrequires chain this p chain w p\nensures chain this p\n\
    end";

/// Methods that promise a chain which they may not have: check refuses them.
const PROMISES: &str =
    "method int give S w\nrequires acc this p\nensures chain this p\nvar int a\nset this p w\nend\n\
    method int part S w\nrequires acc this p read w p\nensures chain this p\nvar int a\nend";

/// A program by one of the plans.
pub fn rings(rng: &mut Rng) -> Vec<u8> {
    let mut lines = Vec::new();
    push(&mut lines, METHODS);
    let promises = rng.chance(30);
    if promises {
        // At their `end`, or at a `return`.
        let closed = rng.pick(&["end", "return a\nend"]);
        push(&mut lines, &PROMISES.replace("end", closed));
    }
    push(&mut lines, "main\nvar int a\nvar int one\nvar S x");
    let cards = match rng.chance(25) {
        true => grown(rng, &mut lines),
        false => by_lines(rng, &mut lines),
    };
    for _ in 0..rng.within(1, 3) {
        let line = walk(rng, cards, promises);
        push(&mut lines, &line);
    }
    push(&mut lines, "end");
    joined(&lines)
}

/// Some cards, each linked to the next, the last to null or back to one of them.
fn by_lines(rng: &mut Rng, lines: &mut Vec<String>) -> usize {
    let count = rng.within(1, 8);
    (0..count).for_each(|at| push(lines, &format!("var S c{at}")));
    (0..count).for_each(|at| push(lines, &format!("new c{at} S")));
    for at in 1..count {
        if !rng.chance(8) {
            push(lines, &format!("set c{} p c{at}", at - 1));
        }
    }
    if rng.chance(60) {
        push(
            lines,
            &format!("set c{} p c{}", count - 1, rng.below(count)),
        );
    }
    if rng.chance(30) {
        let card = rng.below(count);
        let gone = [
            "release acc C p",
            "release read C p",
            "release acc C q",
            "set C q C",
        ];
        push(lines, &rng.pick(&gone).replace('C', &format!("c{card}")));
    }
    // Another chain that leads into this one.
    if rng.chance(30) {
        push(lines, &format!("new x S\nset x p c{}", rng.below(count)));
    }
    count
}

/// Many cards, made in a loop, with or without the last one linked to the first.
fn grown(rng: &mut Rng, lines: &mut Vec<String>) -> usize {
    let count = rng.pick(&[2, 5, 30, 120, 250]);
    let made = format!(
        "var S c0\nvar S c1\nlet one 1\nnew x S\nlet c0 x\nloop ne a {count}KEPT\nnew c1 S\nset c1 p c0\nLINK\n\
         let c0 c1\nadd a a one\nagain"
    );
    let (kept, link, first) = match rng.chance(40) {
        true => (" chain c0 p eq one 1", "shut c1 p", "let c0 x\nshut c0 p"),
        false => ("", "assert", "let c0 x"),
    };
    let made = made.replace("KEPT", kept).replace("LINK", link);
    push(lines, &made.replace("let c0 x", first));
    if rng.chance(60) {
        push(
            lines,
            rng.pick(&["set x p c0", "set x p x", "set x p c1", "release acc x p"]),
        );
    }
    2
}

/// A line that walks, or some.
fn walk(rng: &mut Rng, cards: usize, promises: bool) -> String {
    let card = |rng: &mut Rng| match rng.chance(10) {
        true => "x".to_string(),
        false => format!("c{}", rng.below(cards)),
    };
    let (c, d) = (card(rng), card(rng));
    let taken = rng.pick(&[
        "acc D p",
        "read D p",
        "chain D p",
        "acc D q",
        "eq a a",
        "read D q",
    ]);
    let taken = taken.replace('D', &d);
    match rng.below(14) {
        0 | 1 => format!("assert chain {c} p"),
        2 => format!("assert {taken} chain {c} p"),
        3 => format!("assert chain {c} p {taken}"),
        4 => format!("release {taken} chain {c} p"),
        5 => format!("release chain {c} p\nassert chain {d} p"),
        6 if c != d => format!("open {c} {d} p"),
        7 => format!("shut {c} p"),
        8 => format!("call a {c} ask {d}"),
        9 => format!("call a {c} both {d}"),
        10 | 13 if promises => format!("call a {c} {} {d}", rng.pick(&["give", "part"])),
        11 => format!("loop ne a a chain {c} p {taken}\nagain"),
        12 => format!("if eq a a\nelse\njoin chain {c} p {taken}"),
        _ => format!(
            "let {c} null\n{} {c} p",
            rng.pick(&["open x", "shut", "assert chain"])
        ),
    }
}
