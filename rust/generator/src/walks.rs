//! W9: programs with chains by a plan. Chains that are grown, walked over by methods
//! and loops, split, put together and taken apart, and lines that lack one.

use super::full::full_of_chains;
use super::program::joined;
use super::recipes::{grow, push};
use super::rings::rings;
use super::rng::Rng;
use crate::number;

const LOCALS: &str = "main\nvar S s\nvar S t\nvar S u\nvar S v\nvar int a\nvar int b\nvar int c\n\
    new s S\nshut s p\nlet t null";

/// A program with chains; more than half are accepted.
pub fn walks(rng: &mut Rng) -> Vec<u8> {
    if rng.chance(40) {
        return rings(rng);
    }
    if rng.chance(70) {
        return walked(rng);
    }
    let mut lines = declared(rng);
    (0..rng.within(2, 10)).for_each(|_| push(&mut lines, &line(rng)));
    push(&mut lines, "end");
    joined(&lines)
}

/// A program with chains that in most cases is accepted.
pub fn walked(rng: &mut Rng) -> Vec<u8> {
    if rng.chance(10) {
        return full_of_chains(rng);
    }
    let mut lines = declared(rng);
    let tries = rng.within(6, 30);
    grow(rng, &mut lines, tries, line);
    joined(&lines)
}

/// The lines before those of main's body: a card, methods and main's variables.
fn declared(rng: &mut Rng) -> Vec<String> {
    let mut lines = Vec::new();
    push(&mut lines, "class S\nfield int n\nfield S p\nfield S q");
    let mut methods = vec![len(rng), mark(rng), rest(rng), last(rng)];
    methods.extend([PUSH, SWAP, CUT, TURN].map(str::to_string));
    // Now and then one lacks a line.
    if rng.chance(6) {
        let at = rng.below(methods.len());
        let body: Vec<&str> = methods[at].lines().collect();
        let gone = rng.within(3, body.len() - 2);
        methods[at] = [&body[..gone], &body[gone + 1..]].concat().join("\n");
    }
    methods.iter().for_each(|method| push(&mut lines, method));
    push(&mut lines, LOCALS);
    lines
}

/// The length of a chain, by a method that calls itself.
fn len(rng: &mut Rng) -> String {
    let known = rng.pick(&["", " ne this null"]);
    let (none, all) = ("acc this p eq this.p x chain x p", "chain this p");
    let split = "open x this p\nif eq x null\nlet r 0\nelse\ncall r x len k\njoin NONE\nlet i 1\nadd r r i\n\
                 shut this p";
    let inside =
        "open x this p\nif ne x null\ncall r x len k\nlet i 1\nadd r r i\nshut this p\nelse\n\
                  shut this p\nlet r 1\njoin ALLKNOWN";
    let body = rng.pick(&[split, inside]);
    let source =
        "method int len int k\nrequires ne this null chain this p\nensures chain this pKNOWN\n\
                  var S x\nvar int r\nvar int i\nBODY\nreturn r\nend";
    let source = source
        .replace("BODY", body)
        .replace("NONE", &format!("{none}KNOWN"));
    source.replace("ALL", all).replace("KNOWN", known)
}

/// Every card of a chain gets its number, where it is given beside the chain.
fn mark(rng: &mut Rng) -> String {
    let asked = rng.pick(&["chain this p", "chain this p chain this q"]);
    let source = "method S mark int k\nrequires ASKED\nensures ASKED\nvar S x\nvar S y\nif eq this null\n\
                  return x\nelse\njoin ASKED ne this null\nopen x this p\nif eq x null\nelse\nINSIDE\n\
                  join acc this p eq this.p x chain x pMORE\nshut this p\nreturn x\nend";
    let both = asked.len() > "chain this p".len();
    let (inside, more) = match both {
        true => ("let y x", " chain this q"),
        false => ("call y x mark k", ""),
    };
    let source = source.replace("ASKED", asked).replace("INSIDE", inside);
    source.replace("MORE", more)
}

/// A new card before a chain.
const PUSH: &str =
    "method S push S w\nrequires chain w p\nensures chain result p ne result null\nvar S x\n\
    new x S\nset x p w\nshut x p\nreturn x\nend";

/// The chain behind the first card, which is kept or let go.
fn rest(rng: &mut Rng) -> String {
    let kept = rng.pick(&["", " acc this p", " acc this p eq this.p result"]);
    let source = "method S rest int k\nrequires chain this p ne this null\nensures chain result pKEPT\nvar S x\n\
                  open x this p\nreturn x\nend";
    source.replace("KEPT", kept)
}

/// A chain put behind the last card of another.
fn last(rng: &mut Rng) -> String {
    let each = "set this p w\nshut this p\nelse\ncall r x last w\nshut this p\njoin chain this p";
    let after =
        "set this p w\nlet x w\nelse\ncall r x last w\njoin acc this p eq this.p x chain x p\n\
                 shut this p";
    let source =
        "method int last S w\nrequires ne this null chain this p chain w p\nensures chain this p\n\
                  var S x\nvar int r\nopen x this p\nif eq x null\nBODY\nend";
    source.replace("BODY", rng.pick(&[each, after]))
}

/// What is behind the first cards of two chains, exchanged.
const SWAP: &str = "method int swap S w\nrequires chain this p ne this null chain w p ne w null\n\
    ensures chain this p chain w p\nvar S x\nvar S y\nopen x this p\nopen y w p\nset this p y\nset w p x\n\
    shut this p\nshut w p\nend";

/// A chain split behind its first card.
const CUT: &str = "method S cut int k\nrequires chain this p ne this null\n\
    ensures chain this p chain result p ne this null\nvar S x\nvar S y\nopen x this p\nlet y null\n\
    set this p y\nshut this p\nreturn x\nend";

/// A chain turned round.
const TURN: &str = "method S turn int k\nrequires chain this p ne this null\nensures chain result p\nvar S x\n\
    var S y\nvar S z\nlet x this\nlet y null\nloop ne x null chain x p chain y p\nopen z x p\nset x p y\n\
    shut x p\nlet y x\nlet x z\nagain\nreturn y\nend";

/// A line of main, or some.
fn line(rng: &mut Rng) -> String {
    let mut cards = ["s", "t", "u", "v"];
    rng.shuffle(&mut cards);
    let [x, y, z, _] = cards;
    let (a, b) = rng.pick(&[("a", "b"), ("b", "c"), ("c", "a")]);
    let f = rng.pick(&["p", "p", "p", "q"]);
    match rng.below(36) {
        0 => format!("new {x} S"),
        1 => format!("let {x} {y}"),
        2 => format!("let {x} null"),
        3 | 4 => format!("new {x} S\nset {x} {f} {y}\nshut {x} {f}"),
        5 => format!("shut {x} {f}"),
        6 => format!("open {y} {x} {f}"),
        7 => format!("open {y} {x} {f}\nshut {x} {f}"),
        8 => format!("set {x} {f} {y}"),
        9 => format!("call {a} {x} len {b}"),
        10 => format!("call {y} {x} mark {a}"),
        11 | 12 => format!("call {x} {z} push {y}"),
        13 => format!("call {y} {x} rest {a}"),
        14 => format!("call {a} {x} last {y}"),
        15 => format!("call {a} {x} swap {y}"),
        16 => format!("release chain {x} {f}"),
        17 => format!("release {} {x} {f}", rng.pick(&["acc", "read"])),
        18 => format!("assert chain {x} {f}"),
        19 => format!("assert chain {x} {f} chain {y} {f}"),
        20 => format!("assert eq {x}.{f} {y}"),
        21 => format!("assert ne {x} null"),
        22 => format!("if ne {x} null\nopen {y} {x} {f}\nelse\njoin"),
        23 => {
            format!("if ne {x} null\nelse\nnew {x} S\nshut {x} {f}\njoin chain {x} {f} ne {x} null")
        }
        24 => format!("if eq {a} {b}\nelse\njoin chain {x} {f} chain {y} {f}"),
        25 => format!("call {y} {x} cut {a}"),
        26 => format!("call {y} {x} turn {a}"),
        27 => format!("new {y} S\nshut {y} p\ncall {a} {x} last {y}"),
        28 => format!("new {y} S\nshut {y} p\ncall {a} {x} swap {y}"),
        _ => loops(rng, [x, y, z], [a, b]),
    }
}

/// A loop that grows a chain, takes one apart, or turns it round.
fn loops(rng: &mut Rng, [x, y, z]: [&str; 3], [a, b]: [&str; 2]) -> String {
    let count = rng.pick(&[0, 1, 3, 7, 40, 200]);
    let grown = format!(
        "let {x} null\nlet {a} 0\nloop ne {a} {count} chain {x} p\nnew {y} S\nset {y} p {x}\nshut {y} p\n\
         let {x} {y}\nlet {b} 1\nadd {a} {a} {b}\nagain"
    );
    let apart = format!("loop ne {x} null chain {x} p\nopen {y} {x} p\nlet {x} {y}\nagain");
    let turned = format!(
        "let {y} null\nloop ne {x} null chain {x} p chain {y} p\nopen {z} {x} p\nset {x} p {y}\nshut {x} p\n\
         let {y} {x}\nlet {x} {z}\nagain"
    );
    let walked = rng.pick(&["len", "turn", "cut", "rest", "mark"]);
    let to = if walked == "len" { b } else { y };
    let called = format!("if ne {x} null\ncall {to} {x} {walked} {a}\nelse\njoin");
    match rng.below(8) {
        0 => apart,
        1 => turned,
        2 => format!("{grown}\n{turned}"),
        3 => format!("{grown}\n{apart}"),
        4 => grown.replace("set", rng.pick(&["assert chain t p\nset", "set"])),
        5 | 6 => format!("{grown}\n{called}"),
        _ => grown,
    }
}

/// Lines that lack a chain, or a path that a chain does not list: 12.
const TOO_LITTLE: [&str; 14] = [
    "new s S\nassert chain s p",
    "new s S\nshut s p\nshut s p",
    "new s S\nshut s p\nset s p s",
    "new s S\nshut s p\nassert acc s p",
    "new s S\nshut s p\nassert read s p",
    "new s S\nshut s p\nassert chain s p chain s p",
    "new s S\nshut s p\nlet t s\nassert chain s p chain t p",
    "new s S\nshut s p\nassert chain s q",
    "new s S\nnew t S\nset s p t\nshut s p",
    "new s S\nrelease read s p\nshut s p",
    "new s S\nopen t s p",
    "new s S\nshut s p\nopen t s p\nopen u s p",
    "new s S\nshut s p\ncall t s rest a\ncall t s rest a",
    "new s S\nshut s p\ncall a s swap s",
];

/// Lines that take a chain for a card that is no null, or two for different ones:
/// 13.
const NO_CARD: [&str; 5] = [
    "let t null\ncall s u push t\nnew u S\ncall u s rest a\nassert ne u null",
    "new s S\nshut s p\nopen t s p\nopen u t p",
    "new s S\nshut s p\nopen t s p\nassert ne t s",
    "new s S\nshut s p\nif eq a b\nelse\njoin chain s p\nassert ne s null",
    "new s S\nshut s p\nif eq a b\nelse\njoin chain s p\nopen t s p",
];

/// A program with a line that is refused with 12 or 13 for want of a chain or card.
pub fn missed(rng: &mut Rng, number: u32) -> Vec<u8> {
    let mut lines = declared(rng);
    let tries = rng.within(0, 6);
    grow(rng, &mut lines, tries, line);
    lines.pop();
    push(&mut lines, "new u S");
    let last = match number {
        number::NOT_SHOWN => rng.pick(&NO_CARD),
        _ => rng.pick(&TOO_LITTLE),
    };
    push(&mut lines, last);
    push(&mut lines, "end");
    joined(&lines)
}
