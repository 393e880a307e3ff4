//! Programs with a plan: full heaps, full frames, runs of many steps, paths that
//! are dropped; those of full states, of loops, of routes of calls, of halves and of
//! chains stand by themselves.

use super::full::full_state;
use super::program::joined;
use super::readers::readers;
use super::rng::Rng;
use super::rounds::rounds;
use super::routes::routes;
use super::walks::walks;
use crate::check;

pub(super) fn push(lines: &mut Vec<String>, source: &str) {
    lines.extend(source.lines().map(|line| line.trim().replace(' ', "\t")));
}

/// A program by one of the plans.
pub fn recipe(rng: &mut Rng) -> Vec<u8> {
    match rng.below(27) {
        0 => full_state(rng),
        1 => doubling(rng),
        2 => recursion(rng),
        3 => full_heap(rng),
        4 => counting(rng),
        5..=8 => droppings(rng),
        9 => list_walk(rng),
        10..=13 => rounds(rng),
        14..=17 => readers(rng),
        18..=23 => walks(rng),
        _ => routes(rng),
    }
}

/// Methods that each call an earlier one some times: many steps, many objects.
pub fn doubling(rng: &mut Rng) -> Vec<u8> {
    let depth = rng.within(2, 9);
    let mut lines = Vec::new();
    push(&mut lines, "class D\nfield int n\nfield D d");
    (0..depth).for_each(|at| doubling_method(rng, at, &mut lines));
    push(&mut lines, "main\nvar D d\nvar int a\nvar int b\nnew d D");
    push(&mut lines, &format!("let b {}", rng.below(5)));
    for _ in 0..rng.within(1, 3) {
        let method = rng.within(depth / 2, depth - 1);
        push(&mut lines, &format!("call a d m{method} b"));
    }
    push(&mut lines, "assert acc d n\nend");
    joined(&lines)
}

fn doubling_method(rng: &mut Rng, at: usize, lines: &mut Vec<String>) {
    push(lines, &format!("method int m{at} int w"));
    push(
        lines,
        "requires acc this n\nensures acc this n\nvar int r\nvar D t",
    );
    if rng.chance(50) {
        push(lines, "set this n w");
    }
    let calls = if at == 0 { 0 } else { rng.within(1, 4) };
    for _ in 0..calls {
        let method = rng.within(at.saturating_sub(2), at - 1);
        push(lines, &format!("call r this m{method} w"));
    }
    for _ in 0..rng.below(3) {
        let more = ["new t D", "let r this.n", "assert eq w w"];
        push(lines, rng.pick(&more));
    }
    if rng.chance(30) {
        push(lines, "return w");
    }
    push(lines, "end");
}

/// A method that calls itself, sometimes on a condition, and may make objects.
pub fn recursion(rng: &mut Rng) -> Vec<u8> {
    let mut lines = Vec::new();
    push(
        &mut lines,
        "class R\nfield R next\nfield int n\nmethod R m R w",
    );
    let held = rng.chance(50);
    let requires = if held {
        "requires acc this n ne this null"
    } else {
        "requires ne this null"
    };
    push(&mut lines, requires);
    push(&mut lines, "ensures\nvar R r\nvar R t\nvar int k");
    for _ in 0..rng.below(6) {
        push(
            &mut lines,
            rng.pick(&["new t R", "new r R", "let t w", "let k 3"]),
        );
    }
    call_itself(rng, &mut lines);
    let last = if held {
        "release\nreturn r"
    } else {
        "new t R\nset t n k\nreturn t"
    };
    if rng.chance(50) {
        push(&mut lines, last);
    }
    push(&mut lines, "end\nmain\nvar R a\nvar R b\nvar R c\nnew a R");
    let calls = ["call b a m a", "new b R\ncall c a m b", "call b a m c"];
    push(&mut lines, rng.pick(&calls));
    push(&mut lines, "assert eq c c\nend");
    joined(&lines)
}

fn call_itself(rng: &mut Rng, lines: &mut Vec<String>) {
    let calls = [
        "call r this m w",
        "let t null\ncall r this m t",
        "new t R\ncall r t m this",
    ];
    let call = rng.pick(&calls);
    if rng.chance(60) {
        push(lines, call);
        return;
    }
    push(
        lines,
        rng.pick(&["if eq w null", "if ne w null", "if eq w this"]),
    );
    push(lines, &format!("let k 1\nelse\n{call}\njoin ne this null"));
}

/// Many objects: the heap is full by objects or by fields, or nearly so.
pub fn full_heap(rng: &mut Rng) -> Vec<u8> {
    let fields = rng.below(9);
    let each = rng.within(1, 10);
    let mut lines = Vec::new();
    push(&mut lines, "class E");
    (0..fields).for_each(|at| push(&mut lines, &format!("field int f{at}")));
    push(
        &mut lines,
        "method E make int w\nrequires\nensures ne result null\nvar E x",
    );
    (0..each).for_each(|_| push(&mut lines, "new x E"));
    push(
        &mut lines,
        "return x\nend\nmain\nvar E e\nvar E g\nvar int a\nnew e E",
    );
    let room = if fields > 4 { 1_024 / fields } else { 256 };
    let calls = (room / each + rng.below(3)).min(230);
    (0..calls).for_each(|_| push(&mut lines, "call g e make a"));
    (0..rng.below(6)).for_each(|_| push(&mut lines, "new g E"));
    push(&mut lines, "end");
    joined(&lines)
}

/// Adds lines that check takes where they stand, and now and then one that it
/// refuses; the text is closed by an `end`.
pub(super) fn grow(
    rng: &mut Rng,
    lines: &mut Vec<String>,
    tries: usize,
    line: impl Fn(&mut Rng) -> String,
) {
    for _ in 0..tries {
        let before = lines.len();
        push(lines, &line(rng));
        let text = joined(&[&lines[..], &["end".to_string()]].concat());
        if check(&text).0 != 0 && !rng.chance(1) {
            lines.truncate(before);
        }
    }
    push(lines, "end");
}

/// W3: paths and variables that are dropped after others were made equal to
/// them, and what is known of those afterwards.
pub fn droppings(rng: &mut Rng) -> Vec<u8> {
    let mut lines = Vec::new();
    let source = "class S\nfield S p\nfield int n\nfield int m\nmethod int give int w\n\
                  requires acc this n\nensures acc this n eq this.n w eq result w\n\
                  set this n w\nreturn w\nend\nmethod int lose int w\nrequires acc this n\n\
                  ensures\nreturn w\nend\nmain\nvar S s\nvar S t\nvar S u\nvar int a\nvar int b\n\
                  var int c\nnew s S\nlet t s\nlet a s.n\nlet b s.n";
    push(&mut lines, source);
    let tries = rng.within(8, 40);
    grow(rng, &mut lines, tries, |rng| {
        let object = rng.pick(&["s", "t", "u"]);
        let other = rng.pick(&["s", "t", "u", "null", "s.p", "t.p", "u.p"]);
        let (x, y, z) = {
            let mut int = || rng.pick(&["a", "b", "c"]);
            (int(), int(), int())
        };
        let field = rng.pick(&["n", "n", "m"]);
        let side = rng.pick(&["a", "b", "c", "s.n", "t.n", "u.m", "0", "1"]);
        match rng.below(20) {
            0 => format!("new {object} S"),
            1 | 2 => format!("let {object} {other}"),
            3..=6 => format!("let {x} {object}.{field}"),
            7 => format!("let {x} {side}"),
            8 => format!("set {object} {field} {x}"),
            9 => format!("set {object} p {}", rng.pick(&["s", "t", "u"])),
            10 => format!("release acc {object} {field}"),
            11 => format!("{} {x} {y} {z}", rng.pick(&["add", "sub"])),
            12 if x != y => format!("call {x} {object} give {y}"),
            13 if x != y => format!("call {x} {object} lose {y}"),
            14 => format!("assert eq {object} {other}"),
            15 => format!("assert ne {object} {other}"),
            _ => format!("assert eq {x} {side}"),
        }
    });
    joined(&lines)
}

/// Cards counted near both ends of 32 bits, in main and in a method.
pub fn counting(rng: &mut Rng) -> Vec<u8> {
    let mut lines = Vec::new();
    let source = "class K\nfield int n\nmethod int more int w\nrequires acc this n\n\
                  ensures acc this n\nvar int t\nlet t this.n";
    push(&mut lines, source);
    push(
        &mut lines,
        rng.pick(&["add t t w", "sub t t w", "sub t w t"]),
    );
    push(
        &mut lines,
        "set this n t\nreturn t\nend\nmain\nvar K k\nvar int a\nvar int b\nvar int c\nnew k K",
    );
    let ends = [
        "2147483647",
        "-2147483648",
        "-2147483647",
        "2147483646",
        "1",
        "-1",
        "0",
    ];
    for var in ["a", "b"] {
        push(&mut lines, &format!("let {var} {}", rng.pick(&ends)));
    }
    for _ in 0..rng.within(1, 12) {
        let vars = ["a", "b", "c"];
        let (x, y, z) = (rng.pick(&vars), rng.pick(&vars), rng.pick(&vars));
        let line = match rng.below(10) {
            0 => format!("let {x} {}", rng.pick(&ends)),
            1 => format!("set k n {x}"),
            2 if x != y => format!("call {x} k more {y}"),
            3 => format!("assert eq {x} {x}"),
            _ => format!("{} {x} {y} {z}", rng.pick(&["add", "sub"])),
        };
        push(&mut lines, &line);
    }
    push(&mut lines, "end");
    joined(&lines)
}

/// A chain of objects made, handed on and read back; some links are wrong.
pub fn list_walk(rng: &mut Rng) -> Vec<u8> {
    let mut lines = Vec::new();
    let source = "class L\nfield L next\nfield int n\nmethod L push L w\nrequires acc this next\n\
                  ensures acc this next eq this.next w eq result this\nset this next w\n\
                  return this\nend\nmethod int get L w\nrequires acc w n acc this n\n\
                  ensures acc w n acc this n eq result this.n\nvar int t\nlet t w.n\n\
                  set this n t\nreturn t\nend\nmain\nvar L a\nvar L b\nvar L c\nvar int i\nvar int j";
    push(&mut lines, source);
    for _ in 0..rng.within(3, 30) {
        let line = match rng.below(14) {
            0 => "new a L",
            1 => "new b L",
            2 => "new c L",
            3 => "call c a push b",
            4 => "call c b push a",
            5 => "call i a get b",
            6 => "call i b get c",
            7 => "let j 7\nset a n j",
            8 => "set b n i",
            9 => "let c a.next",
            10 => "let b a",
            11 => "release acc b n",
            12 => "if eq a b\nlet i 1\nelse\nassert ne b a\njoin",
            _ => "assert eq a.next b",
        };
        push(&mut lines, line);
    }
    push(&mut lines, "end");
    joined(&lines)
}
