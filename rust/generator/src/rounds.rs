//! W5: programs with loops by a plan. They count, add up, make objects, call,
//! and go through cards, in one loop or in loops inside each other.

use super::program::joined;
use super::recipes::push;
use super::rng::Rng;
use crate::check;

const DECLARED: &str = "class S\nfield int n\nfield S prev\nmethod int bump int k\n\
    requires acc this n\nensures acc this n\nvar int t\nlet t this.n\nadd t t k\n\
    set this n t\nreturn t\nend\nmethod int walk int k\nrequires acc this n\n\
    ensures acc this n\nvar int i\nvar int one";

const LOCALS: &str = "main\nvar S s\nvar S t\nvar int i\nvar int k\nvar int r\nvar int one";

/// A program with loops; more than half are accepted.
pub fn rounds(rng: &mut Rng) -> Vec<u8> {
    let accepted = rng.chance(60);
    let mut text = plan(rng);
    for _ in 0..12 {
        if !accepted || check(&text).0 == 0 {
            break;
        }
        text = plan(rng);
    }
    text
}

/// A program with loops; most are refused with the number at an `again`.
pub fn missed(rng: &mut Rng, number: u32) -> Vec<u8> {
    let mut text = plan(rng);
    for _ in 0..20 {
        let (found, line) = check(&text);
        let before = (line as usize).saturating_sub(1);
        let refused = text.split(|&byte| byte == b'\n').nth(before);
        if found == number && refused == Some(b"again") {
            break;
        }
        text = plan(rng);
    }
    text
}

fn plan(rng: &mut Rng) -> Vec<u8> {
    let mut lines = Vec::new();
    push(&mut lines, DECLARED);
    walk(rng, &mut lines);
    push(&mut lines, LOCALS);
    push(&mut lines, "new s S\nset s prev t");
    let (start, end, step) = rng.pick(&[
        (0, 3, 1),
        (0, 5, 1),
        (4, 0, -1),
        (-2, 2, 2),
        (0, 3, 2),
        (7, 7, 1),
        (0, 300, 1),
        (2_147_483_640, -1, 3),
        (-2_147_483_640, 1, -3),
    ]);
    let known = format!("let i {start}\nlet k {end}\nlet one {step}");
    push(&mut lines, &known);
    (0..rng.within(1, 2)).for_each(|_| one_loop(rng, 0, step, &mut lines));
    for _ in 0..rng.below(3) {
        let after = ["assert eq i k", "assert acc s n", "let r s.n", "set s n k"];
        push(&mut lines, rng.pick(&after));
    }
    push(&mut lines, "end");
    joined(&lines)
}

/// The lines of the method that goes up to its k, as a station would write it.
fn walk(rng: &mut Rng, lines: &mut Vec<String>) {
    push(lines, "let one 1\nset this n i");
    let invariant = rng.pick(&[
        "",
        " eq this.n i",
        " eq one 1",
        " eq this.n k",
        " ne this null",
    ]);
    push(lines, &format!("loop ne i k acc this n{invariant}"));
    for _ in 0..rng.below(3) {
        let body = ["let one 1", "assert acc this n", "call one this bump k"];
        push(lines, rng.pick(&body));
    }
    push(lines, "let one 1\nadd i i one");
    push(
        lines,
        rng.pick(&["set this n i", "set this n i", "let i k", "assert"]),
    );
    push(
        lines,
        rng.pick(&["again", "again", "again", "return i\nagain"]),
    );
    push(lines, rng.pick(&["return k\nend", "return i\nend", "end"]));
}

/// The line of a `loop`, its invariant with whole permissions or halves.
fn loop_line(rng: &mut Rng, counter: &str, step: i32) -> String {
    let condition = rng.pick(&[
        "ne X k",
        "ne X k",
        "ne X 3",
        "ne s.n 4",
        "ne t null",
        "eq t null",
        "ne t.n 4",
    ]);
    let mut line = format!("loop {}", condition.replace('X', counter));
    for (atom, share) in [(" acc s n", 70), (" acc s prev", 70), (" acc t n", 10)] {
        if rng.chance(share) {
            line.push_str(atom);
        }
    }
    for _ in 0..rng.below(3) {
        let step = format!(" eq one {step}");
        let atoms = [
            &step,
            " eq s.n i",
            " ne s null",
            " eq s.prev t",
            " eq t null",
            " ne k i",
        ];
        line.push_str(rng.pick(&atoms));
    }
    match rng.chance(20) {
        true => line.replace("acc s n", rng.pick(&["read s n", "read s n read s n"])),
        false => line,
    }
}

/// A loop with its body; a body may have a loop of its own.
fn one_loop(rng: &mut Rng, depth: usize, step: i32, lines: &mut Vec<String>) {
    let counter = if depth == 0 { "i" } else { "r" };
    let line = loop_line(rng, counter, step);
    push(lines, &line);
    for _ in 0..rng.below(4) {
        inside(rng, depth, step, lines);
    }
    let last = [
        "add X X one",
        "add X X one",
        "sub X X one",
        "let X k",
        "let t null",
        "set s n X",
        "let t t.prev",
    ];
    push(lines, &format!("let one {step}"));
    push(lines, &rng.pick(&last).replace('X', counter));
    push(lines, "again");
}

/// A line, or some, of a loop's body.
fn inside(rng: &mut Rng, depth: usize, step: i32, lines: &mut Vec<String>) {
    let line = match rng.below(15) {
        0 => "set s n i",
        1 => "call r s bump one",
        2 => "call r s walk k",
        3 => "new t S",
        4 => "let t s",
        5 => "set s prev t",
        6 => "let t s.prev",
        7 => rng.pick(&["assert acc s n", "assert read s n"]),
        8 => rng.pick(&["release acc s n", "release read s n"]),
        9 => "if eq i 2\nlet k 2\nelse\njoin acc s n",
        10 => "assert eq s.n i",
        11 => rng.pick(&["sub k k one", "add k k k"]),
        12 => "let r s.n",
        _ if depth == 0 => {
            push(lines, "let r 0");
            return one_loop(rng, 1, step, lines);
        }
        _ => "assert ne s null",
    };
    push(lines, line);
}
