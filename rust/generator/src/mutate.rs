//! Mutations of a text by lines, fields and bytes, and texts without a plan.

use super::rng::Rng;

/// Words, names, numbers and other fields that a line may have.
const TOKENS: [&str; 68] = [
    "class",
    "field",
    "method",
    "requires",
    "ensures",
    "main",
    "var",
    "set",
    "let",
    "add",
    "sub",
    "new",
    "call",
    "open",
    "shut",
    "return",
    "assert",
    "release",
    "if",
    "else",
    "join",
    "loop",
    "again",
    "end",
    "acc",
    "read",
    "chain",
    "eq",
    "ne",
    "int",
    "null",
    "this",
    "result",
    "this.n",
    "a.f",
    "null.f",
    "x.",
    ".f",
    "x.f.g",
    "S",
    "T",
    "a",
    "b",
    "s",
    "t",
    "f",
    "g",
    "n",
    "next",
    "m",
    "0",
    "1",
    "7",
    "-1",
    "-0",
    "01",
    "2147483647",
    "2147483648",
    "-2147483648",
    "-2147483649",
    "",
    "abcdefghijklm",
    "abcdefghijkl",
    "a_b",
    "9",
    "unknown",
    "this.null",
    "result.f",
];

const SEPARATORS: [u8; 6] = [b'\t', b'\t', b'\t', b'\n', b'\n', b' '];

/// The lines of a text, each a list of fields. A last line without LF is
/// treated as if it had one.
pub fn fields_of(text: &[u8]) -> Vec<Vec<Vec<u8>>> {
    let mut lines: Vec<_> = text
        .split(|&byte| byte == b'\n')
        .map(|line| {
            line.split(|&byte| byte == b'\t')
                .map(<[u8]>::to_vec)
                .collect()
        })
        .collect();
    lines.pop();
    lines
}

pub fn text_from(lines: &[Vec<Vec<u8>>]) -> Vec<u8> {
    let mut text = Vec::new();
    for line in lines {
        text.extend(line.join(&b'\t'));
        text.push(b'\n');
    }
    text
}

/// A field of the text itself, two of them as a path, or one of the usual ones.
fn token(rng: &mut Rng, lines: &[Vec<Vec<u8>>]) -> Vec<u8> {
    let own = |rng: &mut Rng| {
        let line = rng.below(lines.len());
        rng.pick(&lines[line])
    };
    match rng.below(100) {
        0..=24 => rng.pick(&TOKENS).as_bytes().to_vec(),
        25..=34 => [own(rng), b".".to_vec(), own(rng)].concat(),
        _ => own(rng),
    }
}

/// A field gives way to the one at its place in a line with the same word, so
/// that the form of the line stays.
pub fn exchange(rng: &mut Rng, lines: &mut [Vec<Vec<u8>>], at: usize) {
    let alike = |line: &&Vec<Vec<u8>>| line[0] == lines[at][0] && line.len() > 1;
    let others: Vec<&Vec<Vec<u8>>> = lines.iter().filter(alike).collect();
    let Some(other) = rng.choose(&others) else {
        return;
    };
    let place = rng.within(1, other.len() - 1);
    let new = other[place].clone();
    if let Some(field) = lines[at].get_mut(place) {
        *field = new;
    }
}

/// One change of a field or of a line.
pub fn mutate_line(rng: &mut Rng, lines: &mut Vec<Vec<Vec<u8>>>) {
    if lines.is_empty() {
        return;
    }
    let at = rng.below(lines.len());
    let place = rng.below(lines[at].len());
    let new = token(rng, lines);
    let other = rng.below(lines.len());
    match rng.below(16) {
        0..=5 => exchange(rng, lines, at),
        6..=9 => lines[at][place] = new,
        10 => lines[at].insert(place, new),
        11 => {
            lines[at].remove(place);
            if lines[at].is_empty() {
                lines.remove(at);
            }
        }
        12 => {
            lines.remove(at);
        }
        13 => {
            let copy = lines[other].clone();
            lines.insert(at, copy);
        }
        14 => lines.swap(at, other),
        _ => {
            let atoms = lines[other].clone();
            lines[at].extend(atoms.into_iter().skip(1).take(3));
        }
    }
}

fn mutate_bytes(rng: &mut Rng, text: &mut Vec<u8>) {
    if text.is_empty() {
        return;
    }
    let at = rng.below(text.len());
    match rng.below(6) {
        0 => text[at] = rng.below(256) as u8,
        1 => text[at] = rng.within(33, 126) as u8,
        2 => text.insert(at, rng.pick(&SEPARATORS)),
        3 => {
            text.remove(at);
        }
        4 => text.truncate(at),
        _ => text[at] = rng.pick(&SEPARATORS),
    }
}

/// A text with one to four changes.
pub fn mutated(rng: &mut Rng, text: &[u8]) -> Vec<u8> {
    let mut text = text.to_vec();
    for _ in 0..rng.within(1, 4) {
        if rng.chance(90) {
            let mut lines = fields_of(&text);
            mutate_line(rng, &mut lines);
            text = text_from(&lines);
        } else {
            mutate_bytes(rng, &mut text);
        }
    }
    text
}

/// Bytes, printable bytes, or tokens with separators.
pub fn arbitrary(rng: &mut Rng) -> Vec<u8> {
    let length = rng.below(200);
    match rng.below(4) {
        0 => (0..length).map(|_| rng.below(256) as u8).collect(),
        1 => (0..length)
            .map(|_| match rng.chance(20) {
                true => rng.pick(&SEPARATORS),
                false => rng.within(33, 126) as u8,
            })
            .collect(),
        2 => {
            let mut text = Vec::new();
            for _ in 0..length {
                text.extend(rng.pick(&TOKENS).bytes());
                text.push(rng.pick(&SEPARATORS));
            }
            text
        }
        _ => small(rng),
    }
}

/// A main of few lines made of random tokens, most with the right form.
fn small(rng: &mut Rng) -> Vec<u8> {
    let mut text =
        "class S\nfield S f\nfield int n\nmain\nvar S s\nvar S t\nvar int a\n".to_string();
    let name = |rng: &mut Rng| rng.pick(&["s", "t", "a", "f", "n", "S", "this"]);
    let expr = |rng: &mut Rng| rng.pick(&["s", "t", "a", "s.f", "t.f", "s.n", "t.n", "null", "0"]);
    for _ in 0..rng.below(7) {
        let line = match rng.below(10) {
            0 => format!("set {} {} {}", name(rng), name(rng), name(rng)),
            1 => format!("let {} {}", name(rng), expr(rng)),
            2 => format!("new {} S", name(rng)),
            3 => format!("assert eq {} {}", expr(rng), expr(rng)),
            4 => format!(
                "release {} {} {}",
                rng.pick(&["acc", "read", "chain"]),
                name(rng),
                name(rng)
            ),
            5 => format!(
                "{} a {} {}",
                rng.pick(&["add", "sub"]),
                name(rng),
                name(rng)
            ),
            6 => format!("if ne {} {}\nelse\njoin", expr(rng), expr(rng)),
            7 => format!("open {} {} {}", name(rng), name(rng), name(rng)),
            8 => format!("shut {} {}", name(rng), name(rng)),
            _ => format!("loop ne {} {} read s n\nagain", expr(rng), expr(rng)),
        };
        text.push_str(&line);
        text.push('\n');
    }
    text.push_str("end\n");
    text.replace(' ', "\t").into_bytes()
}
