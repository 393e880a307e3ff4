//! Near misses: a text that is right but for one thing, for each number.

use super::forms::{after_return, loop_form, number_form, read_form};
use super::full::{full_of_chains, full_of_halves, full_state};
use super::links::{chain_form, chain_name};
use super::mutate::{exchange, fields_of, mutate_line, text_from};
use super::program::{accepted, joined, with_miss};
use super::readers::missed;
use super::rng::Rng;
use super::rounds::missed as no_round;
use super::routes::passed;
use super::walks::{missed as no_chain, walked};
use crate::check;
use crate::limits;
use crate::number;
use crate::text::Share;

/// The lines of a text, each a list of fields.
pub(super) type Fields = Vec<Vec<Vec<u8>>>;

/// A text for which check gives the number, in most cases; 16 is bound's.
pub fn miss(rng: &mut Rng, number: u32) -> Vec<u8> {
    match number {
        number::TOO_LONG => too_long(rng),
        number::BYTE => bad_byte(rng),
        number::LIMIT => past_limit(rng),
        number::UNFINISHED => unfinished(rng),
        number::UNFRAMED => unframed(rng),
        number::STATE_FULL => full(rng),
        number::BOUND_PASSED => passed(rng),
        number::NO_PERMISSION | number::NOT_SHOWN if rng.chance(15) => missed(rng, number),
        number::NO_PERMISSION | number::NOT_SHOWN if rng.chance(15) => no_chain(rng, number),
        number::NO_PERMISSION | number::NOT_SHOWN if rng.chance(5) => no_round(rng, number),
        number::UNRESOLVED..=number::NOT_SHOWN if rng.chance(70) => with_miss(rng, number),
        _ => searched(rng, number),
    }
}

/// Mutates a line of an accepted program until check gives the number.
fn searched(rng: &mut Rng, number: u32) -> Vec<u8> {
    let chains = rng.chance(25);
    let base = match chains {
        true => walked(rng),
        false => accepted(rng),
    };
    let base = fields_of(&base);
    let mut text = text_from(&base);
    for _ in 0..40 {
        let mut lines = base.clone();
        match number {
            number::ASSIGNED => assign_wrongly(rng, &mut lines),
            number::NAME | number::TYPE if chains => chain_name(rng, &mut lines),
            number::FORM if chains && rng.chance(60) => chain_form(rng, &mut lines),
            number::FORM if rng.chance(20) => after_return(rng, &mut lines),
            number::FORM if rng.chance(20) => loop_form(rng, &mut lines),
            number::FORM if rng.chance(15) => read_form(rng, &mut lines),
            number::FORM if rng.chance(10) => number_form(rng, &mut lines),
            number::FORM => mutate_line(rng, &mut lines),
            _ => {
                let at = rng.below(lines.len());
                exchange(rng, &mut lines, at);
            }
        }
        text = text_from(&lines);
        if check(&text).0 == number {
            break;
        }
    }
    text
}

/// A line that assigns, whose x is one that it may not be: a line's x is
/// changed, or a new line comes in.
fn assign_wrongly(rng: &mut Rng, lines: &mut Fields) {
    let words = [&b"let"[..], b"new", b"call", b"add", b"sub", b"open"];
    let assigns = |word: &[u8]| words.contains(&word);
    let places: Vec<usize> = (0..lines.len())
        .filter(|&at| assigns(&lines[at][0]))
        .collect();
    let Some(at) = rng.choose(&places) else {
        return;
    };
    let method = lines[..at].iter().rfind(|line| line[0] == b"method");
    let param = method.map_or(b"this".to_vec(), |line| line[4].clone());
    let x = rng.pick(&[b"this".to_vec(), b"result".to_vec(), param]);
    let line = &mut lines[at];
    match rng.below(4) {
        0 => line[1] = x,
        1 => line[1] = line[2].clone(),
        2 => line[1] = line[line.len() - 1].clone(),
        _ => *line = vec![b"let".to_vec(), x.clone(), x],
    }
}

fn too_long(rng: &mut Rng) -> Vec<u8> {
    let mut text = accepted(rng);
    while text.len() <= limits::TEXT_BYTES {
        text.extend_from_within(..text.len().min(4_096));
    }
    text.truncate(limits::TEXT_BYTES + rng.within(1, 50));
    text
}

fn bad_byte(rng: &mut Rng) -> Vec<u8> {
    let mut text = accepted(rng);
    let at = rng.below(text.len());
    match rng.below(3) {
        0 => text.truncate(text.len() - 1),
        1 => text[at] = rng.pick(&[0, 8, 11, 13, 32, 127, 128, 255]),
        _ => text.insert(at, rng.pick(&[0, 13, 32, 200])),
    }
    text
}

fn unfinished(rng: &mut Rng) -> Vec<u8> {
    let mut lines = fields_of(&accepted(rng));
    lines.truncate(rng.below(lines.len()));
    text_from(&lines)
}

pub(super) fn fields(source: &str) -> Vec<Vec<u8>> {
    source
        .split(' ')
        .map(|field| field.as_bytes().to_vec())
        .collect()
}

/// So many lines, each with its number.
fn numbered(count: usize, line: impl Fn(usize) -> String) -> Fields {
    (0..count).map(|at| fields(&line(at))).collect()
}

/// One of the limits of the text passed, or just reached.
fn past_limit(rng: &mut Rng) -> Vec<u8> {
    let mut lines = fields_of(&accepted(rng));
    let main = lines.iter().position(|line| line[0] == b"main");
    let main = main.expect("an accepted text has a main");
    let more = rng.below(3);
    match rng.below(6) {
        limit @ 0..=2 => {
            let declarations = too_many_declarations(limit, more);
            lines.splice(main..main, declarations);
        }
        3 => {
            lines.truncate(main + 1);
            lines.extend(numbered(11 + more, |at| format!("var int k{at}")));
            lines.push(fields("end"));
        }
        4 => {
            let end = lines.len() - 1;
            let two = rng.pick(&[["assert eq 1 1", "assert"], ["loop ne 1 1", "again"]]);
            let statements = numbered(200 + 30 * more, |at| two[at % 2].to_string());
            lines.splice(end..end, statements);
        }
        _ => {
            let end = lines.len() - 1;
            lines.splice(end..end, deep(rng, 3 + more));
        }
    }
    text_from(&lines)
}

/// Many classes, or a class with many fields or methods.
fn too_many_declarations(limit: usize, more: usize) -> Fields {
    let mut lines = vec![fields("class Kk")];
    match limit {
        0 => lines.extend(numbered(12 + more, |at| format!("class K{at}"))),
        1 => lines.extend(numbered(7 + more, |at| format!("field int k{at}"))),
        _ => {
            for at in 0..60 + 2 * more {
                lines.push(fields(&format!("method int k{at} int k")));
                lines.extend(["requires", "ensures", "end"].map(fields));
            }
        }
    }
    lines
}

/// Branches and loops inside each other, so many deep.
fn deep(rng: &mut Rng, depth: usize) -> Fields {
    let mut lines = Vec::new();
    for _ in 0..depth {
        let (open, close): (_, &[_]) = match rng.chance(50) {
            true => ("if eq 1 1", &["else", "join"]),
            false => ("loop ne 1 1", &["again"]),
        };
        let inner = std::mem::replace(&mut lines, vec![fields(open)]);
        lines.extend(inner);
        lines.extend(close.iter().map(|line| fields(line)));
    }
    lines
}

/// Where the formula starts that number 10 is about, if a permission comes first.
fn framing(line: &[Vec<u8>]) -> Option<usize> {
    let first = match line[0].as_slice() {
        b"requires" | b"ensures" | b"join" => 1,
        b"loop" => 4,
        _ => return None,
    };
    Share::named(line.get(first)?).map(|_| first)
}

/// A `requires`, `ensures`, `join` or `loop` that reads a path before its
/// permission or without it.
fn unframed(rng: &mut Rng) -> Vec<u8> {
    let mut lines = fields_of(&accepted(rng));
    let is_loop = |at: &usize| lines[*at][0] == b"loop";
    let mut places: Vec<usize> = (0..lines.len())
        .filter(|&at| framing(&lines[at]).is_some())
        .collect();
    if rng.chance(30) && places.iter().any(is_loop) {
        places.retain(is_loop);
    }
    let Some(at) = rng.choose(&places) else {
        return searched(rng, number::UNFRAMED);
    };
    let line = &mut lines[at];
    let first = framing(line).expect("one of the places");
    let path = [&line[first + 1][..], b".", &line[first + 2]].concat();
    let read = [b"eq".to_vec(), path.clone(), path];
    let chain = line[first] == b"chain";
    match rng.below(6) {
        // A chain does not serve a read of its path.
        0 | 5 if chain => drop(line.splice(first + 3..first + 3, read)),
        // The permission goes, the reads of its path stay.
        0 => drop(line.drain(first..first + 3)),
        // A read of the path comes before its permission.
        1..=3 => drop(line.splice(first..first, read)),
        // The condition of a loop reads the path, and its permission goes.
        4 if first > 1 => drop(line.splice(1..first + 3, read)),
        // The permission comes last.
        _ => line[first..].rotate_left(3),
    }
    text_from(&lines)
}

/// Main makes objects until its state is full.
fn full(rng: &mut Rng) -> Vec<u8> {
    match rng.below(100) {
        0..=49 => return full_state(rng),
        50..=64 => return full_of_halves(rng),
        65..=84 => return full_of_chains(rng),
        _ => {}
    }
    let count = rng.within(4, 8);
    let mut lines = vec!["class\tF".to_string()];
    lines.extend((0..count).map(|at| format!("field\tint\tf{at}")));
    lines.push("main".to_string());
    lines.extend((0..12).map(|at| format!("var\tF\tx{at}")));
    let objects = 64 / (count + 1) + rng.below(2);
    lines.extend((0..objects.min(12)).map(|at| format!("new\tx{at}\tF")));
    for _ in 0..rng.within(0, 10) {
        let (x, y, f) = (rng.below(12), rng.below(12), rng.below(count));
        lines.push(match rng.below(3) {
            0 => format!("let\tx{x}\tx{y}"),
            1 => format!("assert\tacc\tx{x}\tf{f}\tne\tx{x}\tnull"),
            _ => format!("if\teq\tx{x}\tx{y}\nelse\njoin"),
        });
    }
    lines.push("end".to_string());
    joined(&lines)
}
