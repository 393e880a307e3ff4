//! Every refusal of a text that does not follow from another: a broken line is
//! replaced by one that does nothing, and the text is read on; each method is
//! checked on its own. The first refusal is that of check itself.

use crate::cause::{cause, Cause};
use crate::fmt::formatted;
use crate::script::Script;
use model::framing::unframed_in;
use model::names::Action;
use model::number;
use model::watch::Record;
use nuyardi::Refusal;
use std::collections::BTreeSet;

/// A refusal besides the first.
#[derive(Clone, Debug, PartialEq, Eq)]
pub struct Further {
    /// Its number.
    pub number: u32,
    /// Its line.
    pub line: u32,
    /// Its cause, where one is seen.
    pub cause: Option<Cause>,
}

/// At most that many refusals are listed.
pub const MOST: usize = 50;

/// A text with its broken lines replaced, and what was found on the way.
struct Pass {
    text: Vec<u8>,
    found: Vec<Further>,
    /// The lines that were replaced.
    broken: BTreeSet<u32>,
    /// Names that a replaced line declares.
    lost: BTreeSet<Vec<u8>>,
}

/// The names that a broken line would declare.
fn declared(line: &[u8]) -> Vec<Vec<u8>> {
    let fields: Vec<&[u8]> = line
        .split(|&byte| byte == b'\t' || byte == b' ')
        .filter(|field| !field.is_empty())
        .collect();
    match fields.first() {
        Some(&(b"class" | b"field" | b"var" | b"method")) => {
            fields[1..].iter().map(|field| field.to_vec()).collect()
        }
        _ => Vec::new(),
    }
}

/// Lines that do nothing, one of which may stand for a broken one.
fn neutral(line: &[u8], at: u32) -> Vec<String> {
    let first = line.split(|&byte| byte == b'\t' || byte == b' ').next();
    let better = String::from_utf8_lossy(&formatted(line)).into_owned();
    let better = better.trim_end_matches('\n').to_string();
    let mut lines: Vec<String> = match first.unwrap_or_default() {
        _ if better.as_bytes() != line && !better.contains('\n') => vec![better],
        b"requires" => vec!["requires".into()],
        b"ensures" => vec!["ensures".into()],
        b"join" => vec!["join".into()],
        b"if" => vec!["if\teq\t0\t0".into()],
        b"loop" => vec!["loop\teq\t0\t0".into()],
        b"class" => vec![format!("class\tZ{at}")],
        b"method" => vec![format!("method\tint\tZ{at}\tint\tZ{at}")],
        word @ (b"else" | b"again" | b"end" | b"main") => {
            vec![String::from_utf8_lossy(word).into_owned()]
        }
        _ => Vec::new(),
    };
    lines.push("assert".to_string());
    lines.push(format!("var\tint\tZ{at}"));
    lines.push(format!("field\tint\tZ{at}"));
    lines.push(format!("class\tZ{at}"));
    lines
}

fn with_line(text: &[u8], number: u32, line: &str) -> Vec<u8> {
    let mut lines: Vec<&[u8]> = text.split(|&byte| byte == b'\n').collect();
    match lines.get_mut(number as usize - 1) {
        Some(old) => *old = line.as_bytes(),
        None => return text.to_vec(),
    }
    let ended = lines.last().is_some_and(|last| last.is_empty());
    let mut out = lines.join(&b'\n');
    if !ended {
        out.push(b'\n');
    }
    out
}

/// Where in the order of the tests an answer stands.
fn order(answer: (u32, u32)) -> (u32, u32) {
    match answer.0 {
        number::DONE => (9, 0),
        number::TOO_LONG => (0, 0),
        number::BYTE | number::FORM | number::LIMIT => (1, answer.1),
        number::UNFINISHED => (2, 0),
        number::NAME | number::TYPE | number::ASSIGNED => (3, answer.1),
        number::UNFRAMED => (4, answer.1),
        _ => (5, answer.1),
    }
}

impl Pass {
    /// Does the line name what a broken line would have declared?
    fn follows(&self, line: &[u8]) -> bool {
        line.split(|&byte| byte == b'\t' || byte == b'.')
            .any(|field| self.lost.contains(field))
    }

    fn line(&self, number: u32) -> Vec<u8> {
        crate::script::line(&self.text, number)
            .unwrap_or_default()
            .to_vec()
    }

    /// Takes down a refusal of the text as it is now, unless it follows from a
    /// line that was replaced.
    fn note(&mut self, answer: (u32, u32)) {
        let line = self.line(answer.1);
        if self.follows(&line) || self.found.len() == MOST {
            return;
        }
        let refusal = nuyardi::Returned::of(answer.0 * 65_536 + answer.1).refusal();
        self.found.push(Further {
            number: answer.0,
            line: answer.1,
            cause: refusal
                .and_then(|refusal: Refusal| cause(&self.text, refusal))
                .and_then(|cause| self.told(cause.with_fix(answer.0, None))),
        });
    }

    /// A cause without what names a line that does nothing.
    fn told(&self, mut cause: Cause) -> Option<Cause> {
        let stands = |text: &String| {
            let mut broken = self.broken.iter();
            broken.any(|line| text.contains(&format!("`Z{line}`")))
        };
        cause.notes.retain(|note| !stands(note));
        cause.head = cause.head.filter(|head| !stands(head));
        (!stands(&cause.text)).then_some(cause)
    }

    /// Puts a line that does nothing in the place of a broken one; false if none
    /// lets the check go on.
    fn replace(&mut self, answer: (u32, u32)) -> bool {
        let line = self.line(answer.1);
        let tried = neutral(&line, answer.1).into_iter().map(|other| {
            let text = with_line(&self.text, answer.1, &other);
            (order(model::check(&text)), text)
        });
        // Of two that come equally far the first.
        let best = tried.reduce(|best, next| if next.0 > best.0 { next } else { best });
        let Some((_, text)) = best.filter(|best| best.0 > order(answer)) else {
            return false;
        };
        self.text = text;
        if self.line(answer.1) != formatted(&line).trim_ascii_end() {
            self.lost.extend(declared(&line));
            self.broken.insert(answer.1);
        }
        true
    }

    /// Reads the text up to the rules; the form, names and types of each line.
    fn read(text: &[u8]) -> (Pass, bool) {
        let mut pass = Pass {
            text: text.to_vec(),
            found: Vec::new(),
            broken: BTreeSet::new(),
            lost: BTreeSet::new(),
        };
        for _ in 0..2 * MOST {
            let answer = model::check(&pass.text);
            match answer.0 {
                number::BYTE..=number::TYPE | number::ASSIGNED => {}
                number::TOO_LONG | number::UNFINISHED => {
                    pass.note(answer);
                    return (pass, false);
                }
                _ => return (pass, true),
            }
            pass.note(answer);
            if !pass.replace(answer) {
                return (pass, false);
            }
        }
        (pass, false)
    }
}

/// The text with broken lines replaced by lines that do nothing, each at its
/// number, if the reader then takes it; none for a text that it takes as it is.
pub fn readable(text: &[u8]) -> Option<Vec<u8>> {
    let (pass, whole) = Pass::read(text);
    (whole && !pass.broken.is_empty()).then_some(pass.text)
}

/// The blocks that have a broken line, or call a method whose contract has one.
fn doubtful(script: &Script, broken: &BTreeSet<u32>) -> BTreeSet<usize> {
    let blocks = 0..script.program.blocks.len();
    let contract = |block: usize| {
        let (requires, ensures) = script.contract_lines(block);
        let own = script.program.blocks[block].header.is_some();
        own && (broken.contains(&requires) || broken.contains(&ensures))
    };
    let end = |block: usize| script.program.body(block).last().map_or(0, |end| end.line);
    let inside = |block: usize| {
        let lines = script.block_line(block)..=end(block);
        broken.range(lines).next().is_some()
    };
    let calls = |block: usize| {
        let body = script.program.body(block).iter();
        body.clone()
            .any(|line| matches!(line.action, Action::Call(call) if contract(call.method)))
    };
    blocks
        .filter(|&block| inside(block) || calls(block))
        .collect()
}

/// The refusals by number 10, line by line, and those of the rules, the first of
/// each method.
fn ruled(pass: &mut Pass) -> Option<()> {
    let text = pass.text.clone();
    let script = Script::of(&text)?;
    let mut broken = pass.broken.clone();
    for (at, line) in script.lines.iter().enumerate() {
        let number = at as u32 + 1;
        if unframed_in(line).is_some() && pass.found.len() < MOST {
            broken.insert(number);
            pass.found.push(Further {
                number: number::UNFRAMED,
                line: number,
                cause: crate::cause::unframed(&text, number)
                    .map(|cause| cause.with_fix(number::UNFRAMED, None)),
            });
        }
    }
    let doubtful = doubtful(&script, &broken);
    for block in (0..script.program.blocks.len()).filter(|block| !doubtful.contains(block)) {
        let record = Record::of_block(&script.program, block);
        let Some(refusal) = record.refusal.filter(|_| pass.found.len() < MOST) else {
            continue;
        };
        pass.found.push(Further {
            number: refusal.number(),
            line: refusal.line,
            cause: crate::cause::rules::cause_in(&script, &record, refusal.line)
                .map(|cause| cause.with_fix(refusal.number(), None)),
        });
    }
    Some(())
}

/// The refusals of a text besides the first, in order of the tests.
pub fn further(text: &[u8]) -> Vec<Further> {
    let first = model::check(text);
    let (mut pass, whole) = Pass::read(text);
    if whole {
        ruled(&mut pass);
    }
    pass.found
        .retain(|found| (found.number, found.line) != first);
    pass.found
}

#[cfg(test)]
mod tests {
    use super::*;

    fn lines(text: &str) -> Vec<(u32, u32)> {
        let text = text.replace(' ', "\t").replace('|', "\n") + "\n";
        let first = model::check(text.as_bytes());
        let others = further(text.as_bytes()).into_iter();
        let others = others.map(|other| (other.number, other.line));
        [first].into_iter().chain(others).collect()
    }

    #[test]
    fn every_independent_refusal() {
        for (text, all) in [
            // Two lines without a form, and an undeclared name.
            (
                "main|var int a|lett a 7|let b 1|foo|end",
                vec![(4, 3), (4, 5), (6, 4)],
            ),
            // The rules, method by method.
            (
                "class C|field int n|method int m int k|requires|ensures|set this n k|return k|end\
                 |method int p int k|requires|ensures acc this n|return k|end|main|var int a\
                 |assert eq a 7|end",
                vec![(12, 6), (12, 12), (13, 16)],
            ),
            // What follows from a broken declaration is not listed.
            ("main|var Card c d|let c 7|end", vec![(4, 2)]),
            ("main|var Card c|new c Card|end", vec![(6, 2)]),
            // Number 10, and the block that is not checked for it.
            (
                "class C|field int n|method int m int k|requires eq this.n k|ensures|return k|end\
                 |main|var int a|assert eq a 7|end",
                vec![(10, 4), (13, 10)],
            ),
        ] {
            assert_eq!(lines(text), all, "{text}");
        }
    }

    /// No text makes it panic, the first refusal comes once, and a text that is
    /// accepted has none.
    #[test]
    fn random_texts() {
        for seed in 0..500 {
            let text = generator::text(0x7200_0000 + seed);
            let first = model::check(&text);
            let others = further(&text);
            let count = text.iter().filter(|&&byte| byte == b'\n').count() as u32;
            assert!(others.len() <= MOST);
            for other in &others {
                assert_ne!((other.number, other.line), first);
                assert!(other.line <= count + 1);
            }
            assert!(first.0 != 0 || others.is_empty(), "{others:?}");
        }
    }

    #[test]
    fn known_around_an_unfinished_line() {
        let text = b"main\nvar\tint\ta\nlet\ta\t7\nlet\ta\nassert\teq\ta\t7\nend\n";
        let patched = readable(text).expect("a readable text");
        assert_eq!(model::check(&patched), (0, 0));
        assert_eq!(crate::script::quoted(&patched, 5), "assert eq a 7");
        assert_eq!(readable(&patched), None);
    }
}
