//! Whole programs: the declarations, contracts that can be met, and bodies.

use super::contracts::contract;
use super::facts::framed;
use super::render;
use super::rng::Rng;
use super::skeleton::{skeleton, Size};
use super::writer::{Style, Writer};
use crate::checker::{alone, State};
use crate::limits;
use crate::names::{Action, Atom, Block, Formula, Program};
use crate::read;

/// Lines as a text.
pub fn joined(lines: &[String]) -> Vec<u8> {
    let mut text = Vec::new();
    for line in lines {
        text.extend_from_slice(line.as_bytes());
        text.push(b'\n');
    }
    text
}

/// A formula without one atom and without what that atom frames.
fn weakened<'a>(rng: &mut Rng, formula: &[Atom<'a>]) -> Formula<'a> {
    let mut formula = formula.to_vec();
    formula.remove(rng.below(formula.len()));
    let mut kept = Vec::new();
    for atom in formula {
        kept.push(atom);
        if !framed(&kept) {
            kept.pop();
        }
    }
    kept
}

/// Gives a method a contract that an empty body, once finished, meets.
fn give_contract(rng: &mut Rng, program: &mut Program, index: usize, style: &Style) {
    let contract = contract(rng, program, &program.blocks[index], style);
    let block = &mut program.blocks[index];
    (block.requires, block.ensures) = contract;
    while !finishes(rng, program, index) {
        let ensures = weakened(rng, &program.blocks[index].ensures);
        program.blocks[index].ensures = ensures;
    }
}

/// The state at the start of a block.
fn start<'a>(block: &Block<'a>) -> State<'a> {
    alone(&block.requires, None)
}

const PLAIN: Style = Style {
    recursive: false,
    loops: false,
    halves: 0,
    chains: 0,
    wild: 0,
    miss: None,
};

fn finishes(rng: &mut Rng, program: &Program, index: usize) -> bool {
    let mut writer = Writer {
        program,
        index,
        rng,
        style: PLAIN,
        lines: Vec::new(),
        budget: 0,
        invariants: Vec::new(),
    };
    writer.finish(&start(&program.blocks[index])).is_some()
}

/// The statement lines of a block, without its `end`; none if its ensures could
/// not be reached. What the style asks for once is used up.
fn body(rng: &mut Rng, program: &Program, index: usize, style: &mut Style) -> Option<Vec<String>> {
    let main = program.blocks[index].header.is_none();
    let budget = match main {
        true => rng.pick(&[4, 8, 12, 20, 40]),
        false => rng.pick(&[0, 2, 4, 6, 10]),
    };
    let mut writer = Writer {
        program,
        index,
        rng,
        style: *style,
        lines: Vec::new(),
        budget,
        invariants: Vec::new(),
    };
    let state = start(&program.blocks[index]);
    let state = writer.body(state, 0, 3 * budget);
    let mut closing = (0..20).find_map(|_| writer.finish(&state))?;
    let missed = !closing.is_empty() && writer.style.miss.is_some() && writer.rng.chance(10);
    if missed || writer.rng.chance(writer.style.wild / 2) {
        // The `end`, or the last `return`, may not show its ensures.
        writer.style.miss = None;
        let last = closing.pop();
        closing.clear();
        closing.extend(last.filter(|last| matches!(last, Action::Return(_))));
    }
    let block = &program.blocks[index];
    *style = writer.style;
    let mut lines = writer.lines;
    let closing = closing
        .iter()
        .map(|action| render::action(program, block, action));
    lines.extend(closing);
    Some(lines)
}

/// The declarations with contracts and bodies put in.
fn assembled(declarations: &[String], program: &Program, bodies: &[Vec<String>]) -> Vec<String> {
    let mut lines = Vec::new();
    let mut index = 0;
    for line in declarations {
        match line.as_str() {
            "requires" => {
                let block = &program.blocks[index];
                lines.push(render::formula(block, "requires", &block.requires));
            }
            "ensures" => {
                let block = &program.blocks[index];
                lines.push(render::formula(block, "ensures", &block.ensures));
            }
            "end" => {
                lines.extend(bodies[index].iter().cloned());
                lines.push("end".to_string());
                index += 1;
            }
            _ => lines.push(line.clone()),
        }
    }
    lines
}

/// The lines of a program in a style, within the limit of statement lines.
pub fn lines(rng: &mut Rng, style: Style) -> Vec<String> {
    loop {
        let size = Size::random(rng);
        let declarations = skeleton(rng, size);
        let text = joined(&declarations);
        let mut program = read(&text).expect("declarations that the reader takes");
        for index in 0..program.blocks.len() - 1 {
            give_contract(rng, &mut program, index, &style);
        }
        let mut style = style;
        let bodies: Option<Vec<_>> = (0..program.blocks.len())
            .map(|index| body(rng, &program, index, &mut style))
            .collect();
        let Some(bodies) = bodies else { continue };
        let statements: usize = bodies.iter().map(|body| body.len() + 1).sum();
        if statements <= limits::STATEMENT_LINES {
            return assembled(&declarations, &program, &bodies);
        }
    }
}

/// Of a hundred permissions so many by halves: programs have none, some or many.
const HALVES: [usize; 3] = [0, 50, 80];
/// Of a hundred links so many as chains.
const CHAINS: [usize; 4] = [0, 0, 40, 70];

/// A program that check accepts.
pub fn accepted(rng: &mut Rng) -> Vec<u8> {
    let style = Style {
        recursive: rng.chance(35),
        loops: rng.chance(60),
        halves: rng.pick(&HALVES),
        chains: rng.pick(&CHAINS),
        ..PLAIN
    };
    joined(&lines(rng, style))
}

/// A program in which some lines are kept whatever the checker says.
pub fn wild(rng: &mut Rng) -> Vec<u8> {
    let style = Style {
        recursive: rng.chance(35),
        loops: rng.chance(60),
        halves: rng.pick(&HALVES),
        chains: rng.pick(&CHAINS),
        wild: rng.pick(&[5, 20, 60]),
        miss: None,
    };
    joined(&lines(rng, style))
}

/// A program with one line for which the checker gives this number.
pub fn with_miss(rng: &mut Rng, number: u32) -> Vec<u8> {
    let style = Style {
        recursive: rng.chance(20),
        loops: rng.chance(60),
        halves: rng.pick(&HALVES),
        chains: rng.pick(&CHAINS),
        wild: 0,
        miss: Some(number),
    };
    joined(&lines(rng, style))
}
