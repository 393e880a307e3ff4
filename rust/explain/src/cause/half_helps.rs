//! Help with halves: who keeps the other one, and whether a half is enough.

use super::helps::in_contract;
use super::route::{named, Step};
use super::rules::Unshown;
use crate::script::{line, shown, Names, Script};
use model::names::{Action, Atom, Call, Path, PARAM, THIS};
use model::number::DONE;
use model::text::Share;

/// The formula that keeps a half back: its line, its atoms, and what it is called.
struct Keeper<'s, 'a> {
    line: u32,
    formula: &'s [Atom<'a>],
    names: Names<'s, 'a>,
    of: String,
}

/// What helps, where the check then comes past the line: a `read` made `acc`, or
/// the other half given back.
pub fn help(unshown: &Unshown, gone: Option<usize>) -> Option<String> {
    let Atom::Permission(_, path) = unshown.wanted else {
        return None;
    };
    let (keeper, var) = keeper(unshown, path, gone)?;
    let (line, of) = (keeper.line, &keeper.of);
    let [half, whole] = [Share::Read, Share::Acc]
        .map(|share| format!("{} {var} {}", share.word(), shown(path.field)));
    let asks = |atom: &&Atom| keeper.names.atom(**atom) == half;
    match keeper.formula.iter().find(asks) {
        Some(_) => {
            let new = replaced(unshown.script, line, &half, Share::Acc.word());
            let said = format!("write `{whole}` for `{half}` in {of} (line {line})");
            past(unshown, line, &new).then_some(said)
        }
        None => {
            let new = added(unshown.script, line, &half);
            let said = format!("add `{half}` to {of} (line {line})");
            past(unshown, line, &new).then_some(said)
        }
    }
}

/// The formula that has, or should have, the other half, and the path's variable
/// in its names.
fn keeper<'s, 'a>(
    unshown: &Unshown<'s, 'a>,
    path: Path<'a>,
    gone: Option<usize>,
) -> Option<(Keeper<'s, 'a>, String)> {
    let script = unshown.script;
    let names = unshown.names();
    let own = |line, formula, of: &str| Keeper {
        line,
        formula,
        names,
        of: of.to_string(),
    };
    let Some(place) = gone else {
        let in_method = names.block.header.is_some() && matches!(path.var, THIS | PARAM);
        let (line, _) = script.contract_lines(script.block_of(unshown.asked.place));
        let keeper = own(line, &names.block.requires, "`requires`");
        return in_method.then(|| (keeper, names.var(path.var)));
    };
    let statement = named(script, place);
    Some(match &statement.action {
        Action::Call(call) => {
            let keeper = ensures(script, *call);
            let var = in_contract(*call, &keeper.names, path.var)?;
            (keeper, var)
        }
        Action::Join(formula) => (
            own(statement.line, formula, "the `join`"),
            names.var(path.var),
        ),
        Action::Loop(rounds) => {
            let keeper = own(statement.line, &rounds.invariant, "the `loop`");
            (keeper, names.var(path.var))
        }
        _ => return None,
    })
}

/// What the called method gives back.
fn ensures<'s, 'a>(script: &'s Script<'a>, call: Call) -> Keeper<'s, 'a> {
    let names = script.names(call.method);
    let (_, line) = script.contract_lines(call.method);
    let name = names.block.header.map_or(&b""[..], |header| header.name);
    Keeper {
        line,
        formula: &names.block.ensures,
        names,
        of: format!("the `ensures` of `{}`", shown(name)),
    }
}

/// The line with one word of an atom changed.
fn replaced(script: &Script, number: u32, atom: &str, word: &str) -> String {
    let line = text_of(script, number);
    let mut fields: Vec<&str> = line.split('\t').collect();
    let wanted: Vec<&str> = atom.split(' ').collect();
    let places = (1..fields.len()).step_by(3);
    let mut found = places.filter(|&at| fields.get(at..at + 3) == Some(&wanted[..]));
    if let Some(at) = found.next() {
        fields[at] = word;
    }
    fields.join("\t")
}

/// The line with a further atom.
fn added(script: &Script, number: u32, atom: &str) -> String {
    let line = text_of(script, number);
    format!("{line}\t{}", atom.replace(' ', "\t"))
}

/// A line of the text.
fn text_of(script: &Script, number: u32) -> String {
    shown(line(script.text, number).unwrap_or_default())
}

/// The line up to which the check comes with this line changed.
fn reached(script: &Script, number: u32, new: &str) -> u32 {
    let mut lines: Vec<&[u8]> = script.text.split(|&byte| byte == b'\n').collect();
    lines[number as usize - 1] = new.as_bytes();
    match model::check(&lines.join(&b'\n')) {
        (DONE, _) => u32::MAX,
        (_, line) => line,
    }
}

/// Does the check with this line changed come past the line that asks?
fn past(unshown: &Unshown, number: u32, new: &str) -> bool {
    let asks = unshown.script.program.statements[unshown.asked.place].line;
    reached(unshown.script, number, new) > asks
}

/// What the help offers for a path that is read: both halves where both were held
/// before they went, or where the block needs them, else one.
pub fn offered<'a>(
    unshown: &Unshown<'_, 'a>,
    steps: &[Step<'_, 'a>],
    lost_at: Option<usize>,
) -> Atom<'a> {
    let Some(path) = unshown.read else {
        return unshown.wanted;
    };
    let whole = Atom::Permission(Share::Acc, path);
    let was_whole =
        |step: &Step<'_, 'a>| lost_at == Some(step.place) && step.before.show(&[whole]).is_ok();
    let needs = || {
        let names = unshown.names();
        let (line, _) =
            (unshown.script).contract_lines(unshown.script.block_of(unshown.asked.place));
        let with = |atom| {
            let new = added(unshown.script, line, &names.atom(atom));
            reached(unshown.script, line, &new)
        };
        names.block.header.is_some() && with(whole) > with(unshown.wanted)
    };
    match steps.iter().any(was_whole) || (lost_at.is_none() && needs()) {
        true => whole,
        false => unshown.wanted,
    }
}
