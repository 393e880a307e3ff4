//! Halves in a run that stopped: what was missing, and where the other half is.

use super::Cause;
use crate::script::{quoted, Names, Script};
use model::machine::{Machine, Step};
use model::names::{Action, Expr};
use model::watch::{Halt, Missing};

/// What a formula of a run lacks.
pub fn lack(missing: Option<Missing>) -> &'static str {
    match missing.map(|missing| (missing.held, missing.taken)) {
        Some((0, _)) | None => "does not hold the field",
        Some((1, 0)) => "holds a half of the field, and `acc` needs both",
        Some((1, _)) => "holds a half of the field, and an earlier atom took it",
        Some((_, 1)) => "holds the field, and an earlier atom took a half of it",
        Some(_) => "holds the field, and earlier atoms took it",
    }
}

/// "main holds a half of `c.tag`, and `set` needs both".
pub fn half_written(names: &Names, action: &Action, halt: Halt) -> Option<String> {
    let path = names.expr(Expr::Path(halt.path?));
    let word = match action {
        Action::Shut(_) => "shut",
        _ => "set",
    };
    let half = halt.missing.is_some_and(|missing| missing.held == 1);
    half.then(|| {
        format!(
            "{} holds a half of `{path}`, and `{word}` needs both",
            names.title()
        )
    })
}

/// The cause of a stop with where the other half is, if one half was held.
pub fn with_other(cause: Cause, script: &Script, machine: &Machine, halt: Halt) -> Cause {
    let Some(missing) = halt.missing.filter(|missing| missing.held == 1) else {
        return cause;
    };
    let here = machine.frames.len() - 1;
    let mut others = machine.holders(missing.location);
    let other = others.find(|&(frame, _)| frame != here);
    let holder = match other {
        Some((frame, _)) => script.names(machine.frames[frame].block).title(),
        None => "nobody".to_string(),
    };
    cause.note(match half_went(script, machine, missing.location) {
        Some(line) => format!(
            "the other half went at line {line}: `{}`, and {holder} holds it now",
            quoted(script.text, line)
        ),
        None => format!("{holder} holds the other half"),
    })
}

/// The line of the last step after which the running frame had fewer than both
/// halves of a location.
fn half_went(script: &Script, stopped: &Machine, location: usize) -> Option<u32> {
    let here = stopped.frames.len() - 1;
    let mut machine = Machine::new(&script.program);
    let mut went = None;
    while machine.steps < stopped.steps {
        let line = machine.statement().line;
        let held = |machine: &Machine| {
            let frame = machine.frames.get(here);
            frame.map(|frame| location < machine.heap.len() && frame.held.halves(location) == 2)
        };
        let before = held(&machine);
        if machine.step() != Ok(Step::On) {
            break;
        }
        went = match (before, held(&machine)) {
            (Some(true), Some(false)) => Some(line),
            (_, None | Some(true)) => None,
            _ => went,
        };
    }
    went
}
