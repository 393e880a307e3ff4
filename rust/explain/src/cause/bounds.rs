//! Numbers 15 and 16: why an accepted text has no bound.

use super::Cause;
use crate::routes::{unbounded, CallLine, Routes, Why};
use crate::script::{quoted, shown, Script};
use crate::show::{counted, grouped};
use model::limits;
use model::names::Action;
use nuyardi::Excess;

/// Why there is no bound, where the model agrees.
pub fn bound_cause(text: &[u8], excess: Excess, line: u32) -> Option<Cause> {
    let found = model::bound(text);
    let script = Script::of(text)?;
    if (found.number, found.line) != (excess.number(), line) {
        return None;
    }
    match excess {
        Excess::Unbounded => without_bound(&script, line),
        Excess::BoundPassed => Some(passed(&script)),
        _ => None,
    }
}

/// A `loop`, or a call that leads back to its own method.
fn without_bound(script: &Script, line: u32) -> Option<Cause> {
    let place = script.statement_at(line)?;
    let block = script.block_of(place);
    let routes = Routes::of(script);
    let cause = match &script.program.statements[place].action {
        Action::Loop(rounds) => {
            let again = script.program.statements[rounds.again].line;
            Cause::new("how often the loop goes round shows in a run alone")
                .note(format!("its rounds end at line {again}: `again`"))
        }
        Action::Call(call) => {
            let own = script.names(block).title();
            match call.method == block {
                true => Cause::new(format!("here {own} calls itself")),
                false => ring(script, &routes, line, block, call.method)?,
            }
        }
        _ => return None,
    };
    let cause = others(script, &routes, place)
        .into_iter()
        .fold(cause, Cause::note);
    Some(match routes.is_called(block) {
        true => cause,
        false => cause
            .note(format!(
                "no call of main leads to {}",
                script.names(block).title()
            ))
            .help("leave the method out, if nothing is to call it"),
    })
}

/// The calls by which a method comes back to itself, by way of others.
fn ring(script: &Script, routes: &Routes, line: u32, block: usize, method: usize) -> Option<Cause> {
    let back = routes.way(method, block)?;
    let said = format!("this call leads back to {}", script.names(block).title());
    let name = |block: usize| {
        let header = script.program.blocks[block].header;
        header.map_or_else(String::new, |header| shown(header.name))
    };
    let first = CallLine { line, method };
    let calls: Vec<CallLine> = [first].into_iter().chain(back).collect();
    let callers = [block]
        .into_iter()
        .chain(calls.iter().map(|call| call.method));
    let legs = calls.iter().zip(callers).map(|(call, caller)| {
        let (caller, method) = (name(caller), name(call.method));
        let quote = quoted(script.text, call.line);
        format!(
            "`{caller}` calls `{method}` at line {}: `{quote}`",
            call.line
        )
    });
    Some(legs.fold(Cause::new(said), Cause::note))
}

/// The other lines that leave no bound, but for those of the ring that is told.
fn others(script: &Script, routes: &Routes, first: usize) -> Vec<String> {
    let found = unbounded(script, routes);
    let told = found.iter().find(|(place, _)| *place == first);
    let told = match told {
        Some((_, Why::Ring(lines))) => lines.clone(),
        _ => Vec::new(),
    };
    let line = |place: usize| script.program.statements[place].line;
    let others = found.iter().filter(|(place, _)| *place != first);
    let others = others.filter(|(place, _)| !told.contains(&line(*place)));
    let said = |(place, why): &(usize, Why)| {
        let own = script.names(script.block_of(*place)).title();
        let at = line(*place);
        let quote = quoted(script.text, at);
        match why {
            Why::Loop(again) => {
                format!("no bound for line {at}: `{quote}` either, a loop up to line {again}")
            }
            Why::Ring(_) => {
                format!("no bound for line {at}: `{quote}` either, which leads back to {own}")
            }
        }
    };
    others.map(said).collect()
}

/// A bound above the limit, and the method that has most of it.
fn passed(script: &Script) -> Cause {
    let routes = Routes::of(script);
    let all = routes.costliest().first().map_or(0, |main| main.bound);
    let (block, times) = routes.heaviest();
    let lines = script.program.body(block).len() as u128;
    let said = format!(
        "main's lines and calls come to {}, and {} are the most for a bound",
        counted(all, "step"),
        grouped(u128::from(limits::BOUND))
    );
    Cause::new(said).note(format!(
        "{} has the most of them: {}, done {}",
        script.names(block).title(),
        counted(lines, "line"),
        counted(times, "time")
    ))
}
