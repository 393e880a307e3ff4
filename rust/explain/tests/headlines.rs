//! Headlines and second places, put to the machine: what a headline says of a line is so,
//! every line that a message names is shown, and every reason for number 15 is listed.

mod common;

use common::{refused, scripts};
use explain::script::{quoted, Script};
use explain::show::{self, Paint};
use explain::{Asked, Bounded, Model, Report};
use model::machine::{location, Machine, Step};
use model::names::{Action, Expr};
use std::collections::BTreeSet;

/// The number after a word.
fn after(said: &str, word: &str) -> Option<u32> {
    let rest = said.split(word).nth(1)?;
    let digits: String = rest.chars().take_while(char::is_ascii_digit).collect();
    digits.parse().ok()
}

/// What stands between the signs, the first and so on.
fn quotes(said: &str) -> Vec<&str> {
    said.split('`').skip(1).step_by(2).collect()
}

/// Does the frame that comes to a line ever hold the path there, in a trial?
fn ever_held(script: &Script, line: u32, path: &str) -> bool {
    let place = script.statement_at(line).expect("a statement");
    let names = script.names_at(place);
    let own = |expr: &Expr| names.expr(*expr) == path;
    let (x, f) = path.split_once('.').expect("a path");
    let var = (0..model::names::VARS).find(|&var| {
        let local = var < 2 + names.block.locals.len();
        local && names.kind(var).is_some() && names.var(var) == x
    });
    let Some(var) = var else { return false };
    let model::names::Type::Class(class) = names.kind(var).expect("a type") else {
        return false;
    };
    let class = &script.program.classes[script.program.class(class).expect("a class")];
    let slot = class
        .fields
        .iter()
        .position(|field| field.name == f.as_bytes());
    let path = model::names::Path {
        var,
        field: class.fields[slot.expect("a field")].name,
        slot: slot.expect("a field"),
    };
    assert!(own(&Expr::Path(path)));
    let mut machine = Machine::new(&script.program);
    while machine.steps < 2_000 {
        let frame = machine.frame();
        let here = machine.statement().line == line;
        let place = here.then(|| location(&machine.objects, &frame.values, path));
        let place = place.flatten();
        if place.is_some_and(|place| frame.held.halves(place) > 0) {
            return true;
        }
        if machine.step() != Ok(Step::On) {
            break;
        }
    }
    false
}

/// Has a variable a card where a trial comes to a line?
fn ever_card(script: &Script, line: u32, name: &str) -> bool {
    let place = script.statement_at(line).expect("a statement");
    let names = script.names_at(place);
    let vars = 0..2 + names.block.locals.len();
    let mut vars = vars.filter(|&var| names.kind(var).is_some() && names.var(var) == name);
    // The result is what a `return` names, and null at an `end`.
    let var = match (name, &script.program.statements[place].action) {
        ("result", Action::Return(x)) => *x,
        ("result", _) => return false,
        _ => vars.next().expect("a variable"),
    };
    let mut machine = Machine::new(&script.program);
    while machine.steps < 2_000 {
        if machine.statement().line == line && machine.frame().values[var] != 0 {
            return true;
        }
        if machine.step() != Ok(Step::On) {
            break;
        }
    }
    false
}

/// The words of a line.
fn words(text: &[u8], line: u32) -> Vec<String> {
    quoted(text, line).split(' ').map(str::to_string).collect()
}

/// Is what a headline says of the text so? What it is, if it is one that is tried.
fn holds(text: &[u8], line: u32, said: &str) -> Option<&'static str> {
    let script = Script::of(text)?;
    let quotes = quotes(said);
    if said.starts_with("nobody gave ") && said.contains("the permission to ") {
        let path = quotes.last().expect("a path");
        assert!(!ever_held(&script, line, path), "{said}");
        return Some("nobody gave");
    }
    if let Some(at) = after(said, "called at line ") {
        let call = words(text, at);
        assert_eq!(
            (call[0].as_str(), call[3].as_str()),
            ("call", quotes[0]),
            "{said}"
        );
        return Some("not given back");
    }
    if let Some(at) = after(said, "has another value since line ") {
        let place = script.statement_at(at).expect("a statement");
        let own = words(text, at)[1].clone();
        let gives = matches!(
            script.program.statements[place].action,
            Action::Let(..)
                | Action::New(..)
                | Action::Call(_)
                | Action::Open(_)
                | Action::Compute(_)
        );
        assert!(gives && own == quotes[0], "{said}");
        return Some("another value");
    }
    if let Some(at) = after(said, "since line ").filter(|_| said.ends_with("does not compute")) {
        let sum = words(text, at);
        assert!(
            ["add", "sub"].contains(&sum[0].as_str()) && sum[1] == quotes[0],
            "{said}"
        );
        return Some("computed");
    }
    if said.ends_with(" is null here") {
        assert!(!ever_card(&script, line, quotes[0]), "{said}");
        return Some("null");
    }
    let kept = said
        .ends_with(" go")
        .then(|| after(said, "line "))
        .flatten();
    for (at, word, what) in [
        (kept, "release", "let go"),
        (after(said, "the `join` of line "), "join", "not joined"),
        (
            after(said, "the invariant of line "),
            "loop",
            "no invariant",
        ),
        (after(said, "was opened at line "), "open", "opened"),
    ] {
        if let Some(at) = at {
            assert_eq!(words(text, at)[0], word, "{said}");
            return Some(what);
        }
    }
    None
}

#[test]
fn headlines_name_causes_and_are_true() {
    let mut tried = std::collections::BTreeMap::new();
    for text in refused() {
        let report = Report::of(&mut Model, "a", &text, Asked::Check);
        let refusal = report.refusal.expect("it is refused");
        let cause = report.cause.as_ref().expect("a cause");
        assert_ne!(cause.headline(), show::title(refusal.number()));
        assert!(!cause.headline().is_empty());
        let first = show::report(&report, Paint(false));
        let first = first.lines().next().expect("a line").to_string();
        assert!(first.ends_with(cause.headline()), "{first}");
        if let Some(what) = holds(&text, refusal.line(), cause.headline()) {
            *tried.entry(what).or_insert(0) += 1;
        }
    }
    println!("{tried:?}");
    assert_eq!(tried.len(), 9, "{tried:?}");
}

/// Every other line that a message names stands below it with its number.
#[test]
fn second_places() {
    let mut shown = 0;
    for text in refused() {
        let mut report = Report::of(&mut Model, "a", &text, Asked::Check);
        report.further.clear();
        let printed = show::report(&report, Paint(false));
        let own = report.refusal.expect("it is refused").line();
        let rows: Vec<String> = printed
            .lines()
            .map(|row| row.trim_start().to_string())
            .collect();
        for line in report.cause.as_ref().expect("a cause").related() {
            let row = row(&text, line);
            assert!(
                rows.iter().any(|shown| shown.starts_with(&row)),
                "{row}\n{printed}"
            );
            shown += usize::from(line != own);
        }
    }
    assert!(shown > 300, "{shown}");
}

/// A line as a message shows it, as far as a long one is shown.
fn row(text: &[u8], line: u32) -> String {
    let row = format!("{line} | {}", quoted(text, line));
    row.chars().take(90).collect()
}

/// Loops, and calls of methods from which a call leads to their own.
fn without_bound(script: &Script) -> BTreeSet<u32> {
    let blocks = script.program.blocks.len();
    let mut leads = vec![vec![false; blocks]; blocks];
    for (place, statement) in script.program.statements.iter().enumerate() {
        if let Action::Call(call) = statement.action {
            leads[script.block_of(place)][call.method] = true;
        }
    }
    for by in 0..blocks {
        for from in 0..blocks {
            for to in 0..blocks {
                leads[from][to] |= leads[from][by] && leads[by][to];
            }
        }
    }
    let statements = script.program.statements.iter().enumerate();
    let found = statements.filter(|(place, statement)| match statement.action {
        Action::Loop(_) => true,
        Action::Call(call) => {
            let block = script.block_of(*place);
            call.method == block || leads[call.method][block]
        }
        _ => false,
    });
    found.map(|(_, statement)| statement.line).collect()
}

#[test]
fn every_reason_for_number_15() {
    let mut several = 0;
    let examples = scripts("../../examples").into_iter();
    for text in examples.chain((0..600).map(|seed| generator::text(0x9300_0000 + seed))) {
        let found = model::bound(&text);
        let (15, Some(script)) = (found.number, Script::of(&text)) else {
            continue;
        };
        let all = without_bound(&script);
        let printed = Bounded::of(&mut Model, "a", &text, false).shown(Paint(false));
        for line in &all {
            let row = row(&text, *line);
            let mut rows = printed.lines().map(str::trim_start);
            assert!(
                rows.any(|shown| shown.starts_with(&row)),
                "{row}\n{printed}"
            );
        }
        several += usize::from(all.len() > 1);
    }
    assert!(several > 10, "{several}");
}
