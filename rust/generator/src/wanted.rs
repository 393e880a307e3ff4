//! W11: a program with a plan for fill. Its method wants some of its places, by
//! what it does with them, by what it ensures or by whom it calls; its callers have
//! them, or lack one.

use super::program::joined;
use super::recipes::push;
use super::rng::Rng;

/// A place that may be filled in: the variable, the field and its type.
#[derive(Clone)]
struct Place {
    var: &'static str,
    field: String,
    kind: &'static str,
}

impl Place {
    fn acc(&self) -> String {
        format!("acc {} {}", self.var, self.field)
    }

    /// The local variable of its type.
    fn local(&self) -> &'static str {
        match self.kind {
            "int" => "a",
            "S" => "s",
            _ => "t",
        }
    }
}

/// A formula with both halves of these places.
fn accs(word: &str, places: &[Place]) -> String {
    let atoms: Vec<String> = places.iter().map(Place::acc).collect();
    [&[word.to_string()], &atoms[..]].concat().join(" ")
}

/// The type of w, the fields of both classes, the places that the method wants, and
/// those of them that it ensures.
struct Plan {
    param: &'static str,
    own: Vec<Place>,
    other: Vec<Place>,
    wanted: Vec<Place>,
    ensured: Vec<Place>,
}

fn fields(rng: &mut Rng, var: &'static str, letter: &str, count: usize) -> Vec<Place> {
    let place = |at| Place {
        var,
        field: format!("{letter}{at}"),
        kind: rng.pick(&["int", "int", "int", "S", "T"]),
    };
    (0..count).map(place).collect()
}

/// Some of a list, in another order.
fn some<T: Clone>(rng: &mut Rng, from: &[T], count: usize) -> Vec<T> {
    let mut from = from.to_vec();
    rng.shuffle(&mut from);
    from.truncate(count);
    from
}

impl Plan {
    fn random(rng: &mut Rng) -> Plan {
        let many = rng.chance(1);
        let counts = if many {
            [8, 8]
        } else {
            [rng.below(5), rng.below(5)]
        };
        let own = fields(rng, "this", "f", counts[0]);
        let other = fields(rng, "w", "g", counts[1]);
        let param = rng.pick(&["int", "S", "S", "T", "T"]);
        let mut places = own.clone();
        match param {
            "S" => places.extend(own.iter().map(|place| Place {
                var: "w",
                ..place.clone()
            })),
            "T" => places.extend(other.iter().cloned()),
            _ => {}
        }
        let count = rng.pick(&[0, 1, 1, 2, 2, 3, 3, 4, 4, 5]);
        let wanted = some(rng, &places, count);
        let ensured = rng.below(wanted.len() + 1);
        Plan {
            param,
            own,
            other,
            ensured: some(rng, &wanted, ensured),
            wanted,
        }
    }

    /// What main gives for w.
    fn argument(&self, rng: &mut Rng) -> &'static str {
        match self.param {
            "int" => "b",
            "S" => rng.pick(&["u", "u", "u", "u", "s", "v"]),
            _ => "t",
        }
    }
}

/// One of the plan's texts.
pub fn plan(rng: &mut Rng) -> Vec<u8> {
    let plan = Plan::random(rng);
    let mut lines = Vec::new();
    let first = rng.chance(50);
    if first {
        class(&mut lines, "T", &plan.other);
    }
    class(&mut lines, "S", &plan.own);
    if rng.chance(30) {
        asker(rng, &plan, &mut lines);
    }
    method(rng, &plan, &mut lines);
    helper(rng, &plan, &mut lines);
    if !first {
        class(&mut lines, "T", &plan.other);
    }
    main(rng, &plan, &mut lines);
    joined(&lines)
}

fn class(lines: &mut Vec<String>, name: &str, fields: &[Place]) {
    push(lines, &format!("class {name}"));
    for Place { field, kind, .. } in fields {
        push(lines, &format!("field {kind} {field}"));
    }
}

/// The method with the star.
fn method(rng: &mut Rng, plan: &Plan, lines: &mut Vec<String>) {
    push(lines, &format!("method int m {} w\nrequires *", plan.param));
    push(lines, &accs("ensures", &plan.ensured));
    push(lines, "var int a\nvar int k\nvar S s\nvar T t");
    let uses = some(rng, &plan.wanted, plan.wanted.len());
    for place in &uses {
        if !plan.ensured.iter().any(|other| other.acc() == place.acc()) || rng.chance(30) {
            let line = used(rng, place);
            around(rng, plan, lines, &line);
        }
    }
    if rng.chance(25) {
        push(lines, &claim(rng, plan));
    }
    if rng.chance(25) {
        calls(rng, plan, lines);
    }
    if rng.chance(30) {
        push(lines, "return k");
    }
    push(lines, "end");
}

/// A line that wants the place.
fn used(rng: &mut Rng, place: &Place) -> String {
    let (Place { var, field, .. }, local) = (place, place.local());
    match rng.below(8) {
        0..=2 => format!("let {local} {var}.{field}"),
        3..=4 => format!("set {var} {field} {local}"),
        5 => format!("assert acc {var} {field}"),
        6 => format!("assert read {var} {field}"),
        _ => format!("assert ne {var} null"),
    }
}

/// The line as it is, in a branch or in a loop; what the method wants stays.
fn around(rng: &mut Rng, plan: &Plan, lines: &mut Vec<String>, line: &str) {
    let join = accs("join", &plan.wanted);
    let round = accs("loop ne a k", &plan.wanted);
    let source = match rng.below(10) {
        0 => format!("if eq a 0\n{line}\nelse\nlet a 1\n{join}"),
        1 => format!("if ne a k\nelse\n{line}\n{join}"),
        2 => format!("{round}\n{line}\nlet k a\nagain"),
        _ => line.to_string(),
    };
    push(lines, &source);
}

/// A line that asks for what some sets alone give, or none.
fn claim(rng: &mut Rng, plan: &Plan) -> String {
    let both = match plan.param {
        "S" => rng.pick(&[
            "assert ne this w",
            "if eq this w\nassert ne this w\nelse\njoin",
        ]),
        "T" => "assert ne w null",
        _ => "assert eq w w",
    };
    let claims = [
        both,
        "assert ne this null",
        "assert eq a 1",
        "let a 3\nassert eq a 3",
    ];
    rng.pick(&claims).to_string()
}

/// Calls of the method itself or of its helper, and what is ensured after them.
fn calls(rng: &mut Rng, plan: &Plan, lines: &mut Vec<String>) {
    let join = accs("join", &plan.ensured);
    let call = rng.pick(&[
        "call k this m w",
        "new s S\ncall k s m w",
        "call k this help a",
        "new s S\ncall k s help a",
    ]);
    let source = match rng.chance(70) {
        true => format!("if eq a 7\nelse\n{call}\n{join}"),
        false => call.to_string(),
    };
    push(lines, &source);
}

/// A method that wants a place of its own, and may be refused itself.
fn helper(rng: &mut Rng, plan: &Plan, lines: &mut Vec<String>) {
    let held = rng.below(plan.own.len() + 1).min(1);
    let held = some(rng, &plan.own, held);
    push(lines, "method int help int k");
    push(lines, &accs("requires", &held));
    match rng.below(40) {
        0 => push(lines, "ensures eq this.f0 k"),
        1 => push(lines, "ensures eq k 1"),
        _ => push(lines, &accs("ensures", &held)),
    }
    push(lines, "return k\nend");
}

/// A method that calls the one with the star, and has what that one wants, less or
/// more.
fn asker(rng: &mut Rng, plan: &Plan, lines: &mut Vec<String>) {
    let mut held = plan.wanted.clone();
    if rng.chance(20) {
        held.pop();
    }
    push(lines, &format!("method int ask {} w", plan.param));
    let requires = accs("requires", &held);
    let object = if rng.chance(80) { " ne this null" } else { "" };
    push(
        lines,
        &format!("{requires}{object}\nensures\nvar int a\ncall a this m w"),
    );
    push(lines, "end");
}

fn main(rng: &mut Rng, plan: &Plan, lines: &mut Vec<String>) {
    push(
        lines,
        "main\nvar S s\nvar S u\nvar S v\nvar T t\nvar int a\nvar int b",
    );
    push(lines, "new s S\nnew u S\nnew t T");
    if rng.chance(10) {
        lost(rng, plan, lines);
    }
    for _ in 0..rng.pick(&[0, 1, 1, 1, 1, 2]) {
        push(lines, &format!("call a s m {}", plan.argument(rng)));
        if rng.chance(25) {
            lost(rng, plan, lines);
        }
    }
    if rng.chance(3) {
        push(lines, "assert eq a 5");
    }
    push(lines, "end");
}

/// Main gives a location away, or shows that it still has it.
fn lost(rng: &mut Rng, plan: &Plan, lines: &mut Vec<String>) {
    let word = rng.pick(&["release", "assert"]);
    let all: Vec<&Place> = plan.own.iter().chain(&plan.other).collect();
    let Some(place) = rng.choose(&all) else {
        return;
    };
    let object = match place.var {
        "this" => rng.pick(&["s", "u"]),
        _ => "t",
    };
    push(lines, &format!("{word} acc {object} {}", place.field));
}
