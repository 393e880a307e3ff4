//! W6: programs by their routes of calls. Their bounds are small, near
//! 1,000,000, or beyond what 32 or 64 bits hold; routes are long, or come back.
//! All are accepted.

use super::program::joined;
use super::recipes::push;
use super::rng::Rng;
use crate::limits;

/// A line of a planned method or main.
#[derive(Clone, Copy)]
enum Planned {
    /// The method, by its place in the plan.
    Call(usize),
    Assert,
    /// A `loop` and its `again`.
    Loop,
}

/// The lines of each method, its `end` apart, and those of main.
struct Plan {
    methods: Vec<Vec<Planned>>,
    main: Vec<Planned>,
}

/// A program by one of the plans.
pub fn routes(rng: &mut Rng) -> Vec<u8> {
    let plan = match rng.below(8) {
        0 => chain(rng),
        1..=4 => random(rng),
        5 => {
            let wanted = rng.within(10, 1_000_000);
            near(rng, wanted as u128)
        }
        _ => near_the_limit(rng),
    };
    written(rng, &plan)
}

/// A program whose bound is beyond the limit: by one, by more, or by so much
/// that a small number is left if it is counted in 32 or 64 bits.
pub fn passed(rng: &mut Rng) -> Vec<u8> {
    let more = rng.below(1_000_000) as u128;
    let wanted = match rng.below(4) {
        0 => (1 << 32) + more,
        1 => (1 << 64) + more,
        2 => u128::from(limits::BOUND) + 1,
        _ => u128::from(limits::BOUND) + 1 + more,
    };
    let plan = near(rng, wanted);
    written(rng, &plan)
}

/// A bound that is the limit, or one or two off.
fn near_the_limit(rng: &mut Rng) -> Plan {
    let wanted = limits::BOUND as usize - 2 + rng.below(5);
    near(rng, wanted as u128)
}

/// A route of so many methods that the frames are full, or nearly so.
fn chain(rng: &mut Rng) -> Plan {
    let count = rng.within(60, limits::METHODS + 4).min(limits::METHODS);
    let calls = |at: usize| at.checked_sub(1).map(Planned::Call).into_iter().collect();
    Plan {
        methods: (0..count).map(calls).collect(),
        main: vec![Planned::Call(rng.within(58, count + 3).min(count - 1))],
    }
}

/// Methods that call earlier ones; now and then a loop, or a ring of one to
/// three methods.
fn random(rng: &mut Rng) -> Plan {
    let count = rng.within(3, 10);
    let mut methods: Vec<Vec<Planned>> = Vec::new();
    for at in 0..count {
        let callees = if at == 0 { 0 } else { rng.below(4) };
        let mut lines: Vec<Planned> = (0..callees).map(|_| Planned::Call(rng.below(at))).collect();
        lines.extend(rng.chance(30).then_some(Planned::Assert));
        lines.extend(rng.chance(2).then_some(Planned::Loop));
        methods.push(lines);
    }
    if rng.chance(60) {
        let first = rng.below(count);
        let last = rng.within(first, count - 1).min(first + 2);
        let next = |at: usize| if at == last { first } else { at + 1 };
        for (at, lines) in (first..).zip(&mut methods[first..=last]) {
            // No other call makes the ring shorter.
            lines.retain(|line| !matches!(line, Planned::Call(to) if *to >= first));
            lines.push(Planned::Call(next(at)));
        }
    }
    let mut main: Vec<Planned> = (0..rng.below(5))
        .map(|_| Planned::Call(rng.below(count)))
        .collect();
    main.extend(rng.chance(10).then_some(Planned::Loop));
    Plan { methods, main }
}

/// Methods that each call the one before two to four times, and a main whose
/// calls come to the bound that is wanted.
fn near(rng: &mut Rng, wanted: u128) -> Plan {
    let width = if wanted >> 64 > 0 {
        4
    } else {
        rng.within(2, 4)
    };
    let mut methods = vec![vec![Planned::Assert; rng.below(3)]];
    let mut bounds = vec![methods[0].len() as u128 + 1];
    while bounds[bounds.len() - 1] < wanted {
        let before = bounds.len() - 1;
        bounds.push((1 + bounds[before]) * width as u128 + 1);
        methods.push(vec![Planned::Call(before); width]);
    }
    // Main has the largest call that fits as long as one does.
    let mut left = wanted.saturating_sub(MAIN_LINES);
    let mut main = Vec::new();
    for (method, bound) in bounds.iter().enumerate().rev() {
        while left > *bound {
            main.push(Planned::Call(method));
            left -= 1 + bound;
        }
    }
    main.extend(vec![Planned::Assert; left as usize]);
    Plan { methods, main }
}

/// Main's lines beside those of the plan: two objects made, and the `end`.
const MAIN_LINES: u128 = 3;

/// The text of a plan. The methods stand in one class, or the later ones in a
/// second one, where they have the same names again.
fn written(rng: &mut Rng, plan: &Plan) -> Vec<u8> {
    let count = plan.methods.len();
    let split = if rng.chance(40) {
        rng.below(count)
    } else {
        count
    };
    let mut lines = Vec::new();
    push(&mut lines, "class D");
    for (at, method) in plan.methods.iter().enumerate() {
        if at == split {
            push(&mut lines, "class E");
        }
        let (other, name) = named(at, split);
        push(&mut lines, &format!("method int {name} {other} w"));
        push(
            &mut lines,
            "requires ne this null ne w null\nensures\nvar int r",
        );
        // `this` is of the method's class, w of the other.
        let (d, e) = if at < split {
            ("this", "w")
        } else {
            ("w", "this")
        };
        body(rng, method, split, (d, e), &mut lines);
    }
    if split == count {
        push(&mut lines, "class E");
    }
    push(
        &mut lines,
        "main\nvar D d\nvar E e\nvar int r\nnew d D\nnew e E",
    );
    body(rng, &plan.main, split, ("d", "e"), &mut lines);
    joined(&lines)
}

/// The class that a method's own is not, and its name.
fn named(method: usize, split: usize) -> (&'static str, String) {
    match method < split {
        true => ("E", format!("m{method}")),
        false => ("D", format!("m{}", method - split)),
    }
}

/// The lines of a method or main in some order, and its `end`. The two variables
/// are of the classes D and E, and not null.
fn body(
    rng: &mut Rng,
    planned: &[Planned],
    split: usize,
    (d, e): (&str, &str),
    lines: &mut Vec<String>,
) {
    let mut planned = planned.to_vec();
    rng.shuffle(&mut planned);
    for line in planned {
        let line = match line {
            Planned::Call(method) => {
                let (y, z) = if method < split { (d, e) } else { (e, d) };
                format!("call r {y} {} {z}", named(method, split).1)
            }
            Planned::Assert => "assert".to_string(),
            Planned::Loop => format!("loop ne r r ne {d} null ne {e} null\nagain"),
        };
        push(lines, &line);
    }
    push(lines, "end");
}
