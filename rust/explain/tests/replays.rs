//! What is said of a run that its steps stopped in a loop: the last round is told as the
//! run did it, at every number of steps, and a long run is done again.

use explain::cause::stop_cause;
use model::machine::Room;

fn script(lines: &str) -> Vec<u8> {
    lines.replace(' ', "\t").replace('|', "\n").into_bytes()
}

/// What `n` was at each arrival at a line, in a run of so many steps.
fn arrivals(text: &[u8], line: u32, steps: u32) -> Vec<i32> {
    let program = model::read(text).expect("a text that is read");
    let mut machine = model::machine::Machine::new(&program);
    let mut found = Vec::new();
    loop {
        if machine.statement().line == line {
            found.push(machine.frame().values[model::names::FIRST_LOCAL]);
        }
        if machine.steps == steps {
            return found;
        }
        machine.step().expect("a step");
    }
}

#[test]
fn the_last_round() {
    let lines = "main|var int n|var int k|let k 3|loop ne n -1|add n n k|let k 5|again|end|";
    let text = script(lines);
    let mut told = 0;
    for steps in 0..60 {
        let Some(cause) = stop_cause(&text, Room::WHOLE, steps, 21) else {
            continue;
        };
        let values = arrivals(&text, 5, steps);
        let [.., from, to] = values[..] else {
            panic!("two arrivals after {steps} steps");
        };
        let by = to - from;
        let note = format!("in its last round `n` went from {from} to {to}, by {by}");
        assert!(cause.notes.contains(&note), "{note} {:?}", cause.notes);
        told += 1;
    }
    assert!(told > 40, "{told}");
}

/// Why a run stopped is told however long it was.
#[test]
fn a_stop_after_many_steps() {
    let text = script("main|var int n|var int k|let k 215|loop ne n -1|add n n k|again|end|");
    let run = model::run(&text, u32::MAX);
    assert_eq!((run.number, run.line), (27, 6));
    assert!(run.steps > explain::cause::AGAIN, "{}", run.steps);
    let cause = stop_cause(&text, Room::WHOLE, run.steps, 27).expect("a cause");
    let n = i64::from(i32::MAX / 215 * 215);
    let sum = n + 215;
    let head = format!("{n} (`n`) plus 215 (`k`) is {sum}, and 2147483647 is the most");
    assert_eq!(cause.headline(), head);
    let given = format!(
        "`n` got its value at line 6 (step {}): `add n n k`",
        run.steps - 2
    );
    let rounds = format!("in the loop of line 5, {} rounds are done", n / 215);
    assert!(cause.notes.contains(&given), "{:?}", cause.notes);
    assert!(cause.notes.contains(&rounds), "{:?}", cause.notes);
}

/// A run of ten million steps is done again, and what is told of it is what its rounds did.
#[test]
fn ten_million_steps() {
    const STEPS: u32 = 10_000_000;
    let counting = "main|var int n|var int k|let k 1|loop ne n -1|add n n k|again|end|";
    let calling = "class C|field int n|method int up int k|requires acc this n|ensures acc this n\
                   |var int m|let m this.n|add m m k|set this n m|return m|end|main|var C c\
                   |var int n|var int k|new c C|let k 1|loop ne n -1 acc c n|call n c up k|again\
                   |end|";
    // The loop's line, and the steps of one round.
    for (lines, line, round) in [(counting, 5, 3), (calling, 18, 7)] {
        let text = script(lines);
        let cause = stop_cause(&text, Room::WHOLE, STEPS, 21).expect("a cause");
        let rounds = STEPS / round;
        let head = format!(
            "the loop of line {line} has done {rounds} rounds, and `ne n -1` is not false yet"
        );
        assert_eq!(cause.headline(), head);
        let before = rounds - 1;
        let last = format!("in its last round `n` went from {before} to {rounds}, by 1");
        assert!(cause.notes.contains(&last), "{:?}", cause.notes);
    }
}
