//! The observation points say what the answers say: each refusal and each stop
//! is that of what was asked, noted or tested last.

use model::faults::Fault;
use model::machine::{Machine, Step};
use model::names::{resolve_noted, Action};
use model::number::*;
use model::watch::{Asked, Purpose, Record, Tested};
use model::{check, read, text};

fn texts() -> impl Iterator<Item = Vec<u8>> {
    (0..6_000).map(|seed| generator::text(0x4800_0000 + seed))
}

/// What the state says to the question.
fn answer(asked: &Asked) -> Result<(), Reason> {
    match (asked.read, asked.rest) {
        // W9: what `shut` fails to show is 12, "an unlisted `x.f` too".
        (Some(expr), _) if asked.purpose == Purpose::Shut => {
            let found = asked.state.resolve(expr);
            found.map(drop).map_err(|_| Reason::NoPermission)
        }
        (Some(expr), _) => asked.state.resolve(expr).map(drop),
        (None, Some(path)) => asked.state.rest(path).map(drop),
        (None, None) => {
            let at = asked.unshown().expect("an atom");
            asked.state.show(&asked.show[..=at])
        }
    }
}

#[test]
fn a_refusal_by_a_rule_is_that_of_the_last_question() {
    let mut seen = [0; 15];
    let mut at_return = 0;
    for text in texts() {
        let Ok(lines) = text::lines(&text) else {
            continue;
        };
        let Ok(program) = read(&text) else { continue };
        let (number, line) = check(&text);
        let Some(record) = Record::of(&lines, &program) else {
            assert_eq!(number, UNFRAMED);
            continue;
        };
        let refusal = record
            .refusal
            .map_or((DONE, 0), |found| (found.number(), found.line));
        assert_eq!(refusal, (number, line));
        seen[number as usize] += 1;
        if !(UNRESOLVED..=NOT_SHOWN).contains(&number) {
            continue;
        }
        let asked = record.asked.expect("a question");
        assert_eq!(program.statements[asked.place].line, line);
        let action = &program.statements[asked.place].action;
        if matches!(action, Action::Return(_)) {
            at_return += 1;
            assert_eq!(asked.purpose, Purpose::Ensures);
        }
        assert_eq!(answer(&asked).map_err(Reason::number), Err(number));
    }
    assert!(at_return > 10, "{at_return} refused at a return");
    let enough = [DONE, UNRESOLVED, NO_PERMISSION, NOT_SHOWN, STATE_FULL];
    assert!(
        enough.iter().all(|&number| seen[number as usize] > 10),
        "{seen:?}"
    );
}

#[test]
fn a_fault_is_of_its_number() {
    let mut seen = [0; 10];
    for text in texts() {
        let Ok(lines) = text::lines(&text) else {
            continue;
        };
        let Err(noted) = resolve_noted(&lines) else {
            continue;
        };
        let number = match noted.fault {
            Fault::Undeclared(..) | Fault::Reserved(_) | Fault::Twice(_) => NAME,
            Fault::Mismatch { .. } | Fault::NoObject(_) | Fault::NoInt(_) => TYPE,
            Fault::NoLink(..) => TYPE,
            Fault::Assigned(_) | Fault::Same(_) => ASSIGNED,
            other => panic!("{other:?}"),
        };
        assert_eq!((number, noted.refusal.line), check(&text));
        assert_eq!(number, noted.refusal.number());
        seen[number as usize] += 1;
    }
    assert!(
        [NAME, TYPE, ASSIGNED]
            .iter()
            .all(|&number| seen[number as usize] > 20),
        "{seen:?}"
    );
}

#[test]
fn a_halt_is_of_its_stop() {
    let mut seen = [0; 28];
    let mut at_return = 0;
    for text in texts() {
        let Ok(program) = read(&text) else { continue };
        let mut machine = Machine::new(&program);
        let stop = loop {
            match machine.step() {
                Ok(Step::On) if machine.steps < 300 => {}
                Ok(_) => break None,
                Err(stop) => break Some(stop),
            }
        };
        assert_eq!(machine.halt.map(|halt| halt.stop), stop);
        let Some(halt) = machine.halt else { continue };
        seen[halt.stop.number() as usize] += 1;
        assert_eq!(halt.atom.is_some(), halt.tested != Tested::Nothing);
        if matches!(machine.statement().action, Action::Return(_)) {
            at_return += 1;
            assert_eq!(halt.tested, Tested::Ensures);
        }
        match halt.stop.number() {
            FORMULA_FALSE => assert!(halt.atom.is_some() || halt.ring.is_some()),
            PERMISSION_MISSING => assert!(halt.path.is_some()),
            _ => {}
        }
        let missing = halt.missing.is_some();
        assert_eq!(missing, halt.stop.number() == PERMISSION_MISSING);
    }
    assert!(at_return > 10, "{at_return} stopped at a return");
    let all = [
        HEAP_FULL,
        PERMISSION_MISSING,
        NULL_FOLLOWED,
        FORMULA_FALSE,
        OVERFLOW,
    ];
    assert!(
        all.iter().all(|&number| seen[number as usize] > 10),
        "{seen:?}"
    );
}

/// W2: the line straight after a `return` has no state before it.
#[test]
fn nothing_is_known_after_a_return() {
    let mut returns = 0;
    for text in texts() {
        let Ok(lines) = text::lines(&text) else {
            continue;
        };
        let Ok(program) = read(&text) else { continue };
        let Some(record) = Record::of(&lines, &program) else {
            continue;
        };
        if record.refusal.is_some() {
            continue;
        }
        for (place, pair) in program.statements.windows(2).enumerate() {
            let returned = matches!(pair[0].action, Action::Return(_));
            let join = matches!(pair[1].action, Action::Join(_));
            if returned && !join {
                returns += 1;
                assert!(record.seen[place].after.is_some());
                assert!(record.seen[place + 1].before.is_none());
            }
        }
    }
    assert!(returns > 1_000, "{returns}");
}
