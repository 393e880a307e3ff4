//! What is to be seen of chains: the questions of `open` and `shut`, and where a
//! walk stopped.

use crate::common::script;
use crate::{main_with, method};
use model::machine::{Machine, Step};
use model::names::{Atom, Expr};
use model::number::Reason;
use model::read;
use model::text::{self, Share};
use model::watch::{Asked, Halt, Missing, Purpose, Record, Tested};

#[test]
fn a_share_of_its_own() {
    let chain = Share::Chain;
    assert_eq!((chain.word(), chain.halves()), ("chain", 2));
    assert_eq!(Share::named(b"chain"), Some(chain));
    assert_eq!(chain.less(chain), Some(None));
    for path in Share::OF_PATHS {
        assert!(path.lists_path() && !chain.lists_path());
        assert_eq!((chain.less(path), path.less(chain)), (None, None));
    }
}

/// The question of a refusal with the number.
fn asked<T>(source: &str, number: u32, look: impl FnOnce(&Asked) -> T) -> T {
    let bytes = script(source);
    let lines = text::lines(&bytes).expect("lines");
    let program = read(&bytes).expect("a program");
    let record = Record::of(&lines, &program).expect("number 10 does not come up");
    assert_eq!(record.refusal.map(|refusal| refusal.number()), Some(number));
    look(record.asked.as_ref().expect("a question"))
}

#[test]
fn questions_of_open() {
    let source = method("", "", "open x this p");
    asked(&source, 13, |asked| {
        assert_eq!(asked.purpose, Purpose::Open);
        assert!(matches!(
            asked.show[..],
            [Atom::Ne(Expr::Var(0), Expr::Null)]
        ));
    });
    let source = method("ne this null", "", "open x this p");
    asked(&source, 12, |asked| {
        assert_eq!(asked.purpose, Purpose::Open);
        assert!(matches!(
            asked.show[..],
            [Atom::Permission(Share::Chain, _)]
        ));
        assert_eq!((asked.unshown(), asked.unresolved()), (Some(0), false));
    });
}

#[test]
fn questions_of_shut() {
    asked(&method("", "", "shut this p"), 12, |asked| {
        assert_eq!(asked.purpose, Purpose::Shut);
        assert!(asked.unresolved());
    });
    asked(&method("acc this p", "", "shut this p"), 12, |asked| {
        assert_eq!(asked.purpose, Purpose::Shut);
        let path = asked.rest.expect("a path");
        assert_eq!(asked.state.rest(path), Err(Reason::NoPermission));
        assert!(asked.read.is_none() && asked.show.is_empty());
    });
    let source = method("read this p eq this.p null", "", "shut this p");
    asked(&source, 12, |asked| {
        assert_eq!(asked.purpose, Purpose::Shut);
        assert!(matches!(asked.show[..], [Atom::Permission(Share::Acc, _)]));
    });
}

fn halted<T>(statements: &str, look: impl FnOnce(Halt) -> T) -> T {
    let text = script(&main_with(&format!("new s S\nnew t S\n{statements}")));
    let program = read(&text).expect("a program");
    let mut machine = Machine::new(&program);
    while machine.step() == Ok(Step::On) {}
    look(machine.halt.expect("a stop"))
}

/// A card has four fields; `s.p` is location 0, `t.p` is 4.
#[test]
fn stops_of_a_walk() {
    let missing = |location, held, taken| {
        Some(Missing {
            location,
            share: Share::Chain,
            held,
            taken,
        })
    };
    let link = "set s p t\n";
    let cases = [
        ("release acc t p\nassert chain s p", missing(4, 0, 0)),
        ("release read s p\nassert chain s p", missing(0, 1, 0)),
        ("assert read t p chain s p", missing(4, 2, 1)),
        ("assert chain t p chain s p", missing(4, 2, 2)),
        ("release acc t p\nopen u s p", missing(4, 0, 0)),
        ("release acc t p\nshut s p", missing(4, 0, 0)),
    ];
    for (statements, expected) in cases {
        halted(&format!("{link}{statements}"), |halt| {
            let found = (halt.stop.number(), halt.missing, halt.ring);
            assert_eq!(found, (24, expected, None), "{statements}");
            assert!(halt.path.is_some());
        });
    }
}

#[test]
fn rings_and_other_stops() {
    let link = "set s p t\n";
    for (statements, tested, atom) in [
        ("set t p s\nassert eq a a chain s p", Tested::Line, Some(1)),
        ("set t p s\nopen u s p", Tested::Nothing, None),
        ("set t p s\nshut t p", Tested::Nothing, None),
    ] {
        halted(&format!("{link}{statements}"), |halt| {
            assert_eq!(
                (halt.stop.number(), halt.missing),
                (26, None),
                "{statements}"
            );
            assert_eq!((halt.tested, halt.atom), (tested, atom), "{statements}");
            assert!(halt.ring.is_some(), "{statements}");
        });
    }
    // What `shut` needs of `x.f` itself is no walk's.
    halted("release read s p\nshut s p", |halt| {
        let share = halt.missing.map(|missing| missing.share);
        assert_eq!((halt.stop.number(), share), (24, Some(Share::Acc)));
    });
    halted("let s null\nopen u s p", |halt| {
        assert_eq!((halt.stop.number(), halt.path.is_some()), (25, true));
    });
}
