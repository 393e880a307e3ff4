//! What faces see of halves: the share of a listed permission, what a formula
//! leaves, and what a step with number 24 missed.

use crate::common::{main_with, script};
use crate::method;
use model::machine::Machine;
use model::names::{Atom, Path, FIRST_LOCAL, PARAM, THIS};
use model::number::Reason;
use model::state::State;
use model::text::Share::{self, Acc, Read};
use model::watch::{Asked, Halt, Missing, Record};
use model::{read, text};

fn path(var: usize) -> Path<'static> {
    Path {
        var,
        field: b"n",
        slot: 1,
    }
}

fn held(share: Share, var: usize) -> Atom<'static> {
    Atom::Permission(share, path(var))
}

fn started(atoms: &[Atom<'static>]) -> State<'static> {
    let mut state = State::default();
    state.add(atoms).expect("room for all");
    state
}

#[test]
fn shares_have_words_and_halves() {
    for (share, word, halves) in [(Acc, "acc", 2), (Read, "read", 1)] {
        assert_eq!((share.word(), share.halves()), (word, halves));
        assert_eq!(Share::named(word.as_bytes()), Some(share));
    }
    assert_eq!(Share::named(b"eq"), None);
    assert_eq!(Acc.less(Read), Some(Some(Read)));
    assert_eq!((Acc.less(Acc), Read.less(Read)), (Some(None), Some(None)));
    assert_eq!(Read.less(Acc), None);
}

#[test]
fn what_is_listed_and_what_a_formula_leaves() {
    let state = started(&[held(Acc, THIS), held(Read, PARAM), held(Read, FIRST_LOCAL)]);
    assert_eq!(state.listed(path(PARAM)).collect::<Vec<_>>(), [1]);
    assert_eq!(state.first_listed(Acc, path(PARAM)), None);
    assert_eq!(state.first_listed(Read, path(PARAM)), Some(1));
    let left = |formula: &[Atom<'static>]| state.leaves(formula).map(|left| left[..4].to_vec());
    let (whole, half) = (Some(Acc), Some(Read));
    assert_eq!(left(&[]), Ok(vec![whole, half, half, None]));
    assert_eq!(left(&[held(Read, THIS)]), Ok(vec![half, half, half, None]));
    let both = [held(Read, THIS), held(Read, PARAM), held(Read, THIS)];
    assert_eq!(left(&both), Ok(vec![None, None, half, None]));
    assert_eq!(left(&[held(Acc, PARAM)]), Err(Reason::NoPermission));
}

/// The question of a refusal, with the state that it was put to.
fn asked<T>(source: &str, look: impl FnOnce(&Asked) -> T) -> T {
    let bytes = script(source);
    let lines = text::lines(&bytes).expect("lines");
    let program = read(&bytes).expect("a program");
    let record = Record::of(&lines, &program).expect("number 10 does not come up");
    assert_eq!(record.refusal.map(|refusal| refusal.number()), Some(12));
    look(record.asked.as_ref().expect("a question"))
}

/// The share that is asked for, and the halves that the entries of its path have
/// and had before the earlier atoms took theirs.
fn short(asked: &Asked) -> (Share, Vec<u8>, Vec<u8>) {
    let at = asked.unshown().expect("an atom");
    let Atom::Permission(share, path) = asked.show[at] else {
        panic!("12 is of a permission");
    };
    let halves = |formula| {
        let left = asked.state.leaves(formula).expect("shown so far");
        let halves = |place: usize| left[place].map_or(0, Share::halves);
        asked.state.listed(path).map(halves).collect()
    };
    (share, halves(&[]), halves(&asked.show[..at]))
}

#[test]
fn a_refusal_says_which_half_is_missing() {
    let source = main_with("new s S\nrelease read s n\nset s n a");
    assert_eq!(asked(&source, short), (Acc, vec![1], vec![1]));
    let source = main_with("new s S\nassert read s n read s n read s n");
    assert_eq!(asked(&source, short), (Read, vec![2], vec![0]));
    let source = main_with("new s S\nassert read s n acc s n");
    assert_eq!(asked(&source, short), (Acc, vec![2], vec![1]));
    let source = main_with("assert read s n");
    assert_eq!(asked(&source, short), (Read, vec![], vec![]));
    let two = method("read this n read w n eq this w", "", "assert acc this n");
    assert_eq!(asked(&two, short), (Acc, vec![1, 1], vec![1, 1]));
}

/// The line after which the half is gone is to be seen in the states.
#[test]
fn a_record_shows_where_a_half_went() {
    let source = main_with("new s S\nlet a 1\nrelease read s n\nlet a 2\nset s n a");
    let bytes = script(&source);
    let lines = text::lines(&bytes).expect("lines");
    let program = read(&bytes).expect("a program");
    let record = Record::of(&lines, &program).expect("number 10 does not come up");
    let before = record.seen.iter().filter_map(|seen| seen.before.as_ref());
    let shares = before.map(|state| {
        let place = state.listed(path(FIRST_LOCAL)).next();
        place.map(|place| state.permissions[place].share)
    });
    // From line 9 on: the half goes at line 11.
    let expected = [None, Some(Acc), Some(Acc), Some(Read), Some(Read)];
    assert_eq!(shares.collect::<Vec<_>>(), expected);
}

fn halted(source: &str) -> (u32, Option<Missing>) {
    let text = script(source);
    let program = read(&text).expect("a program");
    let mut machine = Machine::new(&program);
    while machine.step().is_ok() {}
    let Halt { stop, missing, .. } = machine.halt.expect("a stop");
    (stop.number(), missing)
}

#[test]
fn a_stop_says_how_many_halves_were_held_and_taken() {
    let missing = |share, held, taken| {
        let location = 1;
        Some(Missing {
            location,
            share,
            held,
            taken,
        })
    };
    let cases = [
        ("release read s n\nset s n a", missing(Acc, 1, 0)),
        ("release acc s n\nset s n a", missing(Acc, 0, 0)),
        ("release acc s n\nlet a s.n", missing(Read, 0, 0)),
        ("assert read s n acc s n", missing(Acc, 2, 1)),
        ("assert acc s n read s n", missing(Read, 2, 2)),
        ("release read s n\nassert acc s n", missing(Acc, 1, 0)),
        (
            "release read s n\nassert read s n read s n",
            missing(Read, 1, 1),
        ),
    ];
    for (statements, expected) in cases {
        let source = main_with(&format!("new s S\n{statements}"));
        assert_eq!(halted(&source), (24, expected), "{statements}");
    }
    assert_eq!(halted(&main_with("assert read s n")), (25, None));
    assert_eq!(halted(&main_with("assert eq a 1")), (26, None));
}
