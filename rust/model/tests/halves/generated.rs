//! The generator makes halves: in every formula, in accepted texts, in texts that
//! are refused and in runs that stop for want of one.

use generator::{self as gen, rng::Rng, Kind};
use model::limits;
use model::machine::Machine;
use model::names::{Action, Atom, Expr, Path};
use model::number::{NOT_SHOWN, NO_PERMISSION, PERMISSION_MISSING};
use model::state::{State, Term};
use model::text::{self, Share};
use model::watch::{Asked, Purpose, Record};
use model::{check, read};
use std::collections::BTreeMap;

/// How often each word begins a line with a `read` in it.
fn words_with_reads(text: &[u8], counts: &mut BTreeMap<String, u32>) -> bool {
    let mut any = false;
    for line in text.split(|&byte| byte == b'\n') {
        let fields: Vec<&[u8]> = line.split(|&byte| byte == b'\t').collect();
        let first = usize::from(fields[0] != b"class" && fields[0] != b"field");
        if fields
            .iter()
            .skip(first)
            .step_by(3)
            .any(|word| *word == b"read")
        {
            let word = String::from_utf8_lossy(fields[0]).into_owned();
            *counts.entry(word).or_insert(0) += 1;
            any = true;
        }
    }
    any
}

#[test]
fn halves_stand_in_every_formula() {
    let mut counts = BTreeMap::new();
    let mut texts = 0;
    for seed in 0..1_000 {
        texts += u32::from(words_with_reads(&gen::accepted(seed), &mut counts));
    }
    println!("{texts} accepted texts with a `read`: {counts:?}");
    assert!(texts > 400);
    for word in ["requires", "ensures", "assert", "release", "join", "loop"] {
        assert!(counts[word] > 100, "a `read` in {word} is rare");
    }
}

/// What the states of accepted texts have of halves.
#[derive(Debug, Default)]
struct Counts {
    /// Lines that leave a half of a whole.
    split: u32,
    /// Lines that make two halves a whole.
    joined: u32,
    /// Calls that do so in a full state.
    joined_in_full: u32,
    /// Two halves of paths that are known to be equal.
    apart: u32,
}

/// The shares of the permissions that stand in both states, at the same place
/// and under the same name.
fn shares<'s, 'a>(
    before: &'s State<'a>,
    after: &'s State<'a>,
) -> impl Iterator<Item = (Share, Share)> + use<'s, 'a> {
    let both = before.permissions.iter().zip(&after.permissions);
    both.filter(|(old, new)| old.path() == new.path())
        .map(|(old, new)| (old.share, new.share))
}

fn two_apart(state: &State) -> bool {
    let halves = state.permissions.iter().enumerate();
    let mut halves = halves.filter(|(_, held)| held.share == Share::Read);
    halves.any(|(at, one)| {
        let equal = state.equals(Term::Var(one.var));
        state.permissions[at + 1..].iter().any(|other| {
            other.share == Share::Read
                && other.field == one.field
                && equal.contains(&Term::Var(other.var))
        })
    })
}

/// Does the list stay as it is while the call takes halves and joins them again?
fn joins_in_full(before: &State, after: &State, action: &Action) -> bool {
    matches!(action, Action::Call(_))
        && before.permissions.len() == limits::PERMISSIONS
        && before.permissions == after.permissions
}

#[test]
fn halves_come_apart_and_are_joined() {
    let mut counts = Counts::default();
    for seed in 0..3_000 {
        let text = gen::text(0x5600_0000 + seed);
        let Ok(lines) = text::lines(&text) else {
            continue;
        };
        let Ok(program) = read(&text) else { continue };
        let Some(record) = Record::of(&lines, &program) else {
            continue;
        };
        for (statement, seen) in program.statements.iter().zip(&record.seen) {
            let (Some(before), Some(after)) = (&seen.before, &seen.after) else {
                continue;
            };
            let changed = |pair| u32::from(shares(before, after).any(|other| other == pair));
            counts.split += changed((Share::Acc, Share::Read));
            counts.joined += changed((Share::Read, Share::Acc));
            counts.joined_in_full += u32::from(joins_in_full(before, after, &statement.action));
            counts.apart += u32::from(two_apart(before));
        }
    }
    println!("{counts:?}");
    assert!(counts.split > 1_000 && counts.joined > 100);
    assert!(counts.joined_in_full > 3 && counts.apart > 20);
}

/// The question of a refused text.
fn refused(text: &[u8], look: &mut dyn FnMut(&Asked, u32)) {
    let Ok(lines) = text::lines(text) else {
        return;
    };
    let Ok(program) = read(text) else { return };
    let Some(record) = Record::of(&lines, &program) else {
        return;
    };
    if let (Some(refusal), Some(asked)) = (record.refusal, &record.asked) {
        look(asked, refusal.number());
    }
}

/// Why a permission is not shown, if a half or a whole of its path is listed.
fn why(asked: &Asked) -> Option<&'static str> {
    let at = asked.unshown()?;
    let Atom::Permission(share, path) = asked.show[at] else {
        return None;
    };
    let whole = asked.state.first_listed(Share::Acc, path).is_some();
    let half = asked.state.first_listed(Share::Read, path).is_some();
    Some(match (share, asked.purpose) {
        (Share::Chain, _) => return None,
        _ if !whole && !half => return None,
        (Share::Acc, Purpose::Write) => "`set` with a half",
        (Share::Acc, Purpose::Requires) if !whole => "a call with a half",
        (Share::Acc, _) if !whole => "`acc` with a half",
        (Share::Acc, _) => "`acc` after its path was taken",
        (Share::Read, _) if whole => "a half too many of a whole",
        (Share::Read, _) => "a second half",
    })
}

/// Are both sides cards with a half of one field each, so that a whole one would
/// show that they differ?
fn two_readers(asked: &Asked) -> bool {
    let Some(Atom::Ne(Expr::Var(x), Expr::Var(y))) = asked.unshown().map(|at| asked.show[at])
    else {
        return false;
    };
    let fields = asked.state.permissions.iter().map(|held| held.field);
    fields.into_iter().any(|field| {
        let path = |var| Path {
            var,
            field,
            slot: 0,
        };
        [x, y]
            .into_iter()
            .all(|var| asked.state.first_listed(Share::Read, path(var)).is_some())
    })
}

#[test]
fn every_lack_of_a_half_is_refused() {
    let mut rng = Rng::new(0x5700_0000);
    let mut reasons: BTreeMap<&str, u32> = BTreeMap::new();
    let mut note = |asked: &Asked, number: u32| {
        let reason = match number {
            NO_PERMISSION => why(asked),
            NOT_SHOWN => two_readers(asked).then_some("(d) by two halves"),
            _ => None,
        };
        if let Some(reason) = reason {
            *reasons.entry(reason).or_insert(0) += 1;
        }
    };
    for _ in 0..1_500 {
        for number in [NO_PERMISSION, NOT_SHOWN] {
            refused(&gen::text_of(&mut rng, Kind::Miss(number)), &mut note);
        }
    }
    println!("{reasons:?}");
    assert_eq!(reasons.len(), 7);
    assert!(reasons.values().all(|&count| count > 15), "{reasons:?}");
}

/// The atom or the word of the line that is refused.
fn line_at(text: &[u8], line: u32) -> Vec<&[u8]> {
    let line = text.split(|&byte| byte == b'\n').nth(line as usize - 1);
    let fields = line.unwrap_or_default().split(|&byte| byte == b'\t');
    fields.collect()
}

#[test]
fn numbers_4_and_10_of_a_read() {
    let mut rng = Rng::new(0x5800_0000);
    let (mut conditions, mut formed, mut framed) = (0, 0, 0);
    for _ in 0..1_000 {
        let text = gen::text_of(&mut rng, Kind::Miss(4));
        if let (4, line @ 1..) = check(&text) {
            let fields = line_at(&text, line);
            let read = fields.iter().any(|field| *field == b"read");
            let condition = matches!(fields[0], b"if" | b"loop");
            conditions += u32::from(condition && fields.get(1) == Some(&&b"read"[..]));
            formed += u32::from(!condition && read);
        }
        let text = gen::text_of(&mut rng, Kind::Miss(10));
        if let (10, line) = check(&text) {
            let read = line_at(&text, line).iter().any(|field| *field == b"read");
            framed += u32::from(read);
        }
    }
    println!("4 at {conditions} conditions and {formed} formulas, 10 at {framed} lines");
    assert!(conditions > 30 && formed > 30 && framed > 200);
}

/// Runs stop with 24 where a half is held and where halves are taken already.
#[test]
fn runs_stop_for_want_of_a_half() {
    let mut stops: BTreeMap<(Share, u8, u8), u32> = BTreeMap::new();
    for seed in 0..4_000 {
        let text = gen::text(0x5900_0000 + seed);
        let Ok(program) = read(&text) else { continue };
        let mut machine = Machine::new(&program);
        while machine.steps < 300 && machine.step().is_ok() {}
        let halt = machine
            .halt
            .filter(|halt| halt.stop.number() == PERMISSION_MISSING);
        if let Some(missing) = halt.and_then(|halt| halt.missing) {
            let (share, held, taken) = (missing.share, missing.held, missing.taken);
            assert!(held < taken + share.halves());
            assert_eq!(held, machine.frame().held.halves(missing.location));
            *stops.entry((share, held, taken)).or_insert(0) += 1;
        }
    }
    println!("needed, held, taken: {stops:?}");
    for (share, held, taken) in [
        (Share::Acc, 1, 0),
        (Share::Acc, 2, 1),
        (Share::Acc, 2, 2),
        (Share::Read, 1, 1),
        (Share::Read, 2, 2),
        (Share::Read, 0, 0),
    ] {
        let count = stops.get(&(share, held, taken)).copied().unwrap_or(0);
        assert!(count > 3, "{share:?}, {held} held, {taken} taken: {count}");
    }
}
