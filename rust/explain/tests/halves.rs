//! What is said of halves: where one is held and both are needed, where the other
//! went, what helps, and how lists, traces, cards and drawings show them.

use explain::cause::cause;
use explain::script::Script;
use explain::{cards, draw, known, trace, Asked, Cause, Model, Report};

const READERS: &[u8] = include_bytes!("../../../examples/readers.script");
const HALF: &[u8] = include_bytes!("../../../examples/half.script");
const APART: &[u8] = include_bytes!("../../../examples/apart.script");

/// A text with tabs for blanks: classes and methods, then main with two cards.
fn script(methods: &str, statements: &str) -> Vec<u8> {
    let main = "main|var S s|var S t|var int a|var int b";
    let lines = format!("class S|field S p|field int n{methods}|{main}{statements}|end|");
    lines.replace('|', "\n").replace(' ', "\t").into_bytes()
}

/// The cause in words, before a fix is looked for.
fn refused(text: &[u8], number: u32) -> Cause {
    let report = Report::of(&mut Model, "a", text, Asked::Check);
    let refusal = report.refusal.expect("a refusal");
    assert_eq!(refusal.number(), number);
    cause(text, refusal).expect("a cause")
}

/// The fix that a report tells.
fn fixed(text: &[u8]) -> Option<String> {
    let report = Report::of(&mut Model, "a", text, Asked::Check);
    let fix = report.cause.expect("a cause").fix;
    fix.map(|fix| fix.said())
}

fn stopped(text: &[u8]) -> Cause {
    let report = Report::of(&mut Model, "a", text, Asked::Trial(1_000));
    let ran = report.ran.expect("a trial");
    assert_eq!(ran.outcome.number(), 24);
    ran.cause.expect("a cause")
}

#[test]
fn a_half_is_held_and_a_whole_one_is_needed() {
    let cause = refused(HALF, 12);
    let said = "`set` writes `c.tag`, which needs `acc c tag`, and it is only half held here";
    assert_eq!(cause.text, said);
    let note = "a half of `c.tag` is held, a whole one is needed; the other half went at line 16: \
                `call t c look k`, and the `ensures` of `look` (line 5) does not give it back";
    assert_eq!(cause.notes, [note]);
    let help = "add `read this tag` to the `ensures` of `look` (line 5)";
    assert_eq!(cause.help.as_deref(), Some(help));
    let fix = "add `read this tag` to line 5: `ensures`; the script is then accepted";
    assert_eq!(fixed(HALF).as_deref(), Some(fix));
}

#[test]
fn halves_that_did_not_come_together() {
    let cause = refused(APART, 12);
    assert!(cause.text.ends_with("it is only half held here"));
    let note = "held are `read this tag` and `read same tag`, halves that did not come together: ";
    assert!(cause.notes[0].starts_with(note), "{:?}", cause.notes);
    assert_eq!(cause.help, None);
    assert_eq!(fixed(APART), None);
}

/// Where the other half went, and what helps.
#[test]
fn where_the_other_half_went() {
    let cases = [
        (
            "|new s S|release read s n|set s n a",
            "line 10: `release read s n`, which lets it go",
            None,
        ),
        (
            "|new s S|if eq a 0|else|join read s n|set s n a",
            "line 12: `join read s n`, after which only its own formula is known",
            Some("write `acc s n` for `read s n` in the `join` (line 12)"),
        ),
        (
            "|new s S|loop ne a 3 read s n|set s n a|let a 3|again",
            "line 10: `loop ne a 3 read s n`, in whose body only its invariant and its condition \
             are known",
            Some("write `acc s n` for `read s n` in the `loop` (line 10)"),
        ),
    ];
    for (statements, went, help) in cases {
        let cause = refused(&script("", statements), 12);
        let note = format!(
            "a half of `s.n` is held, a whole one is needed; the other half went at {went}"
        );
        assert_eq!(cause.notes, [note], "{statements}");
        assert_eq!(cause.help.as_deref(), help, "{statements}");
    }
}

/// Help is offered only where the check then comes past the line.
#[test]
fn helps_that_help() {
    let method = |requires: &str, ensures: &str, body: &str| {
        format!("|method int m int k|requires{requires}|ensures{ensures}{body}|end")
    };
    let calls = "|new s S|call a s m b|set s n a";
    let given = method(" acc this n", " read this n", "");
    let help = "write `acc this n` for `read this n` in the `ensures` of `m` (line 6)";
    let cause = refused(&script(&given, calls), 12);
    assert_eq!(cause.help.as_deref(), Some(help));
    let lost = method(" read this n", "", "|release read this n");
    assert_eq!(refused(&script(&lost, calls), 12).help, None);
    let written = method(" read this n", " read this n", "|set this n k");
    let cause = refused(&script(&written, ""), 12);
    let help = "write `acc this n` for `read this n` in `requires` (line 5)";
    assert_eq!(cause.help.as_deref(), Some(help));
    let note = "a half of `this.n` is held, a whole one is needed; no more was held in `m` of \
                class S";
    assert_eq!(cause.notes, [note]);
}

#[test]
fn what_earlier_atoms_took() {
    for (formula, missing, note) in [
        (
            "read s n read s n read s n",
            "read s n",
            "`read s n` and `read s n` take both halves of it first",
        ),
        (
            "read s n acc s n",
            "acc s n",
            "`read s n` takes a half of it first, and `acc s n` is both",
        ),
        (
            "acc s n read s n",
            "read s n",
            "`acc s n` takes both halves of it first",
        ),
    ] {
        let cause = refused(&script("", &format!("|new s S|assert {formula}")), 12);
        assert_eq!(cause.text, format!("`{missing}` is not left here"));
        assert_eq!(cause.notes, [note], "{formula}");
    }
    let twice = refused(&script("", "|new s S|assert acc s n acc s n"), 12);
    assert!(twice.text.ends_with("is not held a second time here"));
}

/// A half is offered to who only reads, both to who writes or had both.
#[test]
fn reading_needs_a_half() {
    let reads = |ensures: &str, rest: &str| {
        let body = format!("|var int t|let t this.n{rest}|end");
        script(
            &format!("|method int m int k|requires|ensures{ensures}{body}"),
            "",
        )
    };
    for (text, offered) in [
        (reads("", ""), "read this n"),
        (reads(" read this n", ""), "read this n"),
        (reads(" acc this n", ""), "acc this n"),
        (reads("", "|set this n k"), "acc this n"),
    ] {
        let cause = refused(&text, 11);
        let said = "`let` reads `this.n`, which needs `acc this n` or `read this n`, and neither \
                    is held here";
        assert_eq!(cause.text, said);
        let help = format!("add `{offered}` to `requires` (line 5)");
        assert_eq!(cause.help, Some(help));
    }
    for (held, calls) in [
        ("acc this n", "|call a s m b"),
        ("read this n", "|call a s m b|call a s m b"),
    ] {
        let method = format!("|method int m int k|requires {held}|ensures|end");
        let cause = refused(&script(&method, &format!("|new s S{calls}|let a s.n")), 11);
        let help = format!("add `{held}` to the `ensures` of `m` (line 6)");
        assert_eq!(cause.help, Some(help));
    }
}

#[test]
fn two_halves_do_not_tell_cards_apart() {
    let method = "|method int m S w|requires read this n read w n|ensures|assert ne this w|end";
    let note = "`read this n` and `read w n` may be halves of one field; if one of them were \
                `acc`, the two would be different cards";
    let cause = refused(&script(method, ""), 13);
    assert!(cause.notes.contains(&note.to_string()), "{:?}", cause.notes);
}

#[test]
fn paths_before_their_read() {
    let method = |requires: &str| {
        script(
            &format!("|method int m S w|requires {requires}|ensures|end"),
            "",
        )
    };
    for (requires, help) in [
        ("eq this.n 0 read this n", "move `read this n` before it"),
        ("eq this.n 0 acc this n", "move `acc this n` before it"),
        (
            "eq this.n 0",
            "write `acc this n` or `read this n` before it",
        ),
    ] {
        let cause = refused(&method(requires), 10);
        let said = "`this.n` is read, and neither `acc this n` nor `read this n` stands before it";
        assert_eq!(cause.text, said);
        assert_eq!(cause.help.as_deref(), Some(help));
    }
    let other = refused(&method("read w n eq this.n 0"), 10);
    assert!(other.notes[0].starts_with("`read w n` does not count for `this.n`"));
}

#[test]
fn stops_for_want_of_a_half() {
    let cause = stopped(HALF);
    assert_eq!(
        cause.text,
        "main holds a half of `c.tag`, and `set` needs both"
    );
    let note = "the other half went at line 16: `call t c look k`, and nobody holds it now";
    assert_eq!(cause.notes, [note]);
    let method = "|method int m int k|requires read this n|ensures|set this n k|end";
    let cause = stopped(&script(method, "|new s S|call a s m b"));
    let said = "`m` of class S holds a half of `this.n`, and `set` needs both";
    assert_eq!(
        (cause.text.as_str(), &cause.notes[..]),
        (said, &["main holds the other half".to_string()][..])
    );
}

#[test]
fn stops_at_atoms_for_want_of_a_half() {
    for (formula, lack) in [
        (
            "release read s n|assert acc s n",
            "holds a half of the field, and `acc` needs both",
        ),
        (
            "release read s n|assert read s n read s n",
            "holds a half of the field, and an earlier atom took it",
        ),
        (
            "assert read s n acc s n",
            "holds the field, and an earlier atom took a half of it",
        ),
        (
            "assert acc s n read s n",
            "holds the field, and earlier atoms took it",
        ),
        ("release acc s n|assert read s n", "does not hold the field"),
    ] {
        let cause = stopped(&script("", &format!("|new s S|{formula}")));
        assert!(
            cause.text.ends_with(&format!(": main {lack}")),
            "{}",
            cause.text
        );
    }
}

#[test]
fn known_shows_a_half_that_goes() {
    let script = Script::of(HALF).expect("a script");
    let call = known::at(&script, 16).expect("the call");
    let turned = ("acc c tag".to_string(), "read c tag".to_string());
    assert_eq!(call.turned, [turned]);
    assert_eq!((call.added, call.dropped), (vec![], vec![]));
    let before = known::at(&script, 18).and_then(|known| known.before);
    assert!(before.is_some_and(|atoms| atoms.contains(&"read c tag".to_string())));
}

#[test]
fn a_trace_tells_where_halves_go() {
    let script = Script::of(READERS).expect("a script");
    let mut moves = Vec::new();
    trace::each(&script, 18, |row| {
        let told = row
            .changes
            .iter()
            .filter(|change| change.contains(".tag to "));
        moves.extend(told.map(|change| (row.line, change.clone())));
        true
    });
    let moves: Vec<(u32, &str)> = moves
        .iter()
        .map(|(line, said)| (*line, said.as_str()))
        .collect();
    let expected = [
        (23, "half of object 1.tag to later"),
        (23, "half of object 2.tag to later"),
        (11, "half of object 1.tag to main"),
        (11, "half of object 2.tag to main"),
        (26, "object 1.tag to later"),
        (11, "object 1.tag to main"),
    ];
    assert_eq!(moves, expected);
}

#[test]
fn cards_and_drawing_show_halves() {
    let shared = cards::after(READERS, 5).expect("the cards");
    let row = "object 1: Card, tag = 7; held half by main and half by later (call 1)\n";
    assert!(shared.table().contains(row), "{}", shared.table());
    let json = shared.json().to_string();
    let holders = r#""holder":0,"holders":[{"holder":0,"halves":1},{"holder":1,"halves":1}]"#;
    assert_eq!(json.matches(holders).count(), 2, "{json}");
    let picture = draw::svg(&shared, "a");
    assert!(picture.contains("two colours: a half each"));
    assert_eq!(picture.matches(r#"width="6" height="10""#).count(), 4);
    let lost = cards::after(HALF, 6).expect("the cards");
    assert!(lost
        .table()
        .ends_with("; held half by main and half by nobody\n"));
    let whole = cards::after(READERS, 9).expect("the cards");
    let picture = draw::svg(&whole, "a");
    assert!(!picture.contains("two colours"));
    assert_eq!(picture.matches(r#"width="6" height="20""#).count(), 2);
    assert!(whole
        .json()
        .to_string()
        .contains(r#""holders":[{"holder":0,"halves":2}]"#));
}
