//! Chains that the check does not find: the cause, its notes and the fix.

use crate::{fixed, refused, script, KNOT, THREE, UNSHUT};

/// The note of a ring.
const NO_RING: &str = "a limit of the language: no atom is for a ring of cards \
                       (docs/LANGUAGE.md, \"What the language can't say\")";

#[test]
fn opened_and_not_shut() {
    let cause = refused(UNSHUT, 12);
    let said = "`ensures` (line 5) promises `chain this prev`, which is not held here";
    assert_eq!(cause.text, said);
    let notes = [
        "`chain this prev` was held up to line 7: `open p this prev`, and not shut since",
        "`this.prev` is held, and the rest of the chain: it is one after `shut this prev`",
    ];
    assert_eq!(cause.notes, notes);
    let fix = "insert `shut this prev` before line 8; the script is then accepted";
    assert_eq!(fixed(UNSHUT).as_deref(), Some(fix));
}

/// The links that are held, the one that is missing, and where it went.
#[test]
fn which_link_is_missing() {
    for (statements, notes) in [
        (
            "|assert chain s p",
            &["`s.p`, `t.p` and `u.p` are held, and the rest of the chain: it is one after \
               `shut u p`, then `shut t p`, then `shut s p`"][..],
        ),
        (
            "|release acc u p|assert chain s p",
            &[
                "`acc u p` was held up to line 14: `release acc u p`, which lets it go",
                "`s.p` leads to `t` and `t.p` to `u`, but neither `chain u p` nor `acc u p` is \
                 held",
            ],
        ),
        (
            "|shut u p|release chain u p|assert chain s p",
            &["`s.p` leads to `t` and `t.p` to `u`, but neither `chain u p` nor `acc u p` is held"],
        ),
        (
            "|release read t p|assert chain s p",
            &["of `t.p` a half is held, and a chain is of whole ones"],
        ),
        (
            "|set u p t|assert chain s p",
            &[NO_RING],
        ),
    ] {
        let cause = refused(&script("", &format!("{THREE}{statements}")), 12);
        assert_eq!(cause.text, "`chain s p` is not held here", "{statements}");
        let last = cause.notes.len().saturating_sub(notes.len());
        assert_eq!(cause.notes[last..], *notes, "{statements}");
    }
    let ring = refused(
        &script("", &format!("{THREE}|set u p t|assert chain s p")),
        12,
    );
    let head =
        "`s.p` leads to `t`, `t.p` to `u` and `u.p` to `t`: a ring, and a chain ends in null";
    assert_eq!(ring.headline(), head);
}

#[test]
fn a_link_that_leads_nobody_knows_where() {
    let make = "|method S make S k|requires|ensures acc result p|var S q|new q S|return q|end";
    let text = script(make, "|new s S|call t s make s|shut t p");
    let cause = refused(&text, 12);
    let note = "`t.p` is held, and it is not known to which card or chain it leads";
    assert_eq!(cause.notes, [note]);
    let fix = "add `eq result.p null` to line 6: `ensures`; the script is then accepted";
    assert_eq!(fixed(&text).as_deref(), Some(fix));
}

#[test]
fn a_ring_that_the_checker_sees() {
    let cause = refused(KNOT, 12);
    let said = "`shut` takes the chain by `prev` of the card that `b.prev` leads to, and it is \
                not held here";
    assert_eq!(cause.text, said);
    let head = "`b.prev` leads to `a` and `a.prev` to `b`: a ring, and a chain ends in null";
    assert_eq!(cause.headline(), head);
    assert_eq!(cause.notes, [NO_RING]);
    let fix = "delete line 10; the script is then accepted";
    assert_eq!(fixed(KNOT).as_deref(), Some(fix));
}

/// What stands in a chain is not read or written before it is opened.
#[test]
fn inside_a_chain() {
    for (line, number, fix) in [
        ("let t s.p", 11, "write line 11 as `open t s p`"),
        (
            "set s p t",
            12,
            "insert `var S v` before line 9, and insert `open v s p` before line 11",
        ),
    ] {
        let text = script("", &format!("|new s S|shut s p|{line}"));
        let cause = refused(&text, number);
        let notes = [
            "held up to line 10: `shut s p`, which makes it a part of `chain s p`",
            "`s.p` is in `chain s p`, which is held: `open` takes it out",
        ];
        assert_eq!(cause.notes, notes, "{line}");
        let fix = format!("{fix}; the script is then accepted");
        assert_eq!(fixed(&text), Some(fix), "{line}");
    }
}

#[test]
fn one_chain_is_not_two() {
    let twice = refused(
        &script("", "|new s S|shut s p|assert chain s p chain s p"),
        12,
    );
    assert!(twice.text.ends_with("is not held a second time here"));
    let names = refused(
        &script("", "|new s S|shut s p|let t s|assert chain s p chain t p"),
        12,
    );
    let head =
        "`chain s p` and `chain t p` ask for two chains, and `s` and `t` are known to be one";
    assert_eq!(names.headline(), head);
}

#[test]
fn open_and_shut_take() {
    for (statements, number, said) in [
        (
            "|open t s p",
            13,
            "`open` goes on from `s`, and `ne s null` is not known here",
        ),
        (
            "|new s S|open t s p",
            12,
            "`open` takes `chain s p` apart, and it is not held here",
        ),
        (
            "|shut s p",
            12,
            "`shut` makes `s.p` the first link of a chain, which needs `acc s p`, and it is not \
             held here",
        ),
        (
            "|new s S|release read s p|shut s p",
            12,
            "`shut` makes `s.p` the first link of a chain, which needs `acc s p`, and it is only \
             half held here",
        ),
        (
            "|new s S|open s s p",
            9,
            "`s` takes the next card, and is the card that is opened too",
        ),
        (
            "|new s S|shut s n",
            7,
            "`s.n` is int; a chain goes by a field with the class of `s` as its type",
        ),
    ] {
        let cause = refused(&script("", statements), number);
        assert_eq!(cause.text, said, "{statements}");
    }
}

#[test]
fn a_chain_frames_no_path() {
    let method = "|method int m int k|requires chain this p eq this.p null|ensures|end";
    let text = script(method, "");
    let cause = refused(&text, 10);
    let note = "`chain this p` does not count: a link of a chain is read after `open`, in the body";
    assert_eq!(cause.notes, [note]);
    let fix = "leave `eq this.p null` out of line 5; the script is then accepted";
    assert_eq!(fixed(&text).as_deref(), Some(fix));
}

/// 56 permissions of seven cards, and 8 of one whose link is in a chain: `open`
/// would make it 65.
#[test]
fn a_full_state_at_an_open() {
    let fields: String = "bcdefg"
        .chars()
        .map(|f| format!("|field int {f}"))
        .collect();
    let rest: String = "nbcdefg"
        .chars()
        .map(|f| format!(" acc result {f}"))
        .collect();
    let make = |name: &str, first: &str, shut: &str| {
        format!("|method S {name} S k|requires|ensures {first} result p{rest}|var S q|new q S{shut}|return q|end")
    };
    let methods = make("make", "acc", "") + &make("first", "chain", "|shut q p");
    let vars: String = (1..=7).map(|at| format!("|var S v{at}")).collect();
    let made: String = (1..=6).map(|at| format!("|call v{at} s make s")).collect();
    let statements = format!("|new s S{made}|call v7 s first s|open t v7 p");
    let text = format!("class S|field S p|field int n{fields}{methods}|main|var S s|var S t{vars}{statements}|end|");
    let text = text.replace('|', "\n").replace(' ', "\t").into_bytes();
    let cause = refused(&text, 14);
    assert!(
        cause.text.starts_with("64 permissions and 9 facts"),
        "{}",
        cause.text
    );
    let note = "`open` takes a chain, and gives a permission, a fact and a chain";
    assert_eq!(cause.notes, [note]);
}
