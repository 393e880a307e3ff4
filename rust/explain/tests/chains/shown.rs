//! Lists, traces, cards and drawings.

use crate::{script, KNOT, THREE, WALK};
use explain::script::Script;
use explain::{cards, draw, known, trace};

#[test]
fn known_prints_chains() {
    let script = Script::of(WALK).expect("a script");
    let open = known::at(&script, 10).expect("the open");
    assert_eq!(open.dropped, ["chain this prev"]);
    let added = ["acc this prev", "chain p prev", "eq this.prev p"];
    assert_eq!(open.added, added);
    let shut = known::at(&script, 18).expect("the shut");
    assert_eq!(shut.added, ["chain this prev"]);
}

#[test]
fn a_trace_tells_where_chains_go() {
    let script = Script::of(WALK).expect("a script");
    let mut moves = Vec::new();
    trace::each(&script, 36, |row| {
        let told = row.changes.iter().filter(|change| change.contains(" to "));
        moves.extend(told.map(|change| format!("{}: {change}", row.line)));
        true
    });
    let expected = [
        "35: the chain of object 3 by prev, 3 cards, to count",
        "14: the chain of object 2 by prev, 2 cards, to count",
        "14: object 1.prev to count",
        "19: object 1.prev to count",
        "19: the chain of object 2 by prev, 2 cards, to count",
        "19: the chain of object 3 by prev, 3 cards, to main",
    ];
    assert_eq!(moves, expected);
}

#[test]
fn cards_and_drawing_mark_chains_and_rings() {
    let chain = cards::after(WALK, 36).expect("the cards");
    assert!(!chain.table().contains("ring"), "{}", chain.table());
    let picture = draw::svg(&chain, "a");
    assert_eq!(picture.matches(r#"class="link chain""#).count(), 2);
    assert_eq!(picture.matches("c, chain by prev<").count(), 1, "{picture}");
    assert!(picture.contains("thick link: a chain, in the colour of who holds all of it"));
    let ring = cards::after(KNOT, 4).expect("the cards");
    let table = ring.table();
    assert!(table.ends_with("  ring by prev: object 1, object 2, object 1\n"));
    assert_eq!(ring.json().to_string().matches(r#""ring":true"#).count(), 2);
    let picture = draw::svg(&ring, "a");
    assert_eq!(picture.matches(" ring\" marker").count(), 2, "{picture}");
    assert_eq!(picture.matches("ring by prev<").count(), 2, "{picture}");
    assert!(picture.contains("thick red link: a ring, which is no chain"));
}

/// Links of which another block has a half, or nobody, are no chain.
#[test]
fn a_chain_is_held_by_one() {
    for (statements, links) in [
        ("", 2),
        ("|release acc u p", 0),
        ("|release read t p", 0),
        ("|release acc s p", 1),
        ("|set u p s", 0),
    ] {
        let text = script("", &format!("{THREE}{statements}"));
        let steps = if statements.is_empty() { 5 } else { 6 };
        let picture = draw::svg(&cards::after(&text, steps).expect("the cards"), "a");
        let thick = picture.matches("link chain\"").count();
        assert_eq!(thick, links, "{statements}");
    }
}
