//! Walks that stop a run: the cards on the way, and rings.

use crate::{script, stopped, THREE};

/// The cards of the walk, which of them is not held whole, and who took it.
#[test]
fn stops_on_the_way() {
    for (statements, said) in [
        (
            "|release acc u p|assert chain s p",
            "goes over object 1 (`s`), object 2 (`t`) and needs `p` of object 3 (`u`), which main \
             does not hold",
        ),
        (
            "|release read t p|assert chain s p",
            "goes over object 1 (`s`) and needs `p` of object 2 (`t`), of which main holds only a \
             half",
        ),
        (
            "|assert acc t p chain s p",
            "goes over object 1 (`s`) and needs `p` of object 2 (`t`), which `acc t p` took before",
        ),
        (
            "|assert chain t p chain s p",
            "goes over object 1 (`s`) and needs `p` of object 2 (`t`), which `chain t p` took \
             before",
        ),
        (
            "|release acc s p|assert chain s p",
            "needs `p` of object 1 (`s`), which main does not hold",
        ),
    ] {
        let cause = stopped(&script("", &format!("{THREE}{statements}")), 24);
        assert_eq!(cause.text, format!("`chain s p` {said}"), "{statements}");
    }
    let text = script("", &format!("{THREE}|release acc u p|shut s p"));
    let cause = stopped(&text, 24);
    let note =
        "the permission to `p` of object 3 (`u`) was released at line 14 (step 6): `release \
                acc u p`";
    assert_eq!(cause.notes, [note]);
}

#[test]
fn rings_with_their_cards() {
    for (statements, said, closed) in [
        (
            "|set u p s|assert chain s p",
            "`chain s p` is a ring: object 1 (`s`), object 2 (`t`), object 3 (`u`), object 1 (`s`)",
            "set u p s",
        ),
        (
            "|set u p t|assert chain s p",
            "`chain s p` leads from object 1 (`s`) into a ring: object 2 (`t`), object 3 (`u`), \
             object 2 (`t`)",
            "set u p t",
        ),
        (
            "|set u p s|open t s p",
            "`open` takes `chain s p`, which is a ring: object 1 (`s`), object 2 (`t`), object 3 \
             (`u`), object 1 (`s`)",
            "set u p s",
        ),
        (
            "|set u p u|shut s p",
            "`shut` takes the chain from `s.p`, which leads from object 2 (`t`) into a ring: \
             object 3 (`u`), object 3 (`u`)",
            "set u p u",
        ),
    ] {
        let cause = stopped(&script("", &format!("{THREE}{statements}")), 26);
        assert_eq!(cause.text, said, "{statements}");
        let note = format!("the ring was closed at line 14 (step 6): `{closed}`");
        assert_eq!(cause.notes, [note], "{statements}");
        assert!(cause.help.is_some_and(|help| help.contains("ring")));
    }
}

/// A walk over many cards is described by its ends.
#[test]
fn long_walks() {
    let grown = "|let a 0|loop ne a 40|new t S|set t p s|let s t|add a a one|again";
    let text = script("", &format!("{grown}|release acc u p|assert chain s p"));
    let text = String::from_utf8(text).expect("a text");
    let text = text.replace("var\tint\ta\n", "var\tint\ta\nvar\tint\tone\nlet\tone\t1\n");
    let first = "loop\tne\ta\t40\n";
    let text = text.replace(first, "new\tu\tS\nlet\ts\tu\nloop\tne\ta\t40\n");
    let cause = stopped(text.as_bytes(), 24);
    assert!(cause.text.contains(", 28 more, "), "{}", cause.text);
    assert!(cause.text.len() < 400, "{}", cause.text);
}
