//! What people read is in plain English.

use sources::{avoided_words, expect_none, plain, root, texts_for_people, AVOIDED};
use std::fs;

/// The papers' words, which may be quoted.
fn papers() -> String {
    let names = ["01-scope.md", "02-change-requests.md"];
    let texts = names.map(|name| {
        let path = root().join("docs/papers").join(name);
        fs::read_to_string(&path).unwrap_or_else(|error| panic!("{}: {error}", path.display()))
    });
    plain(&texts.concat())
}

#[test]
fn no_word_to_avoid() {
    let papers = papers();
    let texts = texts_for_people();
    assert!(texts.len() > 200, "{} texts", texts.len());
    let found: Vec<String> = texts
        .iter()
        .flat_map(|(path, text)| avoided_words(path, text, &papers))
        .collect();
    expect_none(&found, "words that a native engineer would not use");
}

/// Each word is found on its own, and not within another word or in a quote of a paper.
#[test]
fn words_are_found() {
    let papers = papers();
    for avoided in &AVOIDED {
        let text = format!("first\nIt is {} here.", avoided.word);
        let found = avoided_words("a.md", &text, &papers);
        assert!(found[0].starts_with("a.md:2: "), "{found:?}");
        let within = format!("it is x{}y here", avoided.word);
        assert!(avoided_words("a.md", &within, &papers).is_empty());
    }
    let given = "a: finds 1; looked at 2 of 3; mended 1; none";
    assert!(avoided_words("docs/LOOK-BACK.md", given, &papers).is_empty());
    for (path, line) in [("a.md", given), ("docs/LOOK-BACK.md", "It is mended.")] {
        assert_eq!(avoided_words(path, line, &papers).len(), 1);
    }
    let quote = "/// \"prints fields parted by tabs";
    assert!(avoided_words("a.rs", quote, &papers).is_empty());
    assert_eq!(
        avoided_words("a.rs", "/// \"fields parted by dots\"", &papers).len(),
        1
    );
}
