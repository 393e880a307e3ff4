//! A renamed text means what it meant: the library answers the same of it.

use super::scripts::{generated, scripts};
use crate::lsp::names::{at, occurrences, rename, renamed, Occurrence};
use crate::lsp::outline::Outline;
use explain::Json;
use generator::rng::Rng;

const STEPS: u32 = 1_000;

/// All that the library says of a text, names apart.
fn answers(text: &str) -> String {
    let bytes = text.as_bytes();
    let trial = nuyardi::trial(bytes, STEPS);
    let values: Vec<_> = trial.variables().map(|variable| variable.value).collect();
    let refused = nuyardi::check(bytes).err();
    let bound = nuyardi::bound(bytes).map(|bound| bound.to_string());
    let filled = nuyardi::fill(bytes).map(|filled| filled.places().to_vec());
    let ending = (trial.number(), trial.line(), trial.steps());
    format!("{refused:?} {ending:?} {values:?} {bound:?} {filled:?}")
}

/// The text after the edits of a rename.
fn applied(text: &str, edits: &Json, new: &str) -> String {
    let Some(Json::List(edits)) = edits.at(&["changes", "a"]) else {
        panic!("no edits: {edits}");
    };
    let mut lines: Vec<String> = text.split('\n').map(str::to_string).collect();
    for edit in edits.iter().rev() {
        let number =
            |names: &[&str]| edit.at(names).and_then(Json::int).expect("a number") as usize;
        let line = number(&["range", "start", "line"]);
        let from = number(&["range", "start", "character"]);
        let to = number(&["range", "end", "character"]);
        assert_eq!(edit.get("newText").and_then(Json::text), Some(new));
        lines[line].replace_range(from..to, new);
    }
    lines.join("\n")
}

fn renamed_text(text: &str, name: &Occurrence, new: &str) -> Result<String, String> {
    let outline = Outline::of(text.as_bytes());
    let place = (name.line, name.bytes.start);
    let edits = rename(text, "a", &outline, place, new)?;
    Ok(applied(text, &edits, new))
}

/// The first place of each thing that is named.
fn each_name(text: &str) -> Vec<Occurrence> {
    let outline = Outline::of(text.as_bytes());
    let mut first: Vec<Occurrence> = Vec::new();
    for name in occurrences(text, &outline) {
        if first.iter().all(|known| known.entity != name.entity) {
            first.push(name);
        }
    }
    first
}

/// Every name of every script gets a new one, and its old one back.
#[test]
fn the_same_answers() {
    let mut done = 0;
    for text in scripts() {
        let before = answers(&text);
        for name in each_name(&text) {
            let outline = Outline::of(text.as_bytes());
            if renamed(&text, &outline, name.line, name.bytes.start).is_err() {
                continue;
            }
            let new = renamed_text(&text, &name, "Q9").expect("a name that is not taken");
            assert_eq!(answers(&new), before, "{:?}\n{text}", name.entity);
            assert_ne!(new, text);
            let old = name.entity.name();
            let outline = Outline::of(new.as_bytes());
            let moved = occurrences(&new, &outline);
            let moved = moved.iter().find(|name| name.entity.name() == "Q9");
            let back = renamed_text(&new, moved.expect("the name"), old).expect("the old name");
            assert_eq!(back, text);
            done += 1;
        }
    }
    assert!(done > 1_500, "{done}");
}

/// A name that another thing has is refused, or the answers are the same: also in
/// texts that are wrong.
#[test]
fn names_that_are_taken() {
    let (mut done, mut refused) = (0, 0);
    let mut rng = Rng::new(8);
    for text in scripts().into_iter().chain(generated(150)) {
        let before = answers(&text);
        let names = each_name(&text);
        for name in &names {
            let other = rng.pick(&names);
            match renamed_text(&text, name, other.entity.name()) {
                Ok(new) => {
                    done += 1;
                    assert_eq!(answers(&new), before, "{:?}\n{text}", name.entity);
                }
                Err(why) => {
                    refused += 1;
                    assert!(!why.is_empty());
                }
            }
        }
    }
    assert!(done > 500 && refused > 500, "{done} {refused}");
}

/// Two classes with the same names, and main with others' names: only its own are
/// renamed.
#[test]
fn only_its_own() {
    let class = |name: &str| {
        let method = "method\tint\tm\tint\tn\nrequires\tacc\tthis\tn\nensures\tacc\tthis\tn\n\
                      return\tn\nend\n";
        format!("class\t{name}\nfield\tint\tn\n{method}")
    };
    let main = "main\nvar\tA\ta\nvar\tB\tb\nvar\tint\tn\nvar\tint\tm\nnew\ta\tA\nnew\tb\tB\n\
                let\tn\ta.n\ncall\tm\ta\tm\tn\nlet\tn\tb.n\ncall\tm\tb\tm\tn\nend\n";
    let text = format!("{}{}{main}", class("A"), class("B"));
    assert!(nuyardi::check(text.as_bytes()).is_ok());
    let outline = Outline::of(text.as_bytes());
    let lines_changed = |line: u32, column: usize| {
        let edits = rename(&text, "a", &outline, (line, column), "Q9").expect("a rename");
        let new = applied(&text, &edits, "Q9");
        let both = text.lines().zip(new.lines()).enumerate();
        let changed = both.filter(|(_, (old, new))| old != new);
        changed.map(|(at, _)| at + 1).collect::<Vec<_>>()
    };
    // The field and the method of A, its parameter, the field of B, main's variable.
    assert_eq!(lines_changed(1, 10), [2, 4, 5, 22]);
    assert_eq!(lines_changed(2, 11), [3, 23]);
    assert_eq!(lines_changed(2, 17), [3, 6]);
    assert_eq!(lines_changed(8, 10), [9, 11, 12, 24]);
    assert_eq!(lines_changed(17, 8), [18, 22, 23, 24, 25]);
    // A class of its type names.
    assert_eq!(lines_changed(0, 6), [1, 16, 20]);
}

/// Why a name is refused is said.
#[test]
fn refused_with_a_reason() {
    let text =
        "class\tC\nfield\tint\tn\nfield\tint\tk\nmethod\tint\tm\tC\tw\nrequires\tacc\tthis\tn\n\
                ensures\nreturn\tx\nend\nmain\nvar\tC\ta\nvar\tC\tb\nend\n";
    let outline = Outline::of(text.as_bytes());
    let tried = |line: u32, column: usize, new: &str| {
        rename(text, "a", &outline, (line, column), new).expect_err("a refusal")
    };
    let form = "a name is a letter and at most 11 more letters or digits (ASCII), which \"";
    for (line, column, new, why) in [
        (1, 10, "", format!("{form}\" is not")),
        (1, 10, "a\nb", format!("{form}a\\nb\" is not")),
        (
            1,
            10,
            "abcdefghijklm",
            format!("{form}abcdefghijklm\" is not"),
        ),
        (1, 10, "7", format!("{form}7\" is not")),
        (1, 10, "n.k", format!("{form}n.k\" is not")),
        (1, 10, "null", "`null` is reserved".to_string()),
        (
            1,
            10,
            "k",
            "line 3 already has a field of this class `k`".to_string(),
        ),
        (
            9,
            6,
            "b",
            "line 11 already has a variable of this block `b`".to_string(),
        ),
        (
            4,
            13,
            "x",
            "`this` is reserved and keeps its name".to_string(),
        ),
        (
            1,
            7,
            "x",
            "`int` is reserved and keeps its name".to_string(),
        ),
        (6, 8, "y", "`x` is not declared in this text".to_string()),
        (8, 0, "y", "there is no name here".to_string()),
        (99, 99, "y", "there is no name here".to_string()),
    ] {
        assert_eq!(tried(line, column, new), why);
    }
    // The parameter may be called as a class, but not as a use that it would catch.
    assert!(rename(text, "a", &outline, (3, 15), "C").is_ok());
    assert_eq!(
        tried(3, 15, "x"),
        "line 7 already has a variable of this block `x`"
    );
}

/// A text that would be too long with the new name.
#[test]
fn texts_that_get_too_long() {
    let mut text = "main\nvar\tint\ta\n".to_string();
    while text.len() + "assert\teq\ta\ta\teq\ta\ta\nend\n".len() <= nuyardi::limits::TEXT_BYTES {
        text.push_str("assert\teq\ta\ta\teq\ta\ta\n");
    }
    text.push_str("end\n");
    let outline = Outline::of(text.as_bytes());
    let why = rename(&text, "a", &outline, (1, 8), "abcdefghijkl").expect_err("too long");
    assert_eq!(
        why,
        "with the name `abcdefghijkl` check would answer 2 at line 0"
    );
}

/// No text and no place makes it panic.
#[test]
fn hostile_places() {
    let mut rng = Rng::new(21);
    for text in generated(300) {
        let outline = Outline::of(text.as_bytes());
        for _ in 0..30 {
            let (line, column) = (rng.below(60) as u32, rng.below(60));
            if let Some(name) = at(&text, &outline, line, column) {
                assert_eq!(name.line, line);
                assert!(!name.entity.name().is_empty());
            }
            let _ = rename(&text, "a", &outline, (line, column), "Q9");
        }
    }
}
