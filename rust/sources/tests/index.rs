//! The index from the papers' sentences to definitions, laws and code, made of what the comments quote.

use sources::{papers, root, sources, Index, Paper, Source};
use std::path::Path;

/// Every quote stands in a paper, and the index is made: its page tells which sentences nothing quotes.
#[test]
fn every_quote_stands_in_a_paper() {
    let index = Index::of(sources(), papers(&root()));
    assert!(index.faults.is_empty(), "{}", index.faults.join("\n"));
    let page = index.page();
    let path = Path::new(env!("CARGO_TARGET_TMPDIR")).join("INDEX.md");
    std::fs::write(&path, &page).expect("the page");
    println!("{}", path.display());
    // Most of document 01 is rendered; what is left are introductions, rows that tell the same again, and its examples.
    let (all, left) = (papers(&root())[0].sentences.len(), index.unquoted(0).len());
    assert!(
        index.count > 150 && 2 * left < all,
        "{} quotes, {left} of {all} not quoted",
        index.count
    );
    for found in [
        "laws: `one-claim-returned` (crates/station/proofs/Demand3.antt:",
        "code: `station::check` (crates/station/src/lib.rt:",
        "quoted in proofs: `rows` (crates/rules/proofs/Examples.antt:",
    ] {
        assert!(page.contains(found), "{found}");
    }
}

fn made(place: &str, text: &str) -> Source {
    Source::of("one", place, text)
}

const PAPER: &str = "# Paper\n\nA line is long. The rest `is`, as told (here), short.\n\n    an example. Not a sentence.\n\n\
                     | Number | When |\n|---|---|\n| 4 | bad form. Very | \n\n**W1. More.** A sum is new: −1.\n";

#[test]
fn sentences_of_a_paper() {
    let paper = Paper::of("paper", PAPER);
    let sentences: Vec<(&str, &str)> = paper
        .sentences
        .iter()
        .map(|sentence| (sentence.section.as_str(), sentence.text.as_str()))
        .collect();
    assert_eq!(
        sentences,
        [
            ("Paper", "A line is long."),
            ("Paper", "The rest `is`, as told (here), short."),
            ("Paper", "| 4 | bad form. Very |"),
            ("W1. More.", "A sum is new: −1."),
        ]
    );
    assert_eq!(paper.quoted("long. The rest is"), Some(vec![0, 1]));
    assert_eq!(paper.quoted("The rest .., short"), Some(vec![1]));
    assert_eq!(paper.quoted("The rest [of it], as told;"), Some(vec![1]));
    assert_eq!(paper.quoted("bad form"), Some(vec![2]));
    assert_eq!(paper.quoted("W1. More"), Some(vec![]));
    for wrong in [
        "the rest",
        "short .. rest",
        "ine is long",
        "an example",
        "long. .. bad form",
    ] {
        assert_eq!(paper.quoted(wrong), None, "{wrong}");
    }
}

#[test]
fn quotes_lead_to_laws_and_code() {
    let specs = "-- head\n\n-- \"A line is\n-- long.\" as \"x\"\npub isLong : A\nisLong = b\n\n-- no quote\npub over : A\nover = isLong\n";
    let proofs = "-- laws\nuse Rattle.one.specs.Texts.{isLong}\n\npub long-law : isLong\nlong-law = refl\n\npub other : A\nother = isLong\n";
    let code = "// code\nghost use Rattle.one.specs.Texts.{over};\n\n// \"short\"\nfn f(x: u8)\n    ensures { over }\n{\n    x\n}\n";
    let files = || {
        vec![
            made("specs/Texts.antt", specs),
            made("proofs/Laws.antt", proofs),
            made("src/lib.rt", code),
        ]
    };
    let index = Index::of(files(), vec![Paper::of("paper", PAPER)]);
    assert_eq!(index.faults, Vec::<String>::new());
    assert_eq!(index.unquoted(0), [2, 3]);
    let page = index.page();
    for row in [
        "- A line is long.\n  - `isLong` (crates/one/specs/Texts.antt:5); laws: `long-law` (crates/one/proofs/Laws.antt:4); \
         code: `one::f` (crates/one/src/lib.rt:5)\n",
        "- The rest `is`, as told (here), short.\n  - `one::f` (crates/one/src/lib.rt:5)\n",
    ] {
        assert!(page.contains(row), "{page}");
    }
    let mut wrong = files();
    wrong[0].text.push_str("-- \"A line is short.\"\n");
    wrong.push(made("src/more.rt", "// an \"odd mark\nfn g() {}\n"));
    let index = Index::of(wrong, vec![Paper::of("paper", PAPER)]);
    assert_eq!(
        index.faults,
        [
            "crates/one/src/more.rt:1: a quote without its end",
            "crates/one/specs/Texts.antt:11: no paper has \"A line is short.\"",
        ]
    );
}

/// The page's row of a definition with a quote, beside one other file.
fn row_of(name: &str, other: Source) -> String {
    let specs = format!("-- head\n\n-- \"A line is long.\"\npub {name} : A\n{name} = b\n");
    let files = vec![made("specs/Texts.antt", &specs), other];
    let page = Index::of(files, vec![Paper::of("paper", PAPER)]).page();
    let (_, rest) = page.split_once("  - ").expect("a row");
    rest.lines().next().expect("a line").to_string()
}

#[test]
fn a_function_does_not_hide_the_definition_of_its_name() {
    let code = "// code\nghost use Rattle.one.specs.Texts.{add};\n\nfn add(x: u8)\n    ensures { add }\n{\n    x\n}\n";
    assert_eq!(
        row_of("add", made("src/lib.rt", code)),
        "`add` (crates/one/specs/Texts.antt:4); code: `one::add` (crates/one/src/lib.rt:4)"
    );
}

#[test]
fn what_has_its_name_comes_first() {
    let law = |name: &str, statement: &str| format!("pub {name} : {statement}\n{name} = refl\n\n");
    let laws = [
        law("kept", "long ≡ kept-too"),
        law("kept-too", "long"),
        law("long-law", "long ≡ kept"),
    ];
    let laws = format!(
        "-- laws\nuse Rattle.one.specs.Texts.{{long}}\n\n{}",
        laws.concat()
    );
    let row = row_of("long", made("proofs/Laws.antt", &laws));
    let (_, shown) = row.split_once("laws: ").expect("laws");
    let names: Vec<&str> = shown.split('`').skip(1).step_by(2).collect();
    assert_eq!(names, ["long-law", "kept-too", "kept"]);
}

/// Is a law with this import and statement about the definition `long`?
fn is_about_long(import: &str, statement: &str) -> bool {
    let law = format!(
        "-- laws\nuse Rattle.one.specs.Texts{import}\n\npub law : {statement}\nlaw = refl\n"
    );
    row_of("long", made("proofs/Laws.antt", &law))
        .contains("laws: `law` (crates/one/proofs/Laws.antt:4)")
}

#[test]
fn a_module_taken_whole_gives_no_bare_name() {
    for (statement, about) in [
        ("Texts.long ≡ b", true),
        ("f (Texts.long)", true),
        ("long ≡ b", false),
        ("r.long ≡ b", false),
        ("Other.long ≡ b", false),
    ] {
        assert_eq!(is_about_long(" as Texts", statement), about, "{statement}");
    }
}

#[test]
fn a_part_or_a_variable_is_no_use() {
    for (statement, about) in [
        ("long ≡ b", true),
        ("record { x = long } ≡ b", true),
        ("r.long ≡ b", false),
        ("(long : A) → b", false),
        ("record { long = b; long = c } ≡ b", false),
    ] {
        assert_eq!(is_about_long(".{long}", statement), about, "{statement}");
    }
}

#[test]
fn quotes_of_proofs_stand_apart() {
    let proofs = "-- laws\n\nrows : A\nrows =\n    -- \"A line is long.\"\n    b ∷\n    -- \"bad form\"\n    c\n";
    let answer = "-- \"no paper has this\"\n";
    let files = vec![
        made("proofs/Laws.antt", proofs),
        made("proofs/f/Answers.antt", answer),
    ];
    let index = Index::of(files, vec![Paper::of("paper", PAPER)]);
    assert_eq!(index.faults, Vec::<String>::new());
    assert_eq!(index.unquoted(0), [1, 3]);
    let row = |line: usize| {
        format!("\n  - quoted in proofs: `rows` (crates/one/proofs/Laws.antt:{line})\n")
    };
    let page = index.page();
    for row in [
        "- A line is long.".to_string() + &row(5),
        "- | 4 | bad form. Very |".to_string() + &row(7),
    ] {
        assert!(page.contains(&row), "{page}");
    }
}

#[test]
fn requests_that_have_not_landed() {
    let page = |changes: &str| {
        let paper = Paper::of("paper", PAPER).landed(changes);
        let index = Index::of(Vec::new(), vec![paper]);
        (index.unquoted(0), index.page())
    };
    let line = "- (W1. More.) A sum is new: −1.\n";
    let (unquoted, waiting) = page("## W2: other\n");
    assert_eq!(unquoted, [0, 1, 2]);
    assert!(
        waiting.ends_with(&format!("### Not landed\n\n{line}")),
        "{waiting}"
    );
    assert!(
        waiting.contains("## paper: 0 of 3 sentences are quoted\n"),
        "{waiting}"
    );
    let (unquoted, landed) = page("## W1: more\n");
    assert_eq!(unquoted, [0, 1, 2, 3]);
    assert!(
        landed.ends_with(line) && !landed.contains("Not landed"),
        "{landed}"
    );
}
