//! What the documents say of the sources is so.

use sources::{
    believed, closure, crates_not_told, documents, expect_none, files_told, imported, listed,
    listed_crates, proved_crates, root, shown_counts, sources, Document, Names,
};
use std::collections::BTreeSet;
use std::process::Command;

fn document(name: &str) -> String {
    Document::of(&format!("docs/{name}")).text
}

/// The page on the notation shows lines as they stand in the sources.
#[test]
fn lines_that_are_read_aloud() {
    let sources = sources();
    let lines: BTreeSet<&str> = sources
        .iter()
        .flat_map(|source| source.text.lines())
        .map(str::trim)
        .collect();
    let page = document("NOTATION.md");
    let shown: Vec<&str> = page
        .lines()
        .filter_map(|line| line.strip_prefix("    "))
        .map(str::trim)
        .collect();
    assert!(shown.len() > 10, "{shown:?}");
    let lost: Vec<String> = shown
        .into_iter()
        .filter(|line| !lines.contains(line))
        .map(str::to_string)
        .collect();
    expect_none(&lost, "docs/NOTATION.md shows what no source has");
}

/// A page that tells what there was.
const HISTORY: &str = "docs/CHANGES.md";

/// Every path that a document names in backquotes is there, and every item of a crate or a type.
#[test]
fn names_are_of_something() {
    let names = Names::of_the_repository();
    let pages = documents();
    assert!(pages.iter().any(|page| page.path == HISTORY));
    let pages = pages.iter().filter(|page| page.path != HISTORY);
    let lost: Vec<String> = pages.flat_map(|page| names.lost(page)).collect();
    expect_none(
        &lost,
        "the repository has no such path or item; name what there is now",
    );
}

/// The tables of the architecture have a row for each crate.
#[test]
fn every_crate_has_its_row() {
    let list = Document::of("crates.txt").text;
    let faults = crates_not_told(&listed_crates(&list), &document("ARCHITECTURE.md"));
    let to_do = "the tables of docs/ARCHITECTURE.md must have one row for each crate of crates.txt";
    expect_none(&faults, to_do);
}

/// Where a document says how many crates a command proves, so many are listed.
#[test]
fn counts_of_crates() {
    let list = Document::of("crates.txt").text;
    let told = shown_counts(&list, &document("ASSURANCE.md"));
    expect_none(
        &told.wrong,
        "docs/ASSURANCE.md has another number of crates",
    );
    assert_eq!(told.rows, 3, "docs/ASSURANCE.md shows these checks");
    let below = proved_crates(&list, "script").expect("the program") - 1;
    let told = format!("everything below it, {below} crates");
    let page = Document::of("README.md").text;
    assert!(page.contains(&told), "README.md must say: {told}");
}

/// And the files that its other tables list are there.
#[test]
fn files_of_tables() {
    let told = files_told(&document("ARCHITECTURE.md"));
    assert!(told.len() > 50, "only {} files are found", told.len());
    let lost = told.iter().filter(|(_, path)| !root().join(path).exists());
    let lost: Vec<String> = lost
        .map(|(line, path)| format!("docs/ARCHITECTURE.md:{}: {path}", line + 1))
        .collect();
    expect_none(&lost, "a table lists a file that is not there");
}

/// What a reader must believe is what the assurance lists: the files of the claims and all that they import, no more.
#[test]
fn what_must_be_believed() {
    let told = listed(&document("ASSURANCE.md"), "## What must be believed");
    let believed = believed();
    assert!(believed.len() > 20, "{believed:?}");
    let (more, less) = (believed.difference(&told), told.difference(&believed));
    let more = more.map(|file| format!("{file}: not listed"));
    let less = less.map(|file| format!("{file}: no claim rests on it"));
    let faults: Vec<String> = more.chain(less).collect();
    expect_none(&faults, "docs/ASSURANCE.md, What must be believed");
}

/// The closure goes over imports of definitions, in the own crate and in others, and not over types of code.
#[test]
fn what_claims_import() {
    let some = "use Rattle.rules.specs.State.{Term}";
    assert_eq!(
        imported(some).as_deref(),
        Some("crates/rules/specs/State.antt")
    );
    let whole = "pub use Rattle.rules.specs.Syntax as Syntax";
    assert_eq!(
        imported(whole).as_deref(),
        Some("crates/rules/specs/Syntax.antt")
    );
    for none in [
        "use Rattle.tables.specs.declared.Expr.{Expr}",
        "use Rattle.rules.proofs.Lists.{T_true}",
        "use Rattle.std.specs.Prelude.{List}",
        "use Prim.Native.String.{String}",
    ] {
        assert_eq!(imported(none), None, "{none}");
    }
    let read = |path: &str| match path {
        "crates/one/specs/Claim.antt" => "use Rattle.two.specs.Base.{a}\n".to_string(),
        _ => String::new(),
    };
    let files = closure(&["crates/one/specs/Claim.antt"], read);
    let files: Vec<&str> = files.iter().map(String::as_str).collect();
    assert_eq!(
        files,
        ["crates/one/specs/Claim.antt", "crates/two/specs/Base.antt"]
    );
    let page = "## A\n| `two` | `Other` |\n## B\n| Crate | Files |\n|---|---|\n| `one` | `Claim`, `Base` |\n## C\n";
    let told: Vec<String> = listed(page, "## B").into_iter().collect();
    assert_eq!(
        told,
        ["crates/one/specs/Base.antt", "crates/one/specs/Claim.antt"]
    );
}

/// The kit that the assurance names is the one that proves, where there is one.
#[test]
fn the_kit_is_the_one_named() {
    let Ok(output) = Command::new("rt").arg("version").output() else {
        println!("there is no rt here");
        return;
    };
    let version = String::from_utf8_lossy(&output.stdout);
    assert!(
        document("ASSURANCE.md").contains(version.trim()),
        "{version}"
    );
}

const PATHS: [&str; 5] = [
    "docs/PAGE.md",
    "crates/one",
    "crates/one/src/lib.rt",
    "crates/one/specs",
    "crates/one/specs/Base.antt",
];

const CODE: &str = "pub struct Open {
    pub row: usize,
}

impl Open {
    pub const MOST: u8 = 3;
}

pub enum Kind {
    Line(u8),
}

#[no_mangle]
pub extern \"C\" fn scan(x: u8) -> u8 {
    let y = x;
}
";

/// What is lost on a page, in a small repository.
fn lost(page: &str) -> Vec<String> {
    let mut names = Names::default();
    PATHS.iter().for_each(|path| names.path(path));
    names.source("one", CODE);
    names.source(
        "two",
        "macro_rules! made {\n        pub const fn of() {}\n}\n",
    );
    names.lost(&Document {
        path: "docs/PAGE.md".to_string(),
        text: page.to_string(),
    })
}

/// On a page with each of these words all are lost, or none is.
fn lost_of(words: &str, all: bool) {
    for word in words.split_whitespace() {
        let told = format!("docs/PAGE.md:3: `{word}`");
        let told: Vec<String> = all.then_some(told).into_iter().collect();
        assert_eq!(lost(&format!("Page\n\nSee `run {word}`.\n")), told);
    }
}

#[test]
fn a_lost_path_is_found() {
    lost_of(
        "docs/OTHER.md OTHER.md crates/two crates/t* src/more.rt more.rs",
        true,
    );
    lost_of("specs/Bas specs/*.rt NAME/docs/PAGE.md", true);
    lost_of(
        "docs/PAGE.md PAGE.md crates/one crates/o* src/lib.rt lib.rt",
        false,
    );
    lost_of(
        "specs/ specs/Base specs/*.antt crates/NAME/src/lib.rt",
        false,
    );
    lost_of(
        "target/lost.md docs/target/lost crates/out/lost.md and/or PREFIX/docs lost",
        false,
    );
    let blocks = "```\n`lost.md`\n```\n\n    `lost.md`\n\nlost.md\n";
    assert_eq!(lost(blocks), [""; 0]);
}

#[test]
fn a_lost_item_is_found() {
    lost_of("one::y one::x one::use one::MOST one::of two::scan", true);
    lost_of("Open::scan Open::LEAST Kind::Row", true);
    lost_of("one::scan one::more::scan one::Open one::Kind", false);
    lost_of("Open::MOST Open::row Kind::Line Kind::of", false);
    lost_of("libc::read Other::MOST", false);
}

const TABLES: &str = "# `one`: a crate\n\n| Crate | Holds |\n|---|---|\n| `one` | what `two` has |\n\n\
                      | File of `specs/` | Renders |\n|---|---|\n| `Base`, `More` | `x` |\n\n| From | Holds |\n|---|---|\n| `0` | |\n";

#[test]
fn a_crate_without_its_row_is_found() {
    let list = "# crates\none:\ntwo: one # more\nthree staticlib: one two\n";
    assert_eq!(listed_crates(list), ["one", "two", "three"]);
    assert_eq!(crates_not_told(&["one"], TABLES), [""; 0]);
    assert_eq!(
        crates_not_told(&["one", "two"], TABLES),
        ["`two` has 0 rows"]
    );
    assert_eq!(
        crates_not_told(&[], TABLES),
        ["`one` is no crate of crates.txt"]
    );
    let twice = TABLES.repeat(2);
    assert_eq!(crates_not_told(&["one"], &twice), ["`one` has 2 rows"]);
}

#[test]
fn a_wrong_count_is_found() {
    let list = "one:\ntwo: one io\n";
    let counts = ["one", "two", "io"].map(|name| proved_crates(list, name));
    assert_eq!(counts, [Some(1), Some(2), None]);
    let row = |count: &str| format!("| `rt check` in `crates/two` | it{count} | `ok` |\n");
    let wrong = |count: &str| shown_counts(list, &row(count)).wrong;
    assert_eq!(wrong(": `2 crates`"), [""; 0]);
    assert_eq!(
        wrong(": `3 crates`"),
        ["`rt check` in `crates/two`: 2 crates, not 3 crates"]
    );
    assert_eq!(
        wrong(""),
        ["`rt check` in `crates/two`: 2 crates, not no number"]
    );
    assert_eq!(shown_counts(list, &row("").repeat(2)).rows, 2);
}

#[test]
fn files_that_tables_list() {
    let path = |name: &str| (8, format!("crates/one/specs/{name}.antt"));
    assert_eq!(files_told(TABLES), [path("Base"), path("More")]);
}
