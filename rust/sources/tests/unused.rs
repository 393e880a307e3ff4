//! Nothing in the proved crates is there for nobody.

use sources::{expect_none, sources, unused_declarations, unused_imports, Document, File, Source};

fn files() -> Vec<File> {
    sources().into_iter().map(File::of).collect()
}

/// The documents, in which a theorem may be named for its own sake.
fn documents() -> String {
    ["ASSURANCE.md", "ARCHITECTURE.md", "DECISIONS.md"]
        .iter()
        .map(|name| Document::of(&format!("docs/{name}")).text)
        .collect()
}

fn made(crate_name: &str, place: &str, text: &str) -> File {
    File::of(Source::of(crate_name, place, text))
}

#[test]
fn every_law_definition_and_function_is_used() {
    let unused = unused_declarations(&files(), &documents());
    expect_none(&unused, "nobody uses: remove");
}

#[test]
fn every_import_is_used() {
    let unused = unused_imports(&files());
    expect_none(&unused, "imported and not used: remove the name");
}

#[test]
fn a_law_that_only_cites_itself_is_found() {
    let laws = "-- laws\npub kept : A\nkept = refl\n\npub lost : A → A\nlost (suc n) = lost n\n";
    let cites = "-- more\nuse Rattle.one.proofs.Laws.{kept, lost}\n\npub done : A\ndone = kept\n";
    let files = [
        made("one", "proofs/Laws.antt", laws),
        made("two", "proofs/More.antt", cites),
    ];
    assert_eq!(
        unused_declarations(&files, "`done`"),
        ["crates/one/proofs/Laws.antt:5: lost"]
    );
    assert_eq!(
        unused_imports(&files),
        ["crates/two/proofs/More.antt: lost of proofs.Laws"]
    );
}

#[test]
fn a_name_of_another_module_is_no_use() {
    let laws = "-- laws\npub same : A\nsame = refl\n";
    let other = "-- more\nuse Rattle.std.proofs.Seq.{same}\n\npub done : A\ndone = same\n";
    let files = [
        made("one", "proofs/Laws.antt", laws),
        made("two", "proofs/More.antt", other),
    ];
    assert_eq!(
        unused_declarations(&files, "`done`"),
        ["crates/one/proofs/Laws.antt:2: same"]
    );
}

#[test]
fn a_name_that_code_gives_and_does_not_use_is_found() {
    let code = "// code\nuse one::{Kind as Sort, Most};\nuse one::Kind as Line;\nuse one::State as Of;\n\nfn f(x: Of) {}\n";
    assert_eq!(
        unused_imports(&[made("two", "src/lib.rt", code)]),
        ["crates/two/src/lib.rt: Line of one::Kind"]
    );
}

#[test]
fn a_function_that_nobody_calls_is_found() {
    let code =
        "// code\npub fn used(x: u8) -> u8 {\n    x\n}\n\nfn left(x: u8) -> u8 {\n    used(x)\n}\n";
    let files = [made("one", "src/lib.rt", code)];
    assert_eq!(
        unused_declarations(&files, ""),
        ["crates/one/src/lib.rt:6: left"]
    );
}
