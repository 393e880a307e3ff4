//! Scripts to try the server on: the examples, those of the tests, and texts of
//! the generator.

use std::path::Path;

fn in_folder(name: &str) -> Vec<String> {
    let folder = Path::new(env!("CARGO_MANIFEST_DIR")).join(name);
    let entries = std::fs::read_dir(folder).expect("a folder");
    let mut files: Vec<_> = entries
        .map(|entry| entry.expect("an entry").path())
        .filter(|path| path.extension().is_some_and(|end| end == "script"))
        .collect();
    files.sort();
    let texts = files
        .iter()
        .map(|file| std::fs::read(file).expect("a file"));
    texts
        .filter_map(|text| String::from_utf8(text).ok())
        .collect()
}

/// The examples of the guide, and the scripts of the tests.
pub fn scripts() -> Vec<String> {
    let all = [in_folder("../../examples"), in_folder("tests/scripts")].concat();
    assert!(all.len() > 200, "{}", all.len());
    all
}

/// Those whose names and types are right.
pub fn readable() -> Vec<String> {
    let readable = |text: &String| model::read(text.as_bytes()).is_ok();
    let all: Vec<String> = scripts().into_iter().filter(readable).collect();
    assert!(all.len() > 100, "{}", all.len());
    all
}

/// Texts of the generator, right and wrong ones.
pub fn generated(count: u64) -> impl Iterator<Item = String> {
    let texts = (0..count).map(|seed| generator::text(0x1500_0000 + seed));
    texts.map(|text| String::from_utf8_lossy(&text).into_owned())
}
