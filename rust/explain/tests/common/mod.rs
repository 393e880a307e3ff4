//! Texts for the tests of messages and warnings.
#![allow(dead_code)]

use std::path::Path;

/// The scripts of a folder of the repository.
pub fn scripts(folder: &str) -> Vec<Vec<u8>> {
    let folder = Path::new(env!("CARGO_MANIFEST_DIR")).join(folder);
    let entries = std::fs::read_dir(folder).expect("a folder");
    let paths = entries.map(|entry| entry.expect("an entry").path());
    let scripts = paths.filter(|path| path.extension().is_some_and(|end| end == "script"));
    scripts
        .map(|path| std::fs::read(path).expect("a script"))
        .collect()
}

/// The text without each of its lines, and each line without each of its atoms.
fn shortened(text: &[u8]) -> Vec<Vec<u8>> {
    let lines: Vec<&[u8]> = text.split_inclusive(|&byte| byte == b'\n').collect();
    let mut found = Vec::new();
    for at in 0..lines.len() {
        found.push([&lines[..at], &lines[at + 1..]].concat().concat());
        let fields: Vec<&[u8]> = lines[at].trim_ascii_end().split(|&b| b == b'\t').collect();
        let first = match fields[0] {
            b"requires" | b"ensures" | b"join" => 1,
            b"loop" => 4,
            _ => continue,
        };
        for atom in (first..fields.len().saturating_sub(2)).step_by(3) {
            let fewer = [&fields[..atom], &fields[atom + 3..]].concat().join(&b'\t');
            let fewer = [&fewer[..], b"\n"].concat();
            found.push(
                [&lines[..at], &[&fewer], &lines[at + 1..]]
                    .concat()
                    .concat(),
            );
        }
    }
    found
}

/// Refused texts of every kind.
pub fn refused() -> Vec<Vec<u8>> {
    let mut texts = scripts("../cli/tests/scripts");
    for text in scripts("../../examples") {
        texts.extend(shortened(&text));
        texts.push(text);
    }
    texts.extend((0..400).map(|seed| generator::text(0x9200_0000 + seed)));
    texts.retain(|text| model::check(text).0 != 0);
    texts
}
