//! `station fill`: the line that it prints, the file that it writes, and what it says
//! of a text that it does not fill in.

mod common;

use common::{folder, root, said};
use explain::json::{parse, Json};
use nuyardi::limits::TEXT_BYTES;
use std::path::{Path, PathBuf};

fn example(name: &str) -> String {
    let path = root().join("examples").join(name);
    std::fs::read_to_string(path).expect("an example")
}

const LINE: &str = "requires\tacc\tthis\tprev\tacc\tthis\ttag\tacc\told\tseen";

/// A text as a file of its own.
fn written(name: &str, text: &[u8]) -> (PathBuf, String) {
    let file = folder(name).join("a.script");
    std::fs::write(&file, text).expect("written");
    let name = file.to_str().expect("a name").to_string();
    (file, name)
}

/// The file is as it was, and no other file is next to it.
fn untouched(file: &Path, text: &[u8]) {
    assert_eq!(std::fs::read(file).expect("the file"), text);
    let folder = file.parent().expect("a folder");
    assert_eq!(std::fs::read_dir(folder).expect("the folder").count(), 1);
}

#[test]
fn printed_and_written() {
    let text = example("fill.script");
    let (file, name) = written("fill", text.as_bytes());
    let line = (format!("{LINE}\n"), String::new(), 0);
    assert_eq!(said(&["fill", &name], b""), line);
    assert_eq!(said(&["fill", "-"], text.as_bytes()), line);
    untouched(&file, text.as_bytes());
    let fixed = text.replace("requires\t*", LINE);
    assert_eq!(
        said(&["fill", "--write", "-"], text.as_bytes()),
        (fixed.clone(), String::new(), 0)
    );
    assert_eq!(said(&["fill", "--write", &name], b""), line);
    untouched(&file, fixed.as_bytes());
    let (out, _, status) = said(&["run", &name], b"");
    assert_eq!(status, 0, "{out}");
    // There is nothing to fill in any more.
    let (out, error, status) = said(&["fill", "--write", &name], b"");
    assert_eq!((error.as_str(), status), ("", 1));
    assert!(out.contains(": not filled in, number 18: "), "{out}");
    untouched(&file, fixed.as_bytes());
}

/// What is refused is told with its cause, and no file is written.
#[test]
fn not_filled_in() {
    let two = example("refused-18.script");
    let other = "main\nend\n";
    let elsewhere = example("refused-17.script").replace("main\n", "main\nassert\teq\t1\t2\n");
    let refused = example("fill.script").replace("let\tone\t1", "let\ton\t1");
    let unplaced = "main\nrequires\t*\nend\n";
    let no_field = "class\tS\nmethod\tint\tm\tint\tk\nrequires\t*\nensures\neq\tk\t1\nend\n";
    let no_field = no_field.replace("ensures\neq", "ensures\teq") + other;
    let long = "\n".repeat(TEXT_BYTES + 1);
    for (text, parts) in [
        (
            &two[..],
            &[":9: not filled in, number 18: ", "the first is line 4"][..],
        ),
        (
            other,
            &[
                ": not filled in, number 18: ",
                "no method has a line `requires *`",
            ],
        ),
        (
            &elsewhere,
            &[
                ":4: not filled in, number 17: ",
                "2 sets of at most 4 permissions to 1 field",
                "`eq k 7`",
            ],
        ),
        (
            &no_field,
            &[
                ":3: not filled in, number 17: ",
                "neither `this` nor the parameter has a field",
            ],
        ),
        (
            &refused,
            &[":10: refused, number 6: ", "did you mean `one`?"],
        ),
        (unplaced, &[":2: refused, number 4: ", "2 | requires *"]),
        (
            &long,
            &[
                ": refused, number 2: the text has more than 32768 bytes",
                "32768 are the most",
            ],
        ),
    ] {
        let (file, name) = written("not-filled", text.as_bytes());
        for words in [&["fill", &name][..], &["fill", "--write", &name]] {
            let (out, error, status) = said(words, b"");
            assert_eq!((error.as_str(), status), ("", 1), "{out}");
            let one = out.split_whitespace().collect::<Vec<_>>().join(" ");
            for part in parts {
                let part = part.split_whitespace().collect::<Vec<_>>().join(" ");
                assert!(one.contains(&part), "{part} in {out}");
            }
            untouched(&file, text.as_bytes());
        }
    }
}

/// The example with so many bytes in all: a method before it that is never called.
fn of_size(size: usize) -> String {
    let text = example("fill.script");
    let (class, rest) = text.split_at(text.find("method").expect("a method"));
    let head = "method\tint\tm\tint\tk\nrequires\nensures\n";
    let line = format!("assert{}\n", "\tne\t1000000000\t2".repeat(8));
    let room = size - text.len() - head.len() - "end\n".len();
    let (mut lines, mut left) = (
        line.repeat(room / line.len() - 1),
        room % line.len() + line.len(),
    );
    // The rest by a line or two with shorter numbers.
    while left > 0 {
        let now = if left > line.len() { left / 2 } else { left };
        lines.push_str(&shorter(&line, line.len() - now));
        left -= now;
    }
    format!("{class}{head}{lines}end\n{rest}")
}

/// The line with so many digits fewer.
fn shorter(line: &str, fewer: usize) -> String {
    let mut left = fewer;
    let fields = line.split('\t').map(|field| {
        let cut = left.min(field.len().saturating_sub(1) * usize::from(field.starts_with('1')));
        left -= cut;
        &field[..field.len() - cut]
    });
    let line = fields.collect::<Vec<_>>().join("\t");
    assert_eq!(left, 0, "{fewer}");
    line
}

/// A text that gets too long by what is filled in: the line is given, and nothing is
/// written.
#[test]
fn too_long_when_filled_in() {
    let more = LINE.len() - "requires\t*".len();
    for (size, fits) in [
        (TEXT_BYTES - more, true),
        (TEXT_BYTES - more + 1, false),
        (TEXT_BYTES, false),
    ] {
        let text = of_size(size);
        assert_eq!(text.len(), size);
        let (file, name) = written("long", text.as_bytes());
        let (out, error, status) = said(&["fill", &name], b"");
        assert_eq!((out, status), (format!("{LINE}\n"), 0));
        assert_eq!(
            error.contains("32,768 are the most: check refuses it with number 2"),
            !fits
        );
        let (out, error, status) = said(&["fill", "--write", &name], b"");
        assert_eq!((error.as_str(), status), ("", i32::from(!fits)), "{out}");
        match fits {
            true => assert!(nuyardi::check(&std::fs::read(&file).expect("the file")).is_ok()),
            false => {
                assert!(
                    out.contains(": refused, number 2: the text has ")
                        && out.contains(" bytes, and 32768 are the most"),
                    "{out}"
                );
                untouched(&file, text.as_bytes());
            }
        }
        let (out, _, _) = said(&["fill", "--write", "--json", "-"], text.as_bytes());
        let number = parse(&out).and_then(|object| object.get("number")?.int());
        assert_eq!(number, Some(if fits { 0 } else { 2 }), "{out}");
    }
}

#[test]
fn as_json() {
    let object = |words: &[&str], text: &[u8]| -> Json {
        let (out, _, _) = said(words, text);
        assert_eq!(out.lines().count(), 1, "one object a file: {out}");
        parse(&out).unwrap_or_else(|| panic!("no JSON: {out}"))
    };
    let text = example("fill.script");
    let filled = object(&["fill", "--json", "examples/fill.script"], b"");
    assert_eq!(filled.get("call"), Some(&Json::Text("fill".into())));
    assert_eq!(filled.get("filled"), Some(&Json::Bool(true)));
    for (name, number) in [("number", 0), ("line", 0), ("star", 6)] {
        assert_eq!(filled.get(name), Some(&Json::Int(number)), "{name}");
    }
    let places = [1, 2, 6].map(Json::Int).to_vec();
    assert_eq!(filled.get("places"), Some(&Json::List(places)));
    assert_eq!(filled.get("requires"), Some(&Json::Text(LINE.into())));
    let fixed = text.replace("requires\t*", LINE);
    assert_eq!(filled.get("output"), Some(&Json::Text(fixed.clone())));
    let (file, name) = written("fill-json", text.as_bytes());
    let written = object(&["fill", "--json", "--write", &name], b"");
    assert_eq!(written.get("requires"), Some(&Json::Text(LINE.into())));
    assert_eq!(written.get("output"), None);
    untouched(&file, fixed.as_bytes());
    let none = object(
        &["fill", "--json", "-"],
        example("refused-18.script").as_bytes(),
    );
    assert_eq!(none.get("filled"), Some(&Json::Bool(false)));
    assert_eq!(none.get("number"), Some(&Json::Int(18)));
    assert_eq!(none.get("line"), Some(&Json::Int(9)));
    assert_eq!(none.get("text"), Some(&Json::Text("requires\\t*".into())));
    assert_eq!(none.get("requires"), None);
}

/// Texts with stars of every kind: the answers are the model's, the text that is
/// written is accepted, and each other has a cause.
#[test]
fn random_texts() {
    let mut seen = [0; 20];
    for text in (0..150).map(|seed| generator::starred(0x7100_0000 + seed)) {
        let (out, error, status) = said(&["fill", "--json", "-"], &text);
        let object = parse(&out).unwrap_or_else(|| panic!("no JSON: {out}"));
        let found = model::fill(&text);
        let int = |name: &str| object.get(name).and_then(Json::int);
        assert_eq!(int("number"), Some(found.number.into()));
        assert_eq!(int("line"), Some(found.line.into()));
        assert_eq!(status, i32::from(found.number != 0));
        assert_eq!(object.get("cause").is_none(), found.number == 0, "{out}");
        if let Some(output) = object.get("output").and_then(Json::text) {
            assert!(nuyardi::check(output.as_bytes()).is_ok() || error.contains("number 2"));
        }
        seen[found.number as usize] += 1;
    }
    assert!(seen[0] > 20 && seen[17] > 10 && seen[18] > 2, "{seen:?}");
}

/// Everywhere else the star is number 4, with a word on fill.
#[test]
fn elsewhere() {
    let (out, _, status) = said(&["check", "examples/fill.script"], b"");
    assert_eq!(status, 1);
    for part in [
        ":6: refused, number 4: ",
        "`station fill FILE` finds",
        "fix: fill in line 6: ",
    ] {
        assert!(out.contains(part), "{part} in {out}");
    }
    for command in ["run", "trial", "bound", "trace"] {
        let (out, _, status) = said(&[command, "examples/fill.script"], b"");
        assert!(
            out.contains(":6: refused, number 4: ") && status == 1,
            "{out}"
        );
    }
    let (fixed, _, status) = said(&["fix", "examples/fill.script"], b"");
    assert_eq!(fixed, example("fill.script").replace("requires\t*", LINE));
    assert_eq!(status, 0);
    let (out, _, _) = said(&["explain", "4"], b"");
    assert!(out.contains("`station fill --write FILE`"), "{out}");
}
