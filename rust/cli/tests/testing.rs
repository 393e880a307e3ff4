//! `station new` and `station test`: a first script, and answers that are expected.

mod common;

use common::{folder, said};
use explain::json::{parse, Json};
use std::path::Path;

fn name(folder: &Path, file: &str) -> String {
    folder.join(file).to_str().expect("a name").to_string()
}

/// A new script is accepted and finishes; a file that is there stays as it is.
#[test]
fn new() {
    let folder = folder("new");
    let file = name(&folder, "first.script");
    let (out, error, status) = said(&["new", &file], b"");
    assert_eq!(
        out,
        format!("{file}: written; `station run {file}` runs it\n")
    );
    assert_eq!((error.as_str(), status), ("", 0));
    assert_eq!(said(&["run", &file], b"").2, 0);
    std::fs::write(&file, "mine").expect("written");
    let (out, error, status) = said(&["new", &file], b"");
    assert_eq!((out.as_str(), status), ("", 2));
    assert_eq!(
        error,
        format!("station: {file} is there already; name another file\n")
    );
    assert_eq!(std::fs::read(&file).expect("the file"), b"mine");
    let (_, error, status) = said(&["new", &name(&folder, "plain")], b"");
    assert!(
        status == 0 && error.contains("names that end in .script"),
        "{error}"
    );
    for wrong in ["no/such/folder/a.script", "", "."] {
        let (out, error, status) = said(&["new", wrong], b"");
        assert_eq!((out.as_str(), status), ("", 2), "{wrong}");
        assert!(error.starts_with("station: "), "{error}");
    }
    let (out, _, status) = said(&["new", "-"], b"");
    assert_eq!(status, 0);
    assert_eq!(said(&["run", "-"], out.as_bytes()).2, 0);
}

#[cfg(unix)]
#[test]
fn new_follows_no_link() {
    let folder = folder("new-link");
    let (file, link) = (name(&folder, "a.script"), name(&folder, "b.script"));
    std::os::unix::fs::symlink(&file, &link).expect("a link");
    assert_eq!(said(&["new", &link], b"").2, 2);
    assert!(!Path::new(&file).exists());
}

const SCRIPT: &str = "main\nvar\tint\ta\nlet\ta\t7\nassert\teq\ta\t7\nend\n";

/// What `--write` writes is as expected, until the script or the file changes.
#[test]
fn written_and_tested() {
    let folder = folder("test");
    let (script, expected) = (name(&folder, "a.script"), name(&folder, "a.expected"));
    std::fs::write(&script, SCRIPT).expect("written");
    let (out, error, status) = said(&["test", &script], b"");
    assert_eq!((out.as_str(), status), ("", 2));
    assert!(
        error.starts_with(&format!("station: {expected}: ")),
        "{error}"
    );
    assert!(error.contains("`station test --write`"), "{error}");
    let (out, _, status) = said(&["test", "--write", &script], b"");
    assert_eq!((out, status), (format!("{expected}: written\n"), 0));
    let (out, _, status) = said(&["test", "--write", &script], b"");
    assert_eq!((out, status), (format!("{expected}: not changed\n"), 0));
    let text = std::fs::read_to_string(&expected).expect("the file");
    assert_eq!(text, "check\t0\t0\nrun\t0\t5\t3\nvar\ta\t7\n");
    let (out, error, status) = said(&["test", &script], b"");
    assert_eq!(
        (out, error.as_str(), status),
        (format!("{script}: as expected\n"), "", 0)
    );
    assert_eq!(said(&["test", "--quiet", &script], b"").0, "");
    // Fewer steps give other answers.
    let (out, _, status) = said(&["test", "--steps", "1", &script], b"");
    assert_eq!(status, 1);
    let rows = "  expected: run 0 5 3\n  answered: run 21 4 1\n";
    assert_eq!(out, format!("{script}: not as expected\n{rows}"));
    std::fs::write(&script, SCRIPT.replace("eq\ta\t7", "eq\ta\t8")).expect("written");
    let (out, _, status) = said(&["test", &script], b"");
    assert_eq!(status, 1);
    let rows = "  expected: check 0 0\n  answered: check 13 4\n  expected: run 0 5 3\n  answered: run 26 4 1\n";
    assert_eq!(out, format!("{script}: not as expected\n{rows}"));
}

/// A course: a folder with scripts, of which the answers say only what matters.
#[test]
fn a_course() {
    let folder = folder("course");
    let put = |file: &str, text: &str| std::fs::write(folder.join(file), text).expect("written");
    put("one.script", SCRIPT);
    put("one.expected", "check 0 0\nvar a 7\n");
    put("two.script", "main\nlet\tb\t1\nend\n");
    put("two.expected", "check 6 2\n");
    put("three.script", "main\nlet\tb\t1\nend\n");
    put("three.expected", "check 6 2\nrun 0 3 2\nvar b 1\n");
    let name = folder.to_str().expect("a name");
    let (out, _, status) = said(&["test", name], b"");
    assert_eq!(status, 1);
    let rows = "  expected: run 0 3 2\n  answered: nothing of it\n  expected: var b 1\n  answered: nothing of it\n";
    assert_eq!(
        out,
        format!(
            "{name}/one.script: as expected\n{name}/three.script: not as expected\n{rows}\
             {name}/two.script: as expected\n2 as expected, 1 not as expected\n"
        )
    );
    let (out, _, _) = said(&["test", "--quiet", name], b"");
    assert_eq!(out, format!("{name}/three.script: not as expected\n{rows}"));
    let (out, _, _) = said(&["test", "--json", name], b"");
    let objects: Vec<Json> = out.lines().map(|line| parse(line).expect("JSON")).collect();
    let passed: Vec<_> = objects.iter().map(|object| object.get("passed")).collect();
    assert_eq!(
        passed,
        [true, false, true]
            .map(Json::Bool)
            .iter()
            .map(Some)
            .collect::<Vec<_>>()
    );
    put("two.expected", "chek 6 2\n");
    put("one.expected", "");
    let (out, error, status) = said(&["test", name], b"");
    assert_eq!(status, 2);
    assert!(
        error.contains("two.expected: line 1 is not check NUMBER LINE, "),
        "{error}"
    );
    assert!(
        error.contains("one.expected: it expects nothing"),
        "{error}"
    );
    assert!(
        out.ends_with("0 as expected, 1 not as expected, 2 failed\n"),
        "{out}"
    );
}

/// Standard input has no file beside it; bytes that are no text are told.
#[test]
fn hostile() {
    let (_, error, status) = said(&["test", "-"], SCRIPT.as_bytes());
    assert_eq!(status, 2);
    assert!(error.starts_with("station: test needs a file, "), "{error}");
    let folder = folder("test-hostile");
    let script = name(&folder, "a.script");
    std::fs::write(&script, SCRIPT).expect("written");
    std::fs::write(folder.join("a.expected"), b"check \xff").expect("written");
    assert_eq!(said(&["test", &script], b"").2, 2);
    std::fs::remove_file(folder.join("a.expected")).expect("removed");
    std::fs::create_dir(folder.join("a.expected")).expect("a folder");
    for words in [&["test", &script][..], &["test", "--write", &script]] {
        let (out, error, status) = said(words, b"");
        assert_eq!((out.as_str(), status), ("", 2), "{error}");
        assert!(error.starts_with("station: "), "{error}");
    }
    let odd = name(&folder, "b.expected");
    std::fs::write(&odd, SCRIPT).expect("written");
    assert_eq!(said(&["test", "--write", &odd], b"").2, 2);
    assert_eq!(std::fs::read(&odd).expect("the file"), SCRIPT.as_bytes());
}
