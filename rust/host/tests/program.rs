//! The proved programs print, to the byte, what the model says: `script`, that of
//! document 01, and `small`, that of W14.
//!
//! They are crates/script/out/script and crates/small/out/small; `rt run` proves and makes
//! them, or finds them unchanged. The environment variables STATION_SCRIPT and STATION_SMALL
//! name other files instead.

#[path = "support/cases.rs"]
mod cases;

use std::io::Write;
use std::path::{Path, PathBuf};
use std::process::{Command, Stdio};
use std::sync::OnceLock;

fn root() -> PathBuf {
    Path::new(env!("CARGO_MANIFEST_DIR")).join("../..")
}

/// A program by its name, or the file that a variable names.
fn made(name: &str, variable: &str) -> PathBuf {
    if let Some(named) = std::env::var_os(variable) {
        return named.into();
    }
    let folder = root().join("crates").join(name);
    // It runs the program too, on an empty text.
    let made = Command::new("rt")
        .arg("run")
        .current_dir(&folder)
        .stdin(Stdio::null())
        .output()
        .expect("rt starts");
    let said = String::from_utf8_lossy(&made.stderr);
    assert!(made.status.success(), "rt run in crates/{name}: {said}");
    folder.join("out").join(name)
}

/// The program of document 01, made once however many tests ask for it.
fn program() -> &'static Path {
    static PROGRAM: OnceLock<PathBuf> = OnceLock::new();
    PROGRAM.get_or_init(|| made("script", "STATION_SCRIPT"))
}

fn printed(program: &Path, text: &[u8]) -> Vec<u8> {
    let mut child = Command::new(program)
        .stdin(Stdio::piped())
        .stdout(Stdio::piped())
        .spawn()
        .expect("the program starts");
    // A text that is too long is not read to its end.
    let _ = child
        .stdin
        .take()
        .expect("its standard input")
        .write_all(text);
    let output = child.wait_with_output().expect("the program ends");
    assert!(output.status.success());
    output.stdout
}

/// The worked script of document 01, with one line changed or none.
fn worked(line: usize, new: &str) -> Vec<u8> {
    let text = std::fs::read_to_string(root().join("examples/worked.txt")).expect("the script");
    let new = new.replace(' ', "\t");
    let lines = text.lines().enumerate();
    let lines = lines.map(|(at, old)| if at + 1 == line { &new[..] } else { old });
    lines
        .map(|line| format!("{line}\n"))
        .collect::<String>()
        .into_bytes()
}

#[test]
fn examples_of_the_document() {
    let program = program();
    let news = |end: &str| {
        format!(
            "class\tE\nmain\nvar\tE\te\n{}{end}",
            "new\te\tE\n".repeat(256)
        )
    };
    let examples: [(Vec<u8>, &str); 9] = [
        (
            worked(0, ""),
            "check 0 0\nrun 0 19 8\nvar s 1\nvar a 7\nvar b 7\n",
        ),
        (
            worked(5, "requires"),
            "check 12 7\nrun 24 7 3\nvar s 1\nvar a 7\nvar b 0\n",
        ),
        (
            worked(17, "assert eq s.n 8"),
            "check 13 17\nrun 26 17 5\nvar s 1\nvar a 7\nvar b 7\n",
        ),
        (
            worked(18, "release acc s n acc s n"),
            "check 12 18\nrun 24 18 6\nvar s 1\nvar a 7\nvar b 7\n",
        ),
        (worked(16, "call a s tag a"), "check 9 16\n"),
        (Vec::new(), "check 8 0\n"),
        (worked(15, "let a 2147483648"), "check 4 15\n"),
        (news("").into_bytes(), "check 8 259\n"),
        (news("end\n").into_bytes(), "check 5 260\n"),
    ];
    for (text, expected) in examples {
        let expected = expected.replace(' ', "\t");
        let shown = String::from_utf8_lossy(&text).into_owned();
        assert_eq!(printed(program, &text), expected.as_bytes(), "{shown}");
        assert_eq!(model::printed(&text), expected.as_bytes(), "{shown}");
    }
}

/// Every case of the program in the model's files.
#[test]
fn every_case() {
    let program = program();
    let mut count = 0;
    for file in cases::files() {
        for case in file.cases() {
            let Some(text) = case.of_program() else {
                continue;
            };
            count += 1;
            let shown = text.escape_ascii();
            assert_eq!(printed(program, text), model::printed(text), "{shown}");
        }
    }
    println!("{count} cases");
    assert!(count > 0, "no file has a case of the program");
}

#[test]
fn generated_texts() {
    let program = program();
    let files = std::fs::read_dir(root().join("examples")).expect("examples");
    let files = files.map(|entry| std::fs::read(entry.expect("an entry").path()).expect("a text"));
    let generated = (2_000_000..2_001_500).map(generator::text);
    for text in files.chain(generated) {
        let shown = text.escape_ascii();
        assert_eq!(printed(program, &text), model::printed(&text), "{shown}");
    }
}

/// W14: the list of small scripts, whatever stands on standard input.
#[test]
fn small_scripts() {
    let program = made("small", "STATION_SMALL");
    let list = model::small();
    assert_eq!(list.lines().count(), 39);
    for input in [&b""[..], b"main\nend\n"] {
        let shown = String::from_utf8(printed(&program, input)).expect("ASCII");
        assert_eq!(shown, list);
    }
}
