//! `station check --warn`: what it prints, that the status stays, and what an editor is
//! told. That no warning is false is tested with the crate `explain`.

mod common;

use common::{command, said};
use explain::json::{parse, Json};
use std::io::Write;

const FOLLOW: &str = "examples/follow.script";
const UNKEPT: &str = "examples/unkept.script";

/// The answer, then a warning with its line.
#[test]
fn after_the_answer() {
    let (out, error, status) = said(&["check", "--warn", FOLLOW], b"");
    let said_of_it = "follow.script:5: warning: `grow` of class Card never uses `acc this tag`";
    assert!(
        out.starts_with("examples/follow.script: accepted\n"),
        "{out}"
    );
    assert!(out.contains(said_of_it), "{out}");
    assert!(
        out.contains("\n5 | requires acc this tag\n  |          ^^^^^^^^^^^^\n"),
        "{out}"
    );
    assert_eq!((error.as_str(), status), ("", 0));
    let (plain, _, _) = said(&["check", FOLLOW], b"");
    assert_eq!(plain, "examples/follow.script: accepted\n");
}

/// Warnings stand beside refusals, and change neither them nor the status.
#[test]
fn beside_refusals() {
    let (plain, _, refused) = said(&["check", UNKEPT], b"");
    let (warned, _, status) = said(&["check", "--warn", UNKEPT], b"");
    assert_eq!((refused, status), (1, 1));
    let warning = warned
        .strip_prefix(&plain)
        .expect("the refusal comes first");
    assert!(warning.starts_with("examples/unkept.script:5: warning: the variable `c` is never"));
}

#[test]
fn short_and_quiet() {
    let (out, _, status) = said(&["check", "--warn", "--short", FOLLOW, UNKEPT], b"");
    let rows: Vec<&str> = out.lines().collect();
    assert_eq!((rows.len(), status), (3, 1), "{out}");
    assert!(
        rows[0].starts_with("examples/follow.script:5:10: warning: "),
        "{out}"
    );
    assert!(
        rows[1].starts_with("examples/unkept.script:13:1: number 12: "),
        "{out}"
    );
    assert!(
        rows[2].starts_with("examples/unkept.script:5:10: warning: "),
        "{out}"
    );
    let (out, _, _) = said(
        &["check", "--warn", "-q", FOLLOW, "examples/tag.script"],
        b"",
    );
    assert!(
        out.starts_with("examples/follow.script:5: warning: "),
        "{out}"
    );
    assert!(!out.contains("accepted\n"), "{out}");
}

#[test]
fn as_json() {
    let object = |words: &[&str]| parse(&said(words, b"").0).expect("JSON");
    let found = object(&["check", "--warn", "--json", FOLLOW]);
    let Some(Json::List(warnings)) = found.get("warnings") else {
        panic!("{found}");
    };
    let [warning] = &warnings[..] else {
        panic!("{found}");
    };
    assert_eq!(
        warning.get("kind").and_then(Json::text),
        Some("unused-permission")
    );
    for (name, value) in [("line", 5), ("last", 5), ("column", 10), ("end", 22)] {
        assert_eq!(warning.get(name), Some(&Json::Int(value)), "{name}");
    }
    assert_eq!(found.get("refusals"), Some(&Json::List(Vec::new())));
    let tag = object(&["check", "--warn", "--json", "examples/tag.script"]);
    assert_eq!(tag.get("warnings"), Some(&Json::List(Vec::new())));
    let plain = object(&["check", "--json", FOLLOW]);
    assert_eq!(plain.get("warnings"), None);
}

/// Only check takes the option.
#[test]
fn elsewhere() {
    assert_eq!(said(&["run", "--warn", FOLLOW], b"").2, 2);
}

/// An editor gets them as diagnostics of severity 2, after the refusals.
#[test]
fn in_the_editor() {
    let text = std::fs::read_to_string(common::root().join(UNKEPT)).expect("a script");
    let document = Json::object().with("uri", "file:///a").with("text", text);
    let message = || Json::object().with("jsonrpc", "2.0");
    let capable = Json::object().with("capabilities", Json::object());
    let asked = message()
        .with("id", 1u32)
        .with("method", "initialize")
        .with("params", capable);
    let opened = message()
        .with("method", "textDocument/didOpen")
        .with("params", Json::object().with("textDocument", document));
    let mut child = command(&["lsp"]).spawn().expect("station starts");
    let mut input = child.stdin.take().expect("its input");
    for message in [asked, opened] {
        let body = message.to_string();
        write!(input, "Content-Length: {}\r\n\r\n{body}", body.len()).expect("sent");
    }
    drop(input);
    let output = child.wait_with_output().expect("station ends").stdout;
    let output = String::from_utf8(output).expect("UTF-8");
    // The reply, then the diagnostics, each after its header.
    let body = output.split("\r\n\r\n").nth(2).expect("two messages");
    let told = parse(body).expect("JSON");
    let Some(Json::List(found)) = told.at(&["params", "diagnostics"]) else {
        panic!("{told}");
    };
    let severities: Vec<_> = found.iter().map(|one| one.get("severity")).collect();
    assert_eq!(severities, [Some(&Json::Int(1)), Some(&Json::Int(2))]);
    let code = found[1].get("code").and_then(Json::text);
    assert_eq!(code, Some("unused-variable"));
    let line = found[1].at(&["range", "start", "line"]);
    assert_eq!(line, Some(&Json::Int(4)));
}
