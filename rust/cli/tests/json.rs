//! What `--json` prints: JSON, one object a file, with the fields that the guide
//! lists.

mod common;

use common::said;
use explain::json::{parse, Json};

fn object(words: &[&str], input: &[u8]) -> Json {
    let (out, _, _) = said(words, input);
    assert_eq!(out.lines().count(), 1, "one object a file: {out}");
    parse(&out).unwrap_or_else(|| panic!("no JSON: {out}"))
}

fn text(text: &str) -> Json {
    Json::Text(text.to_string())
}

#[test]
fn check() {
    let accepted = object(&["check", "--json", "examples/tag.script"], b"");
    assert_eq!(accepted.get("file"), Some(&text("examples/tag.script")));
    assert_eq!(accepted.get("call"), Some(&text("check")));
    assert_eq!(accepted.get("accepted"), Some(&Json::Bool(true)));
    assert_eq!(accepted.get("number"), Some(&Json::Int(0)));
    let refused = object(&["check", "--json", "examples/refused-12.script"], b"");
    assert_eq!(refused.get("accepted"), Some(&Json::Bool(false)));
    assert_eq!(refused.get("number"), Some(&Json::Int(12)));
    assert_eq!(refused.get("line"), Some(&Json::Int(6)));
    assert_eq!(refused.get("column"), Some(&Json::Int(5)));
    assert_eq!(refused.get("end"), Some(&Json::Int(11)));
    assert_eq!(refused.get("text"), Some(&text("set\\tthis\\tn\\tk")));
    let known = nuyardi::explain(12).expect("12 is explained");
    for (name, said) in [
        ("title", known.title),
        ("meaning", known.meaning),
        ("advice", known.advice),
    ] {
        assert_eq!(refused.get(name), Some(&text(said)));
    }
    let cause = refused.get("cause").and_then(Json::text).expect("a cause");
    assert!(cause.contains("`acc this n`"), "{cause}");
    let noted = object(&["check", "--json", "examples/refused-03.script"], b"");
    assert!(matches!(noted.get("note"), Some(Json::Text(_))));
}

/// Which build the command is: what a report says of it, and the sum of the library
/// that is linked.
#[test]
fn version() {
    let told = object(&["--version", "--json"], b"");
    for words in [["version", "--json"], ["-V", "--json"]] {
        assert_eq!(object(&words, b""), told);
    }
    let report = object(&["report", "--json", "examples/tag.script"], b"");
    for (name, value) in [
        ("version", env!("CARGO_PKG_VERSION")),
        ("library", env!("LIBRARY_SHA256")),
        ("logic", env!("LOGIC_SUM")),
    ] {
        assert_eq!(told.get(name), Some(&text(value)), "{name}");
    }
    for name in ["version", "level", "library", "logic"] {
        assert!(told.get(name).is_some(), "{name}");
        assert_eq!(told.get(name), report.get(name), "{name}");
    }
    let Json::Object(fields) = &told else {
        panic!("no object: {told:?}");
    };
    assert_eq!(fields.len(), 4, "{told:?}");
    let (plain, _, status) = said(&["--version"], b"");
    let version = env!("CARGO_PKG_VERSION");
    assert_eq!((plain, status), (format!("station {version}\n"), 0));
}

#[test]
fn run() {
    let run = object(
        &["run", "--json", "--steps", "4", "examples/tag.script"],
        b"",
    );
    assert_eq!(run.get("call"), Some(&text("run")));
    assert_eq!(run.get("finished"), Some(&Json::Bool(false)));
    assert_eq!(run.get("number"), Some(&Json::Int(21)));
    assert_eq!(run.get("allowed"), Some(&Json::Int(4)));
    assert_eq!(run.get("steps"), Some(&Json::Int(4)));
    assert_eq!(run.at(&["check", "accepted"]), Some(&Json::Bool(true)));
    let Some(Json::List(variables)) = run.get("variables") else {
        panic!("no variables: {run:?}");
    };
    let expected = [
        ("c", "Card", Json::Int(1)),
        ("k", "int", Json::Int(7)),
        ("r", "int", Json::Int(0)),
    ];
    assert_eq!(variables.len(), expected.len());
    for (variable, (name, kind, value)) in variables.iter().zip(expected) {
        assert_eq!(variable.get("name"), Some(&text(name)));
        assert_eq!(variable.get("type"), Some(&text(kind)));
        assert_eq!(variable.get("value"), Some(&value));
    }
    let null = object(&["trial", "--json", "examples/stopped-25.script"], b"");
    assert_eq!(null.get("call"), Some(&text("trial")));
    assert_eq!(null.get("number"), Some(&Json::Int(25)));
    let Some(Json::List(variables)) = null.get("variables") else {
        panic!("no variables: {null:?}");
    };
    assert_eq!(variables[0].get("value"), Some(&Json::Null));
    assert_eq!(null.at(&["check", "number"]), Some(&Json::Int(11)));
}

/// A run of a text that check refuses has check's number and line, and no steps.
#[test]
fn run_of_a_refused_text() {
    for command in ["run", "trace", "draw"] {
        let refused = object(&[command, "--json", "examples/stopped-25.script"], b"");
        assert_eq!(refused.get("call"), Some(&text("run")));
        for (name, value) in [
            ("number", 11),
            ("line", 6),
            ("steps", 0),
            ("allowed", 1_000),
        ] {
            assert_eq!(refused.get(name), Some(&Json::Int(value)), "{name}");
        }
        for name in ["variables", "open"] {
            assert_eq!(refused.get(name), Some(&Json::List(Vec::new())), "{name}");
        }
        assert_eq!(refused.get("finished"), Some(&Json::Bool(false)));
        assert_eq!(refused.at(&["check", "number"]), Some(&Json::Int(11)));
        assert_eq!(refused.get("cause"), refused.at(&["check", "cause"]));
    }
}

#[test]
fn bound() {
    let bound = object(&["bound", "--json", "--why", "examples/worked.txt"], b"");
    assert_eq!(bound.get("call"), Some(&text("bound")));
    assert_eq!(bound.get("accepted"), Some(&Json::Bool(true)));
    assert_eq!(bound.get("bound"), Some(&Json::Int(9)));
    assert_eq!(bound.get("frames"), Some(&Json::Int(2)));
    let Some(Json::List(route)) = bound.get("route") else {
        panic!("no route: {bound:?}");
    };
    let call = Json::object()
        .with("line", 16u32)
        .with("text", "call\\tb\\ts\\ttag\\ta")
        .with("adds", 3u32)
        .with("own", 3u32)
        .with("calls", 0u32);
    assert_eq!((route.len(), &route[1]), (2, &call));
    let none = object(&["bound", "--json", "examples/refused-15.script"], b"");
    assert_eq!(none.get("accepted"), Some(&Json::Bool(true)));
    assert_eq!(none.get("number"), Some(&Json::Int(15)));
    assert_eq!(none.get("line"), Some(&Json::Int(5)));
    assert_eq!(none.get("bound"), None);
    assert_eq!(none.get("text"), Some(&text("loop\\tne\\tn\\t3")));
    let refused = object(&["bound", "--json", "examples/refused-12.script"], b"");
    assert_eq!(refused.get("accepted"), Some(&Json::Bool(false)));
    assert_eq!(refused.get("number"), Some(&Json::Int(12)));
}

#[test]
fn looking_inside() {
    let known = object(&["known", "--json", "examples/tag.script:16"], b"");
    let Some(Json::List(lines)) = known.get("lines") else {
        panic!("no lines: {known:?}");
    };
    assert_eq!(
        lines[0].get("added"),
        Some(&Json::List(vec![text("eq c.tag k")]))
    );
    assert_eq!(
        lines[0].get("dropped"),
        Some(&Json::List(vec![text("eq c.tag 0")]))
    );
    assert_eq!(known.get("accepted"), Some(&Json::Bool(true)));
    let known = object(&["known", "--json", "examples/kept.script:13"], b"");
    let Some(Json::List(lines)) = known.get("lines") else {
        panic!("no lines: {known:?}");
    };
    let turned = Json::object()
        .with("from", "eq s.tag b")
        .with("to", "eq a b");
    assert_eq!(lines[0].get("turned"), Some(&Json::List(vec![turned])));
    let trace = object(&["trace", "--json", "--cards", "examples/tag.script"], b"");
    assert!(matches!(trace.get("trace"), Some(Json::List(rows)) if rows.len() == 7));
    let Some(Json::List(cards)) = trace.get("cards") else {
        panic!("no cards: {trace:?}");
    };
    assert_eq!(cards[0].get("class"), Some(&text("Card")));
    let drawn = object(&["draw", "--json", "examples/tag.script"], b"");
    let picture = drawn
        .get("picture")
        .and_then(Json::text)
        .expect("a picture");
    assert!(picture.starts_with("<svg ") && picture.ends_with("</svg>\n"));
    let form = object(&["fmt", "--json", "-"], b"main \nend\n");
    assert_eq!(form.get("changed"), Some(&Json::Bool(true)));
    assert_eq!(form.get("output"), Some(&text("main\nend\n")));
}

/// Every input gives one JSON object, whatever its bytes, also where a file
/// can't be read.
#[test]
fn anything() {
    let unread = object(&["check", "--json", "no-such-file"], b"");
    assert!(matches!(unread.get("error"), Some(Json::Text(_))));
    let every_byte: Vec<u8> = (0..=255).collect();
    for input in [
        &every_byte[..],
        b"",
        b"\n",
        b"main",
        b"main\nend\nend\n",
        b"\"\\\n",
    ] {
        let commands = [
            "check", "run", "trial", "bound", "trace", "known", "draw", "fill", "count",
        ];
        for command in commands {
            let object = object(&[command, "--json", "-"], input);
            assert!(
                matches!(object.get("number"), Some(Json::Int(_))),
                "{command}"
            );
        }
    }
    for known in nuyardi::EXPLANATIONS {
        let number = known.number.to_string();
        let shown = object(&["explain", "--json", &number], b"");
        assert_eq!(shown.get("advice"), Some(&text(known.advice)));
    }
}
