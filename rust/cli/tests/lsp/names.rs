//! The outline, references, renaming and what a hover says of a name.

use crate::client::{place, Client, URI};
use crate::example;
use explain::json::Json;

/// The places that are named: line, first column, end.
fn places(found: &Json) -> Vec<(i64, i64, i64)> {
    let Json::List(found) = found else {
        panic!("no list: {found}");
    };
    let one = |found: &Json| {
        let number = |names: &[&str]| found.at(names).and_then(Json::int).expect("a number");
        (
            number(&["range", "start", "line"]),
            number(&["range", "start", "character"]),
            number(&["range", "end", "character"]),
        )
    };
    found.iter().map(one).collect()
}

/// A symbol as text: its name, kind and lines, those in it after it.
fn symbol(found: &Json) -> String {
    let number = |names: &[&str]| found.at(names).and_then(Json::int).expect("a number");
    let text = |name: &str| found.get(name).and_then(Json::text).expect("a text");
    let Some(Json::List(inner)) = found.get("children") else {
        panic!("no children: {found}");
    };
    let inner: Vec<String> = inner.iter().map(symbol).collect();
    format!(
        "{} {} ({}) {}-{} [{}]",
        number(&["kind"]),
        text("name"),
        text("detail"),
        number(&["range", "start", "line"]),
        number(&["range", "end", "line"]),
        inner.join(", ")
    )
}

fn about_the_document() -> Json {
    Json::object().with("textDocument", Json::object().with("uri", URI))
}

#[test]
fn outline() {
    let mut client = Client::start();
    client.open(&example("tag.script"));
    let found = client.ask("textDocument/documentSymbol", about_the_document());
    let Json::List(found) = found else {
        panic!("no list");
    };
    let found: Vec<String> = found.iter().map(symbol).collect();
    assert_eq!(
        found,
        [
            "5 Card () 0-8 [8 prev (Card) 1-1 [], 8 tag (int) 2-2 [], \
             6 mark (int int k) 3-8 [13 k (int) 3-3 []]]",
            "12 main () 9-17 [13 c (Card) 10-10 [], 13 k (int) 11-11 [], 13 r (int) 12-12 []]",
        ]
    );
    // A text that is not finished has an outline too.
    client.change("class\tA\nfield\tint\tn\nmethod\tint\tm\nmethod\tint\tp\tint\tk\nmain\nlet\n");
    let found = client.ask("textDocument/documentSymbol", about_the_document());
    let Json::List(found) = found else {
        panic!("no list");
    };
    let found: Vec<String> = found.iter().map(symbol).collect();
    assert_eq!(
        found,
        [
            "5 A () 0-3 [8 n (int) 1-1 [], 6 p (int int k) 3-3 [13 k (int) 3-3 []]]",
            "12 main () 4-5 []",
        ]
    );
    client.end();
}

/// A client that does not take symbols in each other gets a list.
#[test]
fn outline_as_a_list() {
    let mut client = Client::start_with(Json::object());
    client.open(&example("tag.script"));
    let found = client.ask("textDocument/documentSymbol", about_the_document());
    let Json::List(found) = found else {
        panic!("no list");
    };
    let shown = |found: &Json| {
        let text = |name: &str| {
            found
                .get(name)
                .and_then(Json::text)
                .unwrap_or("")
                .to_string()
        };
        let line = found.at(&["location", "range", "start", "line"]);
        (
            text("name"),
            text("containerName"),
            line.and_then(Json::int),
        )
    };
    assert_eq!(found.len(), 9);
    let of = |name: &str, within: &str, line| (name.to_string(), within.to_string(), Some(line));
    assert_eq!(shown(&found[0]), of("Card", "", 0));
    assert_eq!(shown(&found[3]), of("mark", "Card", 3));
    assert_eq!(shown(&found[4]), of("k", "mark", 3));
    assert_eq!(shown(&found[8]), of("r", "main", 12));
    client.end();
}

#[test]
fn references() {
    let mut client = Client::start();
    client.open(&example("tag.script"));
    let mut asked = |line, column, declared: bool| {
        let context = Json::object().with("includeDeclaration", declared);
        let params = place(line, column).with("context", context);
        places(&client.ask("textDocument/references", params))
    };
    // The field `tag`, from its use in a path.
    let tag = [
        (2, 10, 13),
        (4, 18, 21),
        (5, 17, 20),
        (5, 29, 32),
        (6, 9, 12),
        (16, 12, 15),
    ];
    assert_eq!(asked(16, 13, true), tag);
    assert_eq!(asked(2, 10, false), tag[1..]);
    // The method's `k` is not main's.
    assert_eq!(
        asked(3, 20, true),
        [(3, 20, 21), (5, 33, 34), (6, 13, 14), (7, 7, 8)]
    );
    assert_eq!(asked(11, 8, true), [(11, 8, 9), (14, 4, 5), (15, 14, 15)]);
    // A class, and a method.
    assert_eq!(
        asked(0, 6, true),
        [(0, 6, 10), (1, 6, 10), (10, 4, 8), (13, 6, 10)]
    );
    assert_eq!(asked(15, 10, true), [(3, 11, 15), (15, 9, 13)]);
    client.end();
}

#[test]
fn rename() {
    let mut client = Client::start();
    client.open(&example("tag.script"));
    let found = client.at("textDocument/prepareRename", 15, 10);
    assert_eq!(found.get("placeholder").and_then(Json::text), Some("mark"));
    let params = place(15, 10).with("newName", "label");
    let edit = client.ask("textDocument/rename", params);
    let edits = edit.at(&["changes", URI]).expect("edits");
    assert_eq!(places(edits), [(3, 11, 15), (15, 9, 13)]);
    for (params, code, why) in [
        (
            place(15, 10).with("newName", "this"),
            -32_803,
            "`this` is reserved",
        ),
        (place(15, 10), -32_602, "no newName"),
        (
            place(15, 0).with("newName", "a"),
            -32_803,
            "there is no name here",
        ),
    ] {
        let reply = client.reply("textDocument/rename", params);
        let error = reply.get("error").expect("an error");
        assert_eq!(error.get("code").and_then(Json::int), Some(code));
        assert_eq!(error.get("message").and_then(Json::text), Some(why));
    }
    client.end();
}

#[test]
fn hover_of_names() {
    let mut client = Client::start();
    client.open(&example("tag.script"));
    let mut shown = |line, column| {
        let hover = client.at("textDocument/hover", line, column);
        let shown = hover.at(&["contents", "value"]).and_then(Json::text);
        shown.expect("a hover").to_string()
    };
    let method = "```station\nmethod int mark int k\nrequires acc this tag\n\
                  ensures acc this tag eq this.tag k\n```\nmethod of class Card, line 4";
    assert!(shown(15, 9).starts_with(method), "{}", shown(15, 9));
    assert!(shown(3, 12).starts_with(method));
    for (line, column, starts) in [
        (15, 5, "```station\nint r\n```\na variable, line 13\n"),
        (6, 4, "```station\nCard this\n```\nthe card that the method is called on, line 4\n"),
        (6, 13, "```station\nint k\n```\nthe parameter, line 4\n"),
        (16, 13, "```station\nfield int tag\n```\nfield of class Card, line 3\n"),
        (
            13,
            7,
            "```station\nclass Card\nfield Card prev\nfield int tag\nmethod int mark int k\n```\nline 1\n",
        ),
    ] {
        let shown = shown(line, column);
        assert!(shown.starts_with(starts), "{shown}");
        assert!(shown.contains("\n---\n"), "{shown}");
    }
    client.end();
}
