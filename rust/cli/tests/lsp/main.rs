//! A client that speaks the language server protocol with `station lsp`.

mod client;
#[path = "../common/mod.rs"]
mod common;
mod hostile;
mod names;

use client::{Client, URI};
use explain::json::Json;

fn example(name: &str) -> String {
    let path = common::root().join("examples").join(name);
    std::fs::read_to_string(path).expect("an example")
}

#[test]
fn diagnostics_as_one_types() {
    let mut client = Client::start();
    let found = client.open(&example("refused-12.script"));
    let codes = |found: &[Json]| -> Vec<Option<Json>> {
        found.iter().map(|one| one.get("code").cloned()).collect()
    };
    // Its method is called by no line, which is a warning.
    let unused = Some(Json::Text("unused-method".to_string()));
    assert_eq!(codes(&found), [Some(Json::Int(12)), unused.clone()]);
    assert_eq!(
        found[0].at(&["range", "start", "line"]),
        Some(&Json::Int(5))
    );
    assert_eq!(
        found[0].at(&["range", "start", "character"]),
        Some(&Json::Int(4))
    );
    assert_eq!(
        found[0].at(&["range", "end", "character"]),
        Some(&Json::Int(10))
    );
    let message = found[0]
        .get("message")
        .and_then(Json::text)
        .expect("a message");
    assert!(
        message.contains("`acc this n`") && message.contains("fix: "),
        "{message}"
    );
    let fixed = example("refused-12.script").replace("requires", "requires\tacc\tthis\tn");
    assert_eq!(codes(&client.change(&fixed)), [unused]);
    // Columns are units of UTF-16: the sign takes two.
    let found = client.change("main\n\u{1f600} \nend\n");
    assert_eq!(
        found[0].at(&["range", "end", "character"]),
        Some(&Json::Int(2))
    );
    client.end();
}

/// Markdown where the client shows it or does not say, else plain text.
#[test]
fn hover_as_the_client_shows_it() {
    let markdown =
        "```station\nCard c\n```\na variable, line 11\n\n---\n\n`new x C`\n\n```\n  before: ";
    let plain = "Card c\na variable, line 11\n\nnew x C\n\n  before: ";
    for (formats, kind, start) in [
        (&[][..], "markdown", markdown),
        (&["markdown", "plaintext"], "markdown", markdown),
        (&["plaintext"], "plaintext", plain),
    ] {
        let mut hover = Json::object();
        if !formats.is_empty() {
            hover = hover.with("contentFormat", formats.to_vec());
        }
        let document = Json::object().with("hover", hover);
        let mut client = Client::start_with(Json::object().with("textDocument", document));
        client.open(&example("tag.script"));
        let hover = client.at("textDocument/hover", 13, 4);
        let part = |name: &str| hover.at(&["contents", name]).and_then(Json::text);
        assert_eq!(part("kind"), Some(kind));
        let shown = part("value").expect("a hover");
        assert!(shown.starts_with(start), "{shown}");
        assert_eq!(shown.ends_with("```"), kind == "markdown", "{shown}");
        client.end();
    }
}

#[test]
fn hover_definition_formatting() {
    let mut client = Client::start();
    client.open(&example("tag.script"));
    let hover = client.at("textDocument/hover", 15, 3);
    let shown = hover
        .at(&["contents", "value"])
        .and_then(Json::text)
        .expect("a hover");
    assert!(shown.contains("adds:   eq c.tag k"), "{shown}");
    client.change(&example("sum.script"));
    let hover = client.at("textDocument/hover", 5, 0);
    let shown = hover
        .at(&["contents", "value"])
        .and_then(Json::text)
        .expect("a hover");
    assert!(shown.starts_with("`add x y z`\n"), "{shown}");
    client.change(&example("tag.script"));
    let line = |answer: &Json| answer.at(&["range", "start", "line"]).and_then(Json::int);
    // `call r c mark k`: the variable, the method, the class of `new`.
    let found = client.at("textDocument/definition", 15, 5);
    assert_eq!(line(&found), Some(12));
    let found = client.at("textDocument/definition", 15, 10);
    assert_eq!(line(&found), Some(3));
    let found = client.at("textDocument/definition", 13, 7);
    assert_eq!(line(&found), Some(0));
    // `assert eq c.tag 7`: the variable, and the field.
    let found = client.at("textDocument/definition", 16, 10);
    assert_eq!(line(&found), Some(10));
    let found = client.at("textDocument/definition", 16, 13);
    assert_eq!(line(&found), Some(2));
    let format = |client: &mut Client| {
        let document = Json::object().with("uri", URI);
        let params = Json::object().with("textDocument", document);
        client.ask("textDocument/formatting", params)
    };
    assert_eq!(format(&mut client), Json::List(Vec::new()));
    client.change("main \r\n end");
    let Json::List(edits) = format(&mut client) else {
        panic!("no edits");
    };
    assert_eq!(
        edits[0].get("newText").and_then(Json::text),
        Some("main\nend\n")
    );
    client.end();
}

#[test]
fn completion_of_names_in_scope() {
    let mut client = Client::start();
    let text = "class\tCard\nfield\tCard\tprev\nfield\tint\ttag\nmethod\tint\tmark\tint\tk\nrequires\t\nensures\nend\n\
                main\nvar\tCard\tc\nset\tc\t\ncall\tr\tc\t\nassert\teq\tc.\n\nnew\tc\t\nvar\tint\tr\n";
    client.open(text);
    let requires = ["acc", "read", "chain", "eq", "ne", "*"];
    assert_eq!(client.labels(4, 9), requires);
    assert_eq!(client.labels(9, 6), ["prev", "tag"]);
    assert_eq!(client.labels(10, 9), ["mark"]);
    assert_eq!(client.labels(11, 12), ["c.prev", "c.tag"]);
    assert_eq!(client.labels(9, 4), ["c"]);
    assert_eq!(client.labels(13, 6), ["Card"]);
    assert_eq!(client.labels(8, 4), ["int", "Card"]);
    for word in ["let", "add", "sub", "open", "shut", "loop"] {
        assert!(client.labels(12, 0).contains(&word.to_string()));
    }
    for word in ["return", "again"] {
        assert!(!client.labels(12, 0).contains(&word.to_string()));
    }
    // A condition first, then the invariant; in the loop its `again`.
    client.change("class\tS\nfield\tint\tn\nmain\nvar\tS\ts\nloop\t\tS\nloop\tne\ts\tnull\t\n\n");
    assert_eq!(client.labels(4, 5), ["eq", "ne"]);
    assert_eq!(client.labels(5, 15), ["acc", "read", "chain", "eq", "ne"]);
    assert!(client.labels(6, 0).contains(&"again".to_string()));
    // The fields of `open` and `shut` are those of their card.
    client.change("class\tS\nfield\tS\tp\nmain\nvar\tS\ts\nopen\ts\ts\t\nshut\ts\t\n");
    assert_eq!(client.labels(4, 5), ["s"]);
    assert_eq!(client.labels(4, 9), ["p"]);
    assert_eq!(client.labels(5, 7), ["p"]);
    client.end();
}

/// The titles of the fixes that are offered at a line, and their new texts.
fn offered(client: &mut Client, line: u32) -> Vec<(String, String)> {
    let position = |column: u32| Json::object().with("line", line).with("character", column);
    let range = Json::object()
        .with("start", position(0))
        .with("end", position(0));
    let params = Json::object()
        .with("textDocument", Json::object().with("uri", URI))
        .with("range", range);
    let Json::List(found) = client.ask("textDocument/codeAction", params) else {
        panic!("no list");
    };
    let fixes = found.iter().filter(|action| action.get("edit").is_some());
    let told = |action: &Json| {
        let title = action.get("title").and_then(Json::text).expect("a title");
        let Some(Json::List(edits)) = action.at(&["edit", "changes", URI]) else {
            panic!("no edits: {action}");
        };
        let new = |edit: &Json| edit.get("newText").and_then(Json::text).map(str::to_string);
        (title.to_string(), edits.iter().filter_map(new).collect())
    };
    fixes.map(told).collect()
}

/// A `requires *`, and a permission that is not shown in a method: what fill gives is
/// offered, once.
#[test]
fn requires_to_be_filled_in() {
    let mut client = Client::start();
    client.open(&example("fill.script"));
    let line = "requires\tacc\tthis\tprev\tacc\tthis\ttag\tacc\told\tseen\n";
    let shown = line.trim_end().replace('\t', " ");
    let title = format!("fill in line 6: `{shown}`; the script is then accepted");
    assert_eq!(offered(&mut client, 5), [(title.clone(), line.to_string())]);
    assert_eq!(offered(&mut client, 2), []);
    // Three permissions are missing, and one step gives one of them.
    client.change(&example("fill.script").replace("requires\t*", "requires\tacc\told\tseen"));
    let found = offered(&mut client, 13);
    assert!(found.contains(&(title, line.to_string())), "{found:?}");
    assert!(found.len() > 1, "{found:?}");
    // The one step is what fill gives.
    client.change(&example("refused-12.script"));
    let found = offered(&mut client, 5);
    assert_eq!(found.len(), 1, "{found:?}");
    assert_eq!(found[0].1, "requires\tacc\tthis\tn\n");
    // Main has no `requires`.
    client.change(&example("lost.script"));
    let found = offered(&mut client, 14);
    assert!(
        !found.iter().any(|(title, _)| title.contains("fill in")),
        "{found:?}"
    );
    client.end();
}

/// A diagnostic leads to what its number means: an address, and a command that
/// shows it.
#[test]
fn what_a_number_means() {
    let mut client = Client::start();
    let found = client.open(&example("refused-12.script"));
    let href = found[0]
        .at(&["codeDescription", "href"])
        .and_then(Json::text);
    assert_eq!(href, Some("station:explain/12"));
    let place = Json::object().with("line", 5u32).with("character", 0u32);
    let range = Json::object()
        .with("start", place.clone())
        .with("end", place);
    let asked = |only: &str| {
        let context = Json::object().with("only", vec![only]);
        Json::object()
            .with("textDocument", Json::object().with("uri", URI))
            .with("range", range.clone())
            .with("context", context)
    };
    let none = client.ask("textDocument/codeAction", asked("refactor"));
    assert_eq!(none, Json::List(Vec::new()));
    let Json::List(actions) = client.ask("textDocument/codeAction", asked("quickfix")) else {
        panic!("no list");
    };
    let fixed = Json::List(vec![found[0].clone()]);
    assert_eq!(actions[0].get("diagnostics"), Some(&fixed));
    let action = actions.iter().find_map(|action| action.get("command"));
    let action = action.expect("a command").clone();
    // The message comes before the reply.
    let message = Json::object()
        .with("jsonrpc", "2.0")
        .with("id", 99u32)
        .with("method", "workspace/executeCommand")
        .with("params", action);
    client.send(&message.to_string());
    let shown = client.hear();
    let method = shown.get("method").and_then(Json::text);
    assert_eq!(method, Some("window/showMessage"));
    let text = shown.at(&["params", "message"]).and_then(Json::text);
    let (explained, _, _) = common::said(&["explain", "12"], b"");
    assert_eq!(text, Some(explained.as_str()));
    assert_eq!(client.hear().get("result"), Some(&Json::Null));
    client.end();
}
