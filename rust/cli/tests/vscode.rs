//! The extension for VS Code, tried where node is there, with a stand-in for the
//! editor: what it shows, its setting, and a server that ends.

mod common;

use common::{folder, is_here, path, root};
use explain::json::{parse, Json};
use std::ffi::OsStr;
use std::path::PathBuf;
use std::process::Command;

/// Where node is.
fn node() -> Option<PathBuf> {
    let path = std::env::var_os("PATH")?;
    let mut folders = std::env::split_paths(&path);
    folders.find_map(|folder| Some(folder.join("node")).filter(|file| file.is_file()))
}

/// What the extension uses of the editor: a stand-in.
const EDITOR: &str = r#"
class Range { constructor(a, b, c, d) { Object.assign(this, { from: [a, b], to: [c, d] }); } }
class Diagnostic { constructor(range, message) { Object.assign(this, { range, message }); } }
class Hover { constructor(contents) { this.contents = contents; } }
class MarkdownString { constructor(value) { this.value = value; } }
class Location { constructor(uri, range) { this.range = range; } }
class CompletionItem { constructor(label, kind) { Object.assign(this, { label, kind }); } }
class TextEdit { constructor(range, text) { Object.assign(this, { range, text }); } }
class DocumentSymbol { constructor(name, detail, kind) { Object.assign(this, { name, detail, kind }); } }
class WorkspaceEdit { set(uri, edits) { this.edits = edits; } }
class CodeAction { constructor(title, kind) { Object.assign(this, { title, kind }); } }
const made = { said: [], settings: {} };
const nothing = { dispose() {} };
const keep = (name) => (selector, provider) => { made[name] = provider; return nothing; };
const on = (name) => (handler) => { made[name] = handler; return nothing; };
const document = {
  languageId: 'station', version: 1, uri: { toString: () => 'file:///a.script' },
  text: require('fs').readFileSync(process.argv[3], 'utf8'), getText() { return this.text; },
};
module.exports = {
  Range, Diagnostic, Hover, MarkdownString, Location, CompletionItem, TextEdit, DocumentSymbol, WorkspaceEdit, CodeAction,
  made, document, CodeActionKind: { QuickFix: 'quickfix' },
  Uri: { parse: (uri) => ({ uri, path: uri.split(':').pop() }) },
  window: {
    showErrorMessage: (said) => { made.said.push(said); if (made.told) made.told(); },
    showTextDocument: (document) => { made.shown = document; },
  },
  commands: { registerCommand: (name, done) => { made[name] = done; return nothing; } },
  languages: {
    createDiagnosticCollection: () => ({ set: (uri, list) => made.found && made.found(list), clear() {}, dispose() {} }),
    registerHoverProvider: keep('hover'), registerDefinitionProvider: keep('definition'),
    registerReferenceProvider: keep('references'), registerRenameProvider: keep('rename'),
    registerDocumentSymbolProvider: keep('symbols'), registerCodeActionsProvider: keep('actions'),
    registerCompletionItemProvider: keep('completion'), registerDocumentFormattingEditProvider: keep('format'),
  },
  workspace: {
    getConfiguration: () => ({ get: (name, other) => made.settings[name] ?? other }), textDocuments: [document],
    openTextDocument: async (uri) => ({ uri, text: await made.texts.provideTextDocumentContent(uri) }),
    registerTextDocumentContentProvider: keep('texts'),
    onDidOpenTextDocument: on('open'), onDidChangeTextDocument: on('change'),
    onDidCloseTextDocument: on('close'), onDidChangeConfiguration: on('setting'),
  },
};
"#;

/// How the person begins: starts the extension, and can wait for diagnostics.
const START: &str = r#"
const vscode = require('vscode');
const { made, document } = vscode;
const subscriptions = [];
const next = () => new Promise((answer) => { made.found = answer; });
const told = () => new Promise((answer) => { made.told = answer; });
const at = (line, character) => ({ line, character });
const start = () => require(process.argv[2]).activate({ subscriptions });
const done = async (seen) => {
  console.log(JSON.stringify({ ...seen, said: made.said }));
  for (const one of subscriptions) await one.dispose();
};
"#;

/// What the person sees who does this with a text in the editor.
fn seen_in_the_editor(test: &str, script: &str, path: &OsStr, person: &str) -> Json {
    let folder = folder(test);
    std::fs::create_dir(folder.join("vscode")).expect("a folder");
    std::fs::write(folder.join("vscode/index.js"), EDITOR).expect("a file");
    let person = format!("{START}(async () => {{{person}}})();\n");
    std::fs::write(folder.join("person.js"), person).expect("a file");
    let output = Command::new(node().expect("node is here"))
        .arg(folder.join("person.js"))
        .arg(root().join("editors/vscode/extension.js"))
        .arg(root().join(script))
        .env("NODE_PATH", &folder)
        .env("PATH", path)
        .current_dir(&folder)
        .output()
        .expect("node");
    let (said, error) = (&output.stdout, String::from_utf8_lossy(&output.stderr));
    parse(&String::from_utf8_lossy(said)).unwrap_or_else(|| panic!("{error}"))
}

fn list<'a>(answer: &'a Json, name: &str) -> &'a [Json] {
    match answer.get(name) {
        Some(Json::List(list)) => list,
        _ => panic!("no {name}: {answer}"),
    }
}

fn text<'a>(answer: &'a Json, names: &[&str]) -> &'a str {
    let found = answer.at(names).and_then(Json::text);
    found.unwrap_or_else(|| panic!("no {names:?}: {answer}"))
}

/// Opens a text, fixes it, and asks about it.
#[test]
fn the_extension_for_vs_code() {
    if !is_here("node") {
        return;
    }
    let person = r#"
  const first = next();
  start();
  const opened = await first;
  const actions = await made.actions.provideCodeActions(document, { start: at(5, 0), end: at(5, 0) });
  await made['station.explain'](opened[0].code.value);
  const explained = made.shown.text;
  document.text = document.text.replace('requires', 'requires\tacc\tthis\tn');
  const second = next();
  made.change({ document });
  const changed = await second;
  const hover = await made.hover.provideHover(document, at(5, 2));
  const place = await made.definition.provideDefinition(document, at(5, 9));
  const items = await made.completion.provideCompletionItems(document, at(5, 9));
  const edits = await made.format.provideDocumentFormattingEdits(document);
  const places = await made.references.provideReferences(document, at(1, 10), { includeDeclaration: true });
  const symbols = await made.symbols.provideDocumentSymbols(document);
  const ready = await made.rename.prepareRename(document, at(1, 10));
  const renamed = await made.rename.provideRenameEdits(document, at(1, 10), 'count');
  const refused = await made.rename.provideRenameEdits(document, at(1, 10), 'int').catch((error) => error.message);
  await done({ opened, actions, explained, changed, hover, place, items, edits, places, symbols, ready, renamed, refused });
"#;
    let answer = seen_in_the_editor("vscode", "examples/refused-12.script", &path(), person);
    let opened = list(&answer, "opened");
    assert_eq!(opened[0].at(&["code", "value"]), Some(&Json::Int(12)));
    assert_eq!(opened[0].get("severity"), Some(&Json::Int(0)));
    assert_eq!(
        text(&opened[0], &["code", "target", "uri"]),
        "station:explain/12"
    );
    assert_eq!(
        opened[0].at(&["range", "from"]),
        Some(&Json::from(vec![5, 4]))
    );
    // The editor counts from 0: an error, then a warning for the method that no line calls.
    let severities = |found: &[Json]| -> Vec<_> {
        let severity = |one: &Json| one.get("severity").and_then(Json::int);
        found.iter().map(severity).collect()
    };
    assert_eq!(severities(opened), [Some(0), Some(1)]);
    let (explained, _, _) = common::said(&["explain", "12"], b"");
    assert_eq!(text(&answer, &["explained"]), explained);
    let actions = list(&answer, "actions");
    assert_eq!(
        list(actions[0].get("edit").expect("a fix"), "edits").len(),
        1
    );
    let last = actions.last().expect("an action");
    assert_eq!(text(last, &["command", "command"]), "station.explain");
    assert_eq!(severities(list(&answer, "changed")), [Some(1)]);
    let hover = text(&answer, &["hover", "contents", "value"]);
    assert!(hover.contains("acc this n"), "{answer}");
    assert_eq!(
        answer.at(&["place", "range", "from"]),
        Some(&Json::from(vec![1, 10]))
    );
    let items = list(&answer, "items");
    assert_eq!(text(&items[0], &["insertText"]), "n");
    let typed = items[0].at(&["range", "from"]);
    assert_eq!((items.len(), typed), (1, Some(&Json::from(vec![5, 9]))));
    assert!(list(&answer, "edits").is_empty());
    let places = list(&answer, "places").len();
    assert!(places >= 3, "{answer}");
    assert_eq!(text(&list(&answer, "symbols")[0], &["name"]), "S");
    assert_eq!(text(&answer, &["ready", "placeholder"]), "n");
    let renamed = answer.get("renamed").expect("edits");
    assert_eq!(list(renamed, "edits").len(), places);
    assert_eq!(text(&answer, &["refused"]), "`int` is reserved");
    assert!(list(&answer, "said").is_empty());
}

/// Without the command the person is told so, and the editor goes on; with the
/// setting put right the server starts.
#[test]
fn the_extension_and_its_setting() {
    if !is_here("node") {
        return;
    }
    let nowhere = folder("nowhere");
    let person = format!(
        r#"
  const failed = told();
  start();
  await failed;
  const hover = await made.hover.provideHover(document, at(0, 0));
  made.settings.program = {};
  const opened = next();
  made.setting({{ affectsConfiguration: (name) => name === 'station.program' }});
  await done({{ hover, opened: await opened }});
"#,
        Json::from(env!("CARGO_BIN_EXE_station"))
    );
    let path = nowhere.as_os_str();
    let answer = seen_in_the_editor("vscode-setting", "examples/lost.script", path, &person);
    let said = list(&answer, "said");
    assert_eq!(said.len(), 1, "{answer}");
    assert!(said[0]
        .text()
        .is_some_and(|said| said.contains("station.program")));
    assert_eq!(answer.get("hover"), Some(&Json::Null));
    assert_eq!(
        list(&answer, "opened")[0].at(&["code", "value"]),
        Some(&Json::Int(12))
    );
}

/// A program in the place of the command, which notes each start of it.
#[cfg(unix)]
fn stand_in(test: &str, lines: &str) -> (PathBuf, PathBuf) {
    use std::os::unix::fs::PermissionsExt;
    let folder = folder(test);
    let (program, starts) = (folder.join("station"), folder.join("starts"));
    let lines = format!("#!/bin/sh\necho start >>'{}'\n{lines}\n", starts.display());
    std::fs::write(&program, lines).expect("a file");
    let mode = std::fs::Permissions::from_mode(0o755);
    std::fs::set_permissions(&program, mode).expect("a mode");
    (program, starts)
}

fn count_of_lines(file: &std::path::Path) -> usize {
    let text = std::fs::read_to_string(file).expect("a file");
    text.lines().count()
}

/// A server that ends by itself is started again, with the texts that are open.
#[cfg(unix)]
#[test]
fn the_extension_starts_the_server_again() {
    if !is_here("node") {
        return;
    }
    let (program, starts) = stand_in(
        "vscode-again-program",
        &format!(
            "test \"$(wc -l <'{}')\" -lt 3 && exit 7\nexec '{}' \"$@\"",
            folder("vscode-again-program").join("starts").display(),
            env!("CARGO_BIN_EXE_station")
        ),
    );
    let person = format!(
        "made.settings.program = {};\nconst opened = next();\nstart();\n\
         await done({{ opened: await opened }});\n",
        Json::from(program.to_str().expect("a name"))
    );
    let answer = seen_in_the_editor("vscode-again", "examples/lost.script", &path(), &person);
    assert_eq!(list(&answer, "opened").len(), 1);
    assert!(list(&answer, "said").is_empty(), "{answer}");
    assert_eq!(count_of_lines(&starts), 3);
}

/// One that ends each time is given up, and the person is told.
#[cfg(unix)]
#[test]
fn the_extension_gives_up() {
    if !is_here("node") {
        return;
    }
    let (program, starts) = stand_in("vscode-gone-program", "exit 7");
    let person = format!(
        "made.settings.program = {};\nconst failed = told();\nstart();\nawait failed;\nawait done({{}});\n",
        Json::from(program.to_str().expect("a name"))
    );
    let answer = seen_in_the_editor("vscode-gone", "examples/lost.script", &path(), &person);
    let said = list(&answer, "said");
    assert!(
        said[0]
            .text()
            .is_some_and(|said| said.contains("restart the server")),
        "{answer}"
    );
    assert_eq!((said.len(), count_of_lines(&starts)), (1, 5));
}
