//! The server over bytes: what it answers to right, wrong and random messages.

mod renaming;
mod scripts;
mod typed;

use super::*;
use generator::rng::Rng;

fn framed(bodies: &[&str]) -> Vec<u8> {
    let mut bytes = Vec::new();
    for body in bodies {
        framing::write(&mut bytes, body).expect("a vector takes all");
    }
    bytes
}

/// The status, and everything that the server says.
fn said(input: &[u8]) -> (Status, Vec<Json>) {
    let mut output = Vec::new();
    let status = served(&mut &input[..], &mut output);
    let mut frames = Frames::new(&output[..]);
    let mut all = Vec::new();
    while let Frame::Body(body) = frames.read() {
        let text = std::str::from_utf8(&body).expect("UTF-8");
        all.push(parse(text).expect("JSON"));
    }
    (status, all)
}

/// The ids and error codes of what is said; no code is a result.
fn codes(input: &[u8]) -> Vec<(Option<i64>, Option<i64>)> {
    let (_, all) = said(input);
    let replies = all.iter().filter(|one| one.get("id").is_some());
    let code = |one: &Json| one.at(&["error", "code"]).and_then(Json::int);
    replies
        .map(|one| (one.get("id").and_then(Json::int), code(one)))
        .collect()
}

const INITIALIZE: &str = r#"{"jsonrpc":"2.0","id":1,"method":"initialize","params":{}}"#;
const SHUTDOWN: &str = r#"{"jsonrpc":"2.0","id":2,"method":"shutdown"}"#;
const EXIT: &str = r#"{"jsonrpc":"2.0","method":"exit"}"#;
const HOVER: &str = r#"{"jsonrpc":"2.0","id":3,"method":"textDocument/hover","params":{"textDocument":{"uri":"a"},"position":{"line":0,"character":0}}}"#;

/// The stages of the protocol, and the status at the end.
#[test]
fn stages() {
    let before = framed(&[HOVER, SHUTDOWN, INITIALIZE, INITIALIZE, HOVER]);
    let not_initialized = Some(Code::ServerNotInitialized as i64);
    let invalid = Some(Code::InvalidRequest as i64);
    let expected = [
        (Some(3), not_initialized),
        (Some(2), not_initialized),
        (Some(1), None),
        (Some(1), invalid),
        (Some(3), None),
    ];
    assert_eq!(codes(&before), expected);
    assert_eq!(said(&before).0, Status::Refused);
    let after = framed(&[INITIALIZE, SHUTDOWN, HOVER, SHUTDOWN, EXIT, HOVER]);
    let expected = [
        (Some(1), None),
        (Some(2), None),
        (Some(3), invalid),
        (Some(2), invalid),
    ];
    assert_eq!(codes(&after), expected);
    assert_eq!(said(&after).0, Status::Done);
    assert_eq!(said(&framed(&[INITIALIZE, EXIT])).0, Status::Refused);
    assert_eq!(said(&framed(&[EXIT])).0, Status::Refused);
}

/// A text that is opened too early is not known later, and nothing is said of it.
#[test]
fn notifications_before_initialize() {
    let open = r#"{"jsonrpc":"2.0","method":"textDocument/didOpen","params":{"textDocument":{"uri":"a","text":"main\n"}}}"#;
    let (_, all) = said(&framed(&[open, INITIALIZE, HOVER]));
    assert_eq!(all.len(), 2);
    assert_eq!(all[1].get("result"), Some(&Json::Null));
}

/// What is wrong gets an error, and the next request its answer.
#[test]
fn wrong_messages() {
    let (parse, invalid) = (Code::ParseError as i64, Code::InvalidRequest as i64);
    let (method, params) = (Code::MethodNotFound as i64, Code::InvalidParams as i64);
    for (bytes, code) in [
        (framed(&["{"]), parse),
        (framed(&[""]), parse),
        (b"Content-Length: 2\r\n\r\n\xff\xff".to_vec(), parse),
        (b"Content-Length: x\r\n\r\n".to_vec(), parse),
        (b"nonsense\r\n\r\n".to_vec(), parse),
        (framed(&["[]"]), invalid),
        (framed(&["[1,2]"]), invalid),
        (framed(&[&format!("[{HOVER},{HOVER}]")]), invalid),
        (framed(&["7"]), invalid),
        (framed(&["{}"]), invalid),
        (
            framed(&[r#"{"jsonrpc":"2.0","id":7,"method":"$/x"}"#]),
            method,
        ),
        (
            framed(&[r#"{"jsonrpc":"2.0","id":7,"method":"exit"}"#]),
            method,
        ),
        (
            framed(&[r#"{"jsonrpc":"2.0","id":7,"method":"textDocument/hover"}"#]),
            params,
        ),
        (
            framed(&[
                r#"{"jsonrpc":"2.0","id":7,"method":"workspace/executeCommand","params":{"command":"station.explain","arguments":[20]}}"#,
            ]),
            params,
        ),
    ] {
        let all = [framed(&[INITIALIZE]), bytes.clone(), framed(&[HOVER])].concat();
        let found = codes(&all);
        let shown = bytes.escape_ascii().to_string();
        assert_eq!(found.len(), 3, "{shown}: {found:?}");
        assert_eq!(found[1].1, Some(code), "{shown}");
        assert_eq!(found[2], (Some(3), None), "{shown}");
    }
}

/// A change that can't be used goes to the log, and the text stays.
#[test]
fn changes_in_parts() {
    let open = r#"{"jsonrpc":"2.0","method":"textDocument/didOpen","params":{"textDocument":{"uri":"a","text":"main\nend\n"}}}"#;
    let part = r#"{"jsonrpc":"2.0","method":"textDocument/didChange","params":{"textDocument":{"uri":"a"},"contentChanges":[{"range":{},"text":"x"}]}}"#;
    let none = r#"{"jsonrpc":"2.0","method":"textDocument/didChange","params":{"textDocument":{"uri":"a"}}}"#;
    let (_, all) = said(&framed(&[INITIALIZE, open, part, none, HOVER]));
    let method = |at: usize| all[at].get("method").and_then(Json::text);
    assert_eq!(method(1), Some("textDocument/publishDiagnostics"));
    assert_eq!(method(2), Some("window/logMessage"));
    assert_eq!(method(3), Some("window/logMessage"));
    let hover = all[4].at(&["result", "contents", "value"]);
    assert_eq!(hover.and_then(Json::text), Some("`main`"));
}

/// A panic is an error of the request alone.
#[test]
fn panics_are_caught() {
    let hook = std::panic::take_hook();
    std::panic::set_hook(Box::new(|_| {}));
    let failed = guarded(|| panic!("on purpose"));
    std::panic::set_hook(hook);
    assert_eq!(
        failed.map_err(|failure| failure.code),
        Err::<(), _>(Code::InternalError)
    );
    assert_eq!(guarded(|| 7), Ok(7));
}

/// Bytes without a plan, parts of messages among them: the server comes to its
/// end, and all that it says is messages.
#[test]
fn random_bytes() {
    let mut rng = Rng::new(3);
    let whole = [INITIALIZE, HOVER, SHUTDOWN].map(|body| framed(&[body]));
    for _ in 0..3_000 {
        let mut input = Vec::new();
        for _ in 0..rng.below(12) {
            match rng.below(4) {
                0 => input.extend((0..rng.below(40)).map(|_| rng.bits() as u8)),
                1 => input.extend(rng.pick(&whole)),
                2 => {
                    let mut part = rng.pick(&whole);
                    part.truncate(rng.below(part.len()));
                    input.extend(part);
                }
                _ => {
                    let mut changed = rng.pick(&whole);
                    let at = rng.below(changed.len());
                    changed[at] = rng.bits() as u8;
                    input.extend(changed);
                }
            }
        }
        for one in said(&input).1 {
            assert_eq!(one.get("jsonrpc").and_then(Json::text), Some("2.0"));
        }
    }
}

/// Parameters of any kind: each request gets one reply, with its id.
#[test]
fn random_params() {
    let parts = [
        "null",
        "7",
        "-1",
        "1e9",
        "\"a\"",
        "\"\"",
        "[]",
        "{}",
        "true",
        r#"{"uri":"a"}"#,
        r#"{"uri":7}"#,
        r#"{"uri":"b","text":"main\n"}"#,
        r#"{"line":1,"character":4}"#,
        r#"{"line":0,"character":-4}"#,
        r#"{"line":99,"character":99}"#,
        r#"{"start":{"line":0,"character":0},"end":{"line":9,"character":9}}"#,
        r#"{"only":["quickfix"]}"#,
        r#"{"includeDeclaration":false}"#,
        "\"station.explain\"",
        "[12]",
    ];
    let names = [
        "textDocument",
        "position",
        "range",
        "context",
        "newName",
        "command",
        "arguments",
        "contentChanges",
    ];
    let open = r#"{"jsonrpc":"2.0","method":"textDocument/didOpen","params":{"textDocument":{"uri":"a","text":"main\nvar\tint\ta\nlet\tb\t7\nend\n"}}}"#;
    let others = [
        "workspace/executeCommand",
        "textDocument/didChange",
        "textDocument/didOpen",
        "initialize",
    ];
    let methods: Vec<&str> = REQUESTS
        .iter()
        .map(|(name, _)| *name)
        .chain(others)
        .collect();
    let mut rng = Rng::new(55);
    let (mut input, mut results) = (framed(&[INITIALIZE, open]), 0);
    const REQUESTED: i64 = 6_000;
    for id in 0..REQUESTED {
        let fields: Vec<String> = (0..rng.below(6))
            .map(|_| format!("\"{}\":{}", rng.pick(&names), rng.pick(&parts)))
            .collect();
        // A place after the others: it counts where they have none.
        let place = String::from(r#""position":{"line":1,"character":9}"#);
        let place = Some(place).filter(|_| rng.chance(50));
        let fields: Vec<String> = fields.into_iter().chain(place).collect();
        let (method, fields) = (rng.pick(&methods), fields.join(","));
        let body = format!(
            r#"{{"jsonrpc":"2.0","id":{},"method":"{method}","params":{{"textDocument":{{"uri":"a"}},{fields}}}}}"#,
            id + 100
        );
        let body = body.replace(",}", "}");
        input.extend(framed(&[&body]));
    }
    let codes = codes(&input);
    assert_eq!(codes.len() as i64, REQUESTED + 1);
    for (at, (id, code)) in codes[1..].iter().enumerate() {
        assert_eq!(*id, Some(at as i64 + 100));
        results += usize::from(code.is_none());
        assert_ne!(*code, Some(Code::InternalError as i64));
    }
    assert!(results > 1_500, "{results}");
}
