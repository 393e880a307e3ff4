//! Messages, texts, places and bytes that no editor should send.

use crate::client::Client;
use crate::common::{command, station};
use explain::json::Json;
use generator::rng::Rng;

const ASKED: [&str; 6] = [
    "textDocument/hover",
    "textDocument/completion",
    "textDocument/definition",
    "textDocument/references",
    "textDocument/documentSymbol",
    "textDocument/formatting",
];

/// What is no message or no request is answered or passed over.
#[test]
fn hostile_messages() {
    let mut client = Client::start();
    let code = |answer: Json| answer.at(&["error", "code"]).and_then(Json::int);
    client.send("{");
    assert_eq!(code(client.hear()), Some(-32_700));
    client.send("\"no object\"");
    assert_eq!(code(client.hear()), Some(-32_600));
    client.send_bytes(b"Content-Length: many\r\n\r\n");
    assert_eq!(code(client.hear()), Some(-32_700));
    client.send("{\"jsonrpc\":\"2.0\",\"id\":7,\"method\":\"no/such\"}");
    assert_eq!(code(client.hear()), Some(-32_601));
    for method in ASKED {
        assert_eq!(client.at(method, 0, 0), Json::Null, "no document is open");
    }
    client.end();
    // Without `shutdown` the status says so; input that ends is an end.
    let mut child = command(&["lsp"]).spawn().expect("station starts");
    drop(child.stdin.take());
    assert_eq!(child.wait().expect("it ends").code(), Some(1));
}

/// Any text, and any place in it or beyond it.
#[test]
fn hostile_texts() {
    let mut client = Client::start();
    let mut texts: Vec<String> = ["", "\n\n", "main", "\t\t.\t\n"]
        .map(str::to_string)
        .to_vec();
    texts.extend((0..40).map(|seed| String::from_utf8_lossy(&generator::text(seed)).into_owned()));
    // Far more than a script may have: nothing that grows with the square of it.
    texts.push("class\tA\nfield\tA\tf\nmain\nnew\tx\tA\n".repeat(40_000));
    texts.push("\t".repeat(1_000_000));
    texts.push("class\tA\nfield\tA\tf\n".repeat(1_500));
    for text in texts {
        client.open(&text);
        for line in [0, 1, 7, u32::MAX] {
            for column in [0, 3, 9, u32::MAX] {
                for method in ASKED {
                    client.at(method, line, column);
                }
            }
        }
    }
    client.end();
}

/// Bytes without a plan, and a message after them: it is answered, and before it the
/// bytes have got an error.
#[test]
fn random_bytes() {
    let mut rng = Rng::new(13);
    for _ in 0..20 {
        let mut input: Vec<u8> = (0..rng.below(100_000)).map(|_| rng.bits() as u8).collect();
        input.extend(b"\n\n");
        let body = "{\"jsonrpc\":\"2.0\",\"id\":\"last\",\"method\":\"initialize\"}";
        input.extend(format!("Content-Length: {}\r\n\r\n{body}", body.len()).bytes());
        let output = station(&["lsp"], &input);
        assert_eq!(output.status.code(), Some(1));
        let said = String::from_utf8(output.stdout).expect("UTF-8");
        assert!(said.contains("\"code\":-32700"), "{said}");
        assert!(said.contains("\"id\":\"last\",\"result\":"), "{said}");
    }
}
