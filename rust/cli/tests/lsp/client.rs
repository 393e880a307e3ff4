//! A client of the language server protocol, over a server that it starts.

use crate::common::command;
use explain::json::{parse, Json};
use std::io::{BufRead, BufReader, Read, Write};
use std::process::{Child, ChildStdin, ChildStdout};

pub struct Client {
    child: Child,
    input: ChildStdin,
    output: BufReader<ChildStdout>,
    id: u32,
}

pub const URI: &str = "file:///a.script";

impl Client {
    /// One that shows symbols in each other.
    pub fn start() -> Client {
        let symbols = Json::object().with("hierarchicalDocumentSymbolSupport", true);
        let document = Json::object().with("documentSymbol", symbols);
        Client::start_with(Json::object().with("textDocument", document))
    }

    pub fn start_with(capabilities: Json) -> Client {
        let mut child = command(&["lsp"]).spawn().expect("station starts");
        let input = child.stdin.take().expect("its input");
        let output = BufReader::new(child.stdout.take().expect("its output"));
        let mut client = Client {
            child,
            input,
            output,
            id: 0,
        };
        let params = Json::object().with("capabilities", capabilities);
        let found = client.ask("initialize", params);
        assert!(found.at(&["capabilities", "hoverProvider"]).is_some());
        client.tell("initialized", Json::object());
        client
    }

    pub fn send_bytes(&mut self, bytes: &[u8]) {
        self.input.write_all(bytes).expect("sent");
    }

    pub fn send(&mut self, body: &str) {
        let frame = format!("Content-Length: {}\r\n\r\n{body}", body.len());
        self.send_bytes(frame.as_bytes());
    }

    pub fn hear(&mut self) -> Json {
        let mut length = 0;
        loop {
            let mut line = String::new();
            self.output.read_line(&mut line).expect("a header");
            match line.trim_end() {
                "" => break,
                line => {
                    let value = line.strip_prefix("Content-Length: ").expect("a length");
                    length = value.parse().expect("a number");
                }
            }
        }
        let mut body = vec![0; length];
        self.output.read_exact(&mut body).expect("a body");
        parse(std::str::from_utf8(&body).expect("UTF-8")).expect("JSON")
    }

    pub fn tell(&mut self, method: &str, params: Json) {
        let message = Json::object()
            .with("jsonrpc", "2.0")
            .with("method", method)
            .with("params", params);
        self.send(&message.to_string());
    }

    /// The reply to a request.
    pub fn reply(&mut self, method: &str, params: Json) -> Json {
        self.id += 1;
        let message = Json::object()
            .with("jsonrpc", "2.0")
            .with("id", self.id)
            .with("method", method)
            .with("params", params);
        self.send(&message.to_string());
        let answer = self.hear();
        assert_eq!(answer.get("id"), Some(&Json::Int(self.id.into())));
        answer
    }

    /// The result of a request.
    pub fn ask(&mut self, method: &str, params: Json) -> Json {
        let answer = self.reply(method, params);
        let result = answer.get("result").cloned();
        result.unwrap_or_else(|| panic!("{answer}"))
    }

    /// Opens the text: its diagnostics.
    pub fn open(&mut self, text: &str) -> Vec<Json> {
        let document = Json::object().with("uri", URI).with("text", text);
        self.tell(
            "textDocument/didOpen",
            Json::object().with("textDocument", document),
        );
        self.diagnostics()
    }

    pub fn change(&mut self, text: &str) -> Vec<Json> {
        let document = Json::object().with("uri", URI);
        let changes = vec![Json::object().with("text", text)];
        let params = Json::object()
            .with("textDocument", document)
            .with("contentChanges", changes);
        self.tell("textDocument/didChange", params);
        self.diagnostics()
    }

    pub fn diagnostics(&mut self) -> Vec<Json> {
        let said = self.hear();
        let method = said.get("method").and_then(Json::text);
        assert_eq!(method, Some("textDocument/publishDiagnostics"));
        match said.at(&["params", "diagnostics"]) {
            Some(Json::List(found)) => found.clone(),
            _ => panic!("no diagnostics: {said}"),
        }
    }

    pub fn at(&mut self, method: &str, line: u32, column: u32) -> Json {
        self.ask(method, place(line, column))
    }

    pub fn labels(&mut self, line: u32, column: u32) -> Vec<String> {
        let Json::List(items) = self.at("textDocument/completion", line, column) else {
            panic!("no list");
        };
        let label = |item: &Json| item.get("label").and_then(Json::text).map(str::to_string);
        items.iter().filter_map(label).collect()
    }

    pub fn end(mut self) {
        assert_eq!(self.ask("shutdown", Json::object()), Json::Null);
        self.tell("exit", Json::object());
        assert!(self.child.wait().expect("it ends").success());
    }
}

/// The parameters of a request about a place.
pub fn place(line: u32, column: u32) -> Json {
    let position = Json::object().with("line", line).with("character", column);
    Json::object()
        .with("textDocument", Json::object().with("uri", URI))
        .with("position", position)
}
