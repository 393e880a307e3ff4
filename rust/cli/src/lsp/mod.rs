//! `station lsp`: the language server protocol over standard input and output.
//! The text of each document comes whole with every change. Whatever comes is
//! answered or passed over; only `exit` and the end of the input end the server.

mod completion;
mod document;
mod framing;
mod hover;
mod message;
mod names;
mod outline;
mod places;
mod refusals;
mod roles;
mod symbols;
mod typing;

use crate::session::Status;
use document::{Client, Document, REQUESTS};
use explain::json::{parse, Json};
use framing::{Frame, Frames};
use message::{message, notification, reply, uri, Code, Failure, Message};
use refusals::{explained_number, EXPLAIN};
use std::collections::HashMap;
use std::io::{BufRead, Write};
use std::panic::{catch_unwind, AssertUnwindSafe};

/// What the server was asked to be.
#[derive(Clone, Copy, Debug, Default, PartialEq, Eq)]
enum Stage {
    /// `initialize` has not come.
    #[default]
    New,
    Running,
    /// `shutdown` has come.
    Shut,
}

/// The open documents, by their names.
#[derive(Default)]
struct Server {
    documents: HashMap<String, Document>,
    stage: Stage,
    client: Client,
    /// What is said besides the reply.
    said: Vec<Json>,
}

fn capabilities() -> Json {
    let completion = Json::object().with("triggerCharacters", vec!["\t", "."]);
    let sync = Json::object().with("openClose", true).with("change", 1u32);
    let rename = Json::object().with("prepareProvider", true);
    let actions = Json::object().with("codeActionKinds", vec!["quickfix"]);
    let commands = Json::object().with("commands", vec![EXPLAIN]);
    let capabilities = Json::object()
        .with("positionEncoding", "utf-16")
        .with("textDocumentSync", sync)
        .with("hoverProvider", true)
        .with("definitionProvider", true)
        .with("referencesProvider", true)
        .with("renameProvider", rename)
        .with("documentSymbolProvider", true)
        .with("documentFormattingProvider", true)
        .with("codeActionProvider", actions)
        .with("executeCommandProvider", commands)
        .with("completionProvider", completion);
    let info = Json::object()
        .with("name", "station")
        .with("version", env!("CARGO_PKG_VERSION"));
    Json::object()
        .with("capabilities", capabilities)
        .with("serverInfo", info)
}

/// What the client can show, by what it says of itself.
fn client(params: &Json) -> Client {
    let symbols = ["capabilities", "textDocument", "documentSymbol"];
    let symbols = params.at(&symbols);
    let tree = symbols.and_then(|symbols| symbols.get("hierarchicalDocumentSymbolSupport"));
    let formats = params.at(&["capabilities", "textDocument", "hover", "contentFormat"]);
    let plain_hover = match formats {
        Some(Json::List(formats)) => !formats.iter().any(|name| name.text() == Some("markdown")),
        _ => false,
    };
    Client {
        symbol_tree: tree == Some(&Json::Bool(true)),
        plain_hover,
    }
}

/// The whole text of a change; why not, if it is a part.
fn changed(params: &Json) -> Result<&str, Failure> {
    let changes = match params.get("contentChanges") {
        Some(Json::List(changes)) => changes,
        _ => return Err(Failure::params("contentChanges")),
    };
    let last = changes.last().unwrap_or(&Json::Null);
    let part = changes.iter().any(|change| change.get("range").is_some());
    let text = last.get("text").and_then(Json::text).filter(|_| !part);
    text.ok_or_else(|| Failure::params("whole text in contentChanges, as textDocumentSync asks"))
}

impl Server {
    /// Tells the diagnostics of a document.
    fn diagnose(&mut self, uri: &str) {
        let document = self.documents.get(uri);
        let found = document.map_or(Json::List(Vec::new()), Document::diagnostics);
        let params = Json::object().with("uri", uri).with("diagnostics", found);
        self.said
            .push(notification("textDocument/publishDiagnostics", params));
    }

    /// A message of this type for the person.
    fn tell(&mut self, method: &str, kind: u32, message: &str) {
        let params = Json::object().with("type", kind).with("message", message);
        self.said.push(notification(method, params));
    }

    fn document_changed(&mut self, method: &str, params: &Json) -> Result<(), Failure> {
        let uri = uri(params)?;
        let text = match method {
            "textDocument/didOpen" => {
                let text = params.at(&["textDocument", "text"]).and_then(Json::text);
                Some(text.ok_or_else(|| Failure::params("textDocument.text"))?)
            }
            "textDocument/didChange" => Some(changed(params)?),
            _ => None,
        };
        match text {
            Some(text) => self.documents.insert(uri.to_string(), Document::of(text)),
            None => self.documents.remove(uri),
        };
        self.diagnose(uri);
        Ok(())
    }

    /// A notification; what is wrong with it goes to the client's log.
    fn notified(&mut self, method: &str, params: &Json) {
        const ERROR: u32 = 1;
        let about_a_document = [
            "textDocument/didOpen",
            "textDocument/didChange",
            "textDocument/didClose",
        ];
        if self.stage != Stage::Running || !about_a_document.contains(&method) {
            return;
        }
        if let Err(failure) = self.document_changed(method, params) {
            let said = format!("{method}: {}", failure.message);
            self.tell("window/logMessage", ERROR, &said);
        }
    }

    /// `workspace/executeCommand`: shows what a number means.
    fn command(&mut self, params: &Json) -> Result<Json, Failure> {
        const INFO: u32 = 3;
        let command = params.get("command").and_then(Json::text);
        if command != Some(EXPLAIN) {
            return Err(Failure::params(&format!("command {EXPLAIN}")));
        }
        let number = match params.get("arguments") {
            Some(Json::List(arguments)) => arguments.first(),
            _ => None,
        };
        let said = number.and_then(explained_number);
        let said = said.ok_or_else(|| Failure::params("number of the table in arguments"))?;
        self.tell("window/showMessage", INFO, &said);
        Ok(Json::Null)
    }

    /// A request about a document; nothing is said of one that is not open.
    fn asked(&self, method: &str, params: &Json) -> Result<Json, Failure> {
        let known = REQUESTS.iter().find(|(name, _)| *name == method);
        let Some((_, asked)) = known else {
            let said = format!("no method {}", method.escape_debug());
            return Err(Failure::new(Code::MethodNotFound, said));
        };
        let uri = uri(params)?;
        match self.documents.get(uri) {
            Some(document) => asked(document, uri, params, self.client),
            None => Ok(Json::Null),
        }
    }

    fn answered(&mut self, method: &str, params: &Json) -> Result<Json, Failure> {
        match (self.stage, method) {
            (Stage::New, "initialize") => {
                self.client = client(params);
                self.stage = Stage::Running;
                Ok(capabilities())
            }
            (Stage::New, _) => Err(Failure::new(
                Code::ServerNotInitialized,
                "the first request is initialize",
            )),
            (_, "initialize") => Err(Failure::new(
                Code::InvalidRequest,
                "initialize comes only once",
            )),
            (Stage::Shut, _) => Err(Failure::new(
                Code::InvalidRequest,
                "the server is shut down",
            )),
            (Stage::Running, "shutdown") => {
                self.stage = Stage::Shut;
                Ok(Json::Null)
            }
            (Stage::Running, "workspace/executeCommand") => self.command(params),
            (Stage::Running, _) => self.asked(method, params),
        }
    }

    /// Takes one message: true if the server is to end.
    fn heard(&mut self, body: &[u8]) -> bool {
        let Some(json) = std::str::from_utf8(body).ok().and_then(parse) else {
            let failure = Failure::new(Code::ParseError, "no JSON");
            self.said.push(reply(&Json::Null, Err(failure)));
            return false;
        };
        match message(&json) {
            Ok(Message::Notification("exit", _)) => return true,
            Ok(Message::Notification(method, params)) => {
                // A fault of the server's own is no reason to end.
                let _ = guarded(|| self.notified(method, params));
            }
            Ok(Message::Request(id, method, params)) => {
                let answer = guarded(|| self.answered(method, params)).and_then(|answer| answer);
                self.said.push(reply(id, answer));
            }
            Ok(Message::Answer) => {}
            Err((id, failure)) => self.said.push(reply(&id, Err(failure))),
        }
        false
    }
}

/// What is done; an error if it panics.
fn guarded<T>(done: impl FnOnce() -> T) -> Result<T, Failure> {
    let failure = Failure::new(Code::InternalError, "a fault of the server");
    catch_unwind(AssertUnwindSafe(done)).map_err(|_| failure)
}

/// Serves until the editor says `exit` or its input ends: the status.
fn served(input: &mut impl BufRead, output: &mut impl Write) -> Status {
    let mut server = Server::default();
    let mut frames = Frames::new(input);
    loop {
        let ends = match frames.read() {
            Frame::Body(body) => server.heard(&body),
            Frame::Wrong(why) => {
                let failure = Failure::new(Code::ParseError, why);
                server.said.push(reply(&Json::Null, Err(failure)));
                false
            }
            Frame::End => true,
        };
        let mut said = server.said.drain(..);
        if ends || said.any(|said| framing::write(output, &said.to_string()).is_err()) {
            break;
        }
    }
    Status::of(server.stage == Stage::Shut)
}

/// The command.
pub fn serve() -> Status {
    served(&mut std::io::stdin().lock(), &mut std::io::stdout().lock())
}

#[cfg(test)]
mod tests;
