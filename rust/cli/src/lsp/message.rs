//! Messages as JSON-RPC has them: requests, notifications, replies and errors.

use explain::Json;

/// The errors of the protocol.
#[derive(Clone, Copy, Debug, PartialEq, Eq)]
pub enum Code {
    ParseError = -32_700,
    InvalidRequest = -32_600,
    MethodNotFound = -32_601,
    InvalidParams = -32_602,
    InternalError = -32_603,
    ServerNotInitialized = -32_002,
    RequestFailed = -32_803,
}

/// Why a request is not answered.
#[derive(Clone, Debug, PartialEq, Eq)]
pub struct Failure {
    pub code: Code,
    pub message: String,
}

impl Failure {
    pub fn new(code: Code, message: impl Into<String>) -> Failure {
        Failure {
            code,
            message: message.into(),
        }
    }

    /// What a request lacks.
    pub fn params(lacking: &str) -> Failure {
        Failure::new(Code::InvalidParams, format!("no {lacking}"))
    }
}

/// What a client says.
#[derive(Debug, PartialEq)]
pub enum Message<'m> {
    Request(&'m Json, &'m str, &'m Json),
    Notification(&'m str, &'m Json),
    /// An answer to something that was asked.
    Answer,
}

const NOTHING: &Json = &Json::Null;

/// The message of a JSON value; else why it is none, with its id where it has one.
pub fn message(json: &Json) -> Result<Message<'_>, (Json, Failure)> {
    let id = json.get("id");
    let valid = id.filter(|id| matches!(id, Json::Int(_) | Json::Text(_)));
    let invalid = |why: &str| {
        let failure = Failure::new(Code::InvalidRequest, why);
        Err((valid.cloned().unwrap_or(Json::Null), failure))
    };
    match json {
        Json::Object(_) => {}
        Json::List(_) => return invalid("a batch; the protocol has one message at a time"),
        _ => return invalid("a message is an object"),
    }
    if json.get("jsonrpc").and_then(Json::text) != Some("2.0") {
        return invalid("a message has \"jsonrpc\": \"2.0\"");
    }
    let params = json.get("params").unwrap_or(NOTHING);
    if !matches!(params, Json::Object(_) | Json::List(_) | Json::Null) {
        return invalid("params is an object or an array");
    }
    match (json.get("method"), id, valid) {
        (Some(Json::Text(method)), _, Some(id)) => Ok(Message::Request(id, method, params)),
        (Some(Json::Text(method)), None, _) => Ok(Message::Notification(method, params)),
        (Some(Json::Text(_)), ..) => invalid("an id is a whole number or a string"),
        (Some(_), ..) => invalid("a method is a string"),
        (None, Some(_), _) if json.get("result").or(json.get("error")).is_some() => {
            Ok(Message::Answer)
        }
        (None, ..) => invalid("a message without a method"),
    }
}

fn framed() -> Json {
    Json::object().with("jsonrpc", "2.0")
}

/// The reply to a request.
pub fn reply(id: &Json, answer: Result<Json, Failure>) -> Json {
    let object = framed().with("id", id.clone());
    match answer {
        Ok(result) => object.with("result", result),
        Err(failure) => {
            let error = Json::object()
                .with("code", failure.code as i32)
                .with("message", failure.message);
            object.with("error", error)
        }
    }
}

/// A notification for the client.
pub fn notification(method: &str, params: Json) -> Json {
    framed().with("method", method).with("params", params)
}

/// No text has so many lines or columns: one that is far out stands for all beyond it.
const FAR: i64 = 1 << 30;

/// A line or column, by the names of the fields that lead to it.
pub fn coordinate(params: &Json, names: &[&str]) -> Result<u32, Failure> {
    let found = params.at(names).and_then(Json::int);
    let found = found.filter(|&at| at >= 0).map(|at| at.min(FAR) as u32);
    found.ok_or_else(|| Failure::params(&format!("{}, a number from 0", names.join("."))))
}

/// The line and column that a request is about.
pub fn place(params: &Json) -> Result<(u32, usize), Failure> {
    let line = coordinate(params, &["position", "line"])?;
    let column = coordinate(params, &["position", "character"])?;
    Ok((line, column as usize))
}

/// The document that a message is about.
pub fn uri(params: &Json) -> Result<&str, Failure> {
    let uri = params.at(&["textDocument", "uri"]).and_then(Json::text);
    uri.ok_or_else(|| Failure::params("textDocument.uri"))
}

#[cfg(test)]
mod tests {
    use super::*;
    use explain::json::parse;

    /// What stands for a message.
    fn read(text: &str) -> String {
        let json = parse(text).expect("JSON");
        match message(&json) {
            Ok(Message::Request(id, method, _)) => format!("{method} {id}"),
            Ok(Message::Notification(method, _)) => method.to_string(),
            Ok(Message::Answer) => "answer".to_string(),
            Err((id, failure)) => format!("{} {id}", failure.code as i32),
        }
    }

    #[test]
    fn messages() {
        for (text, expected) in [
            (r#"{"jsonrpc":"2.0","id":1,"method":"a"}"#, "a 1"),
            (
                r#"{"jsonrpc":"2.0","id":"x","method":"a","params":[]}"#,
                "a \"x\"",
            ),
            (r#"{"jsonrpc":"2.0","method":"a","params":null}"#, "a"),
            (r#"{"jsonrpc":"2.0","id":1,"result":null}"#, "answer"),
            (r#"{"jsonrpc":"2.0","id":1,"error":{}}"#, "answer"),
            (r#"{"jsonrpc":"2.0","id":1}"#, "-32600 1"),
            (r#"{"jsonrpc":"1.0","id":1,"method":"a"}"#, "-32600 1"),
            (r#"{"id":"x","method":"a"}"#, "-32600 \"x\""),
            (r#"{"jsonrpc":"2.0","id":null,"method":"a"}"#, "-32600 null"),
            (r#"{"jsonrpc":"2.0","id":1.5,"method":"a"}"#, "-32600 null"),
            (r#"{"jsonrpc":"2.0","id":[],"method":"a"}"#, "-32600 null"),
            (r#"{"jsonrpc":"2.0","id":1,"method":7}"#, "-32600 1"),
            (
                r#"{"jsonrpc":"2.0","id":1,"method":"a","params":7}"#,
                "-32600 1",
            ),
            ("[]", "-32600 null"),
            (r#"[{"jsonrpc":"2.0","id":1,"method":"a"}]"#, "-32600 null"),
            ("7", "-32600 null"),
            ("null", "-32600 null"),
        ] {
            assert_eq!(read(text), expected, "{text}");
        }
    }

    #[test]
    fn places() {
        let at = |text: &str| place(&parse(text).expect("JSON"));
        let good = r#"{"position":{"line":3,"character":99999999999}}"#;
        assert_eq!(at(good), Ok((3, FAR as usize)));
        for bad in [
            "{}",
            r#"{"position":7}"#,
            r#"{"position":{"line":-1,"character":0}}"#,
            r#"{"position":{"line":0,"character":0.5}}"#,
            r#"{"position":{"line":"0","character":0}}"#,
        ] {
            assert_eq!(at(bad).unwrap_err().code, Code::InvalidParams, "{bad}");
        }
    }
}
