//! An open document, and what is asked about it. What is found in its text is
//! kept until the text changes.

use super::completion::completion;
use super::hover::{hover, Form};
use super::message::{coordinate, place, Code, Failure};
use super::names;
use super::outline::Outline;
use super::places::range_of;
use super::refusals::{formatting, wanted, whole, Found};
use super::symbols;
use explain::fix::Fix;
use explain::Json;
use std::cell::OnceCell;

pub struct Document {
    text: String,
    outline: Outline,
    found: OnceCell<Found>,
    whole: OnceCell<Option<Fix>>,
}

/// What the client can show.
#[derive(Clone, Copy, Default)]
pub struct Client {
    /// Symbols in each other.
    pub symbol_tree: bool,
    /// Of a hover plain text alone, without Markdown.
    pub plain_hover: bool,
}

/// A request about a document.
pub type Asked = fn(&Document, &str, &Json, Client) -> Result<Json, Failure>;

/// The requests about documents.
pub const REQUESTS: [(&str, Asked); 9] = [
    ("textDocument/hover", Document::hover),
    ("textDocument/completion", Document::completion),
    ("textDocument/definition", Document::definition),
    ("textDocument/references", Document::references),
    ("textDocument/prepareRename", Document::prepare_rename),
    ("textDocument/rename", Document::rename),
    ("textDocument/documentSymbol", Document::symbols),
    ("textDocument/codeAction", Document::actions),
    ("textDocument/formatting", Document::formatting),
];

/// Why nothing is renamed.
fn refused(why: String) -> Failure {
    Failure::new(Code::RequestFailed, why)
}

impl Document {
    pub fn of(text: &str) -> Document {
        Document {
            text: text.to_string(),
            outline: Outline::of(text.as_bytes()),
            found: OnceCell::new(),
            whole: OnceCell::new(),
        }
    }

    fn found(&self) -> &Found {
        self.found.get_or_init(|| Found::of(&self.text))
    }

    pub fn diagnostics(&self) -> Json {
        self.found().diagnostics()
    }

    fn hover(&self, _: &str, params: &Json, client: Client) -> Result<Json, Failure> {
        let form = match client.plain_hover {
            true => Form::Plain,
            false => Form::Markdown,
        };
        let hover = hover(&self.text, &self.outline, place(params)?, form);
        Ok(hover.unwrap_or(Json::Null))
    }

    fn completion(&self, _: &str, params: &Json, _: Client) -> Result<Json, Failure> {
        let (line, column) = place(params)?;
        Ok(completion(&self.text, &self.outline, line, column))
    }

    fn definition(&self, uri: &str, params: &Json, _: Client) -> Result<Json, Failure> {
        let found = names::definition(&self.text, uri, &self.outline, place(params)?);
        Ok(found.unwrap_or(Json::Null))
    }

    fn references(&self, uri: &str, params: &Json, _: Client) -> Result<Json, Failure> {
        let declared = params.at(&["context", "includeDeclaration"]);
        let declared = declared != Some(&Json::Bool(false));
        let place = place(params)?;
        let found = names::references(&self.text, uri, &self.outline, place, declared);
        Ok(found.unwrap_or(Json::Null))
    }

    fn prepare_rename(&self, _: &str, params: &Json, _: Client) -> Result<Json, Failure> {
        let (line, column) = place(params)?;
        let name = names::renamed(&self.text, &self.outline, line, column).map_err(refused)?;
        Ok(Json::object()
            .with("range", range_of(&self.text, line, &name.bytes))
            .with("placeholder", name.entity.name()))
    }

    fn rename(&self, uri: &str, params: &Json, _: Client) -> Result<Json, Failure> {
        let place = place(params)?;
        let new = params.get("newName").and_then(Json::text);
        let new = new.ok_or_else(|| Failure::params("newName"))?;
        names::rename(&self.text, uri, &self.outline, place, new).map_err(refused)
    }

    fn symbols(&self, uri: &str, _: &Json, client: Client) -> Result<Json, Failure> {
        let tree = client.symbol_tree;
        Ok(symbols::outline(&self.text, uri, &self.outline, tree))
    }

    fn actions(&self, uri: &str, params: &Json, _: Client) -> Result<Json, Failure> {
        let from = coordinate(params, &["range", "start", "line"])?;
        let to = coordinate(params, &["range", "end", "line"])?;
        if !wanted(params.at(&["context", "only"])) {
            return Ok(Json::List(Vec::new()));
        }
        let whole = self.whole.get_or_init(|| whole(&self.text)).as_ref();
        let found = self.found();
        Ok(found.actions(&self.text, uri, whole, (from, to)))
    }

    fn formatting(&self, _: &str, _: &Json, _: Client) -> Result<Json, Failure> {
        Ok(formatting(&self.text))
    }
}
