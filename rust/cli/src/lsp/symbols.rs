//! The outline of a text for an editor: classes with their fields and methods,
//! main, and their variables.

use super::outline::{Block, Class, Name, Outline, Own};
use super::places::{lines, location};
use explain::Json;

/// The kinds of symbols, as the protocol numbers them.
#[derive(Clone, Copy)]
enum SymbolKind {
    Class = 5,
    Method = 6,
    Field = 8,
    Function = 12,
    Variable = 13,
}

/// A symbol with those in it; lines from 1.
struct Symbol {
    name: String,
    detail: String,
    kind: SymbolKind,
    from: u32,
    to: u32,
    inner: Vec<Symbol>,
}

fn leaf(kind: SymbolKind, name: &Name) -> Symbol {
    Symbol {
        name: name.name.clone(),
        detail: name.kind.clone(),
        kind,
        from: name.line,
        to: name.line,
        inner: Vec::new(),
    }
}

/// The parameter and the variables of a block.
fn variables(block: &Block) -> Vec<Symbol> {
    let names = block.names.iter();
    let written = names.filter(|(own, _)| matches!(own, Own::Param | Own::Local));
    written
        .map(|(_, name)| leaf(SymbolKind::Variable, name))
        .collect()
}

fn class_symbol(outline: &Outline, class: &Class) -> Symbol {
    let fields = class.fields.iter();
    let fields = fields.map(|field| leaf(SymbolKind::Field, field));
    let methods = class.methods.iter().map(|method| {
        let block = &outline.blocks[method.block];
        Symbol {
            name: method.name.clone(),
            detail: format!(
                "{} {} {}",
                method.result, method.param.kind, method.param.name
            ),
            kind: SymbolKind::Method,
            from: method.line,
            to: block.to,
            inner: variables(block),
        }
    });
    Symbol {
        name: class.name.clone(),
        detail: String::new(),
        kind: SymbolKind::Class,
        from: class.line,
        to: class.to,
        inner: fields.chain(methods).collect(),
    }
}

fn symbols(outline: &Outline) -> Vec<Symbol> {
    let classes = outline.classes.iter();
    let classes = classes.map(|class| class_symbol(outline, class));
    let mains = outline.blocks.iter().filter(|block| block.is_main());
    let mains = mains.map(|block| Symbol {
        name: "main".to_string(),
        detail: String::new(),
        kind: SymbolKind::Function,
        from: block.from,
        to: block.to,
        inner: variables(block),
    });
    classes.chain(mains).collect()
}

fn nested(text: &str, symbol: &Symbol) -> Json {
    let inner = symbol.inner.iter().map(|inner| nested(text, inner));
    let (from, to) = (symbol.from - 1, symbol.to - 1);
    Json::object()
        .with("name", symbol.name.as_str())
        .with("detail", symbol.detail.as_str())
        .with("kind", symbol.kind as u32)
        .with("range", lines(text, from, to))
        .with("selectionRange", lines(text, from, from))
        .with("children", Json::List(inner.collect()))
}

fn flat(text: &str, uri: &str, symbol: &Symbol, within: Option<&str>, out: &mut Vec<Json>) {
    let range = lines(text, symbol.from - 1, symbol.to - 1);
    let object = Json::object()
        .with("name", symbol.name.as_str())
        .with("kind", symbol.kind as u32)
        .with("location", location(uri, range))
        .with_some("containerName", within);
    out.push(object);
    for inner in &symbol.inner {
        flat(text, uri, inner, Some(&symbol.name), out);
    }
}

/// The symbols of a text: in each other for clients that take it so, else a list.
pub fn outline(text: &str, uri: &str, outline: &Outline, tree: bool) -> Json {
    let symbols = symbols(outline);
    if tree {
        return Json::List(symbols.iter().map(|symbol| nested(text, symbol)).collect());
    }
    let mut all = Vec::new();
    for symbol in &symbols {
        flat(text, uri, symbol, None, &mut all);
    }
    Json::List(all)
}
