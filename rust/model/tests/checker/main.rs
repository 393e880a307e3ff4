//! The rules of the checker's state, one by one.

#[path = "../common/mod.rs"]
mod common;
mod known;
mod statements;

use common::S;

/// A class `S` and a method `S m S w` with this contract and body; the first
/// line of the body is line 11.
pub fn method(requires: &str, ensures: &str, body: &str) -> String {
    format!(
        "{S}method S m S w\nrequires {requires}\nensures {ensures}\nvar S x\nvar S y\nvar int i\n\
         var int j\n{body}\nend\nmain\nend"
    )
    .replace(" \n", "\n")
}
