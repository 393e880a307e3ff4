//! W9: chains of cards. The tests go by the readings W9.0 to W9.9
//! (`../README.md`).

#[path = "../common/mod.rs"]
mod common;
mod form;
mod machine;
mod open;
mod scripts;
mod showing;
mod shut;
mod watched;

use common::script;
use model::checker::State;
use model::names::Var;
use model::text::{self, Share};
use model::watch::Record;
use model::{check, read};

/// Two classes with fields by which a chain goes, and fields by which none does.
const CARDS: &str = "class T\nfield T p\nclass S\nfield S p\nfield S q\nfield int n\nfield T t\n";

/// Main's variables after the classes; the first statement is on line 14.
pub fn main_with(statements: &str) -> String {
    format!("{CARDS}main\nvar S s\nvar S t\nvar S u\nvar int a\nvar T k\n{statements}\nend")
}

/// A method `int m S w` of S with this contract and body; the contract is on the
/// lines 9 and 10, the first line of the body is line 15.
pub fn method(requires: &str, ensures: &str, body: &str) -> String {
    format!(
        "{CARDS}method int m S w\nrequires {requires}\nensures {ensures}\nvar S x\nvar S y\n\
         var int i\nvar T k\n{body}\nend\nmain\nend"
    )
    .replace(" \n", "\n")
}

/// The checks of methods with nothing to ensure: requires, body, number, line.
pub fn methods(cases: &[(&str, &str, u32, u32)]) {
    for &(requires, body, number, line) in cases {
        let text = script(&method(requires, "", body));
        assert_eq!(check(&text), (number, line), "{requires}\n{body}");
    }
}

/// The checks of mains by their statements.
pub fn mains(cases: &[(&str, u32, u32)]) {
    for &(statements, number, line) in cases {
        let text = script(&main_with(statements));
        assert_eq!(check(&text), (number, line), "{statements}");
    }
}

/// Looks at the state before the statement on a line.
pub fn before<T>(source: &str, line: u32, look: impl FnOnce(&State) -> T) -> T {
    let bytes = script(source);
    let lines = text::lines(&bytes).expect("lines");
    let program = read(&bytes).expect("a program");
    let record = Record::of(&lines, &program).expect("number 10 does not come up");
    let mut statements = program.statements.iter();
    let place = statements.position(|statement| statement.line == line);
    let seen = &record.seen[place.expect("a statement")];
    look(seen.before.as_ref().expect("the check comes there"))
}

/// A listed permission: its share, its variable and its field.
pub type Listed = (Share, Var, String);

pub fn listed(share: Share, var: Var, field: &str) -> Listed {
    (share, var, field.to_string())
}

/// The permissions that are listed before the statement on a line, in order.
pub fn listed_before(source: &str, line: u32) -> Vec<Listed> {
    before(source, line, |state| {
        let permissions = state.permissions.iter().map(|held| {
            let field = String::from_utf8_lossy(held.field).into_owned();
            (held.share, held.var, field)
        });
        permissions.collect()
    })
}
