//! W8: read shares. The tests go by the readings W8.1 to W8.8 (`../README.md`).

mod adding;
#[path = "../common/mod.rs"]
mod common;
mod form;
mod generated;
mod machine;
mod showing;
mod watched;

use common::{main_with, script, S};
use model::names::Var;
use model::text::{self, Share};
use model::watch::Record;
use model::{check, read};

/// A class `S` and a method `int m S w` with this contract and body; the
/// contract is on the lines 5 and 6, the first line of the body is line 9.
pub fn method(requires: &str, ensures: &str, body: &str) -> String {
    format!(
        "{S}method int m S w\nrequires {requires}\nensures {ensures}\nvar S x\nvar int i\n{body}\n\
         end\nmain\nend"
    )
    .replace(" \n", "\n")
}

/// The checks of methods with nothing to ensure: requires, body, number, line.
pub fn methods(cases: &[(&str, &str, u32, u32)]) {
    for &(requires, body, number, line) in cases {
        let text = script(&method(requires, "", body));
        assert_eq!(check(&text), (number, line), "{requires}\n{body}");
    }
}

/// The checks of mains by their statements, the first on line 9.
pub fn mains(cases: &[(&str, u32, u32)]) {
    for &(statements, number, line) in cases {
        let text = script(&main_with(statements));
        assert_eq!(check(&text), (number, line), "{statements}");
    }
}

/// A listed permission: its share, its variable and its field.
pub type Listed = (Share, Var, String);

pub fn listed(share: Share, var: Var, field: &str) -> Listed {
    (share, var, field.to_string())
}

/// The permissions that are listed before the statement on a line, in order.
pub fn listed_before(source: &str, line: u32) -> Vec<Listed> {
    let bytes = script(source);
    let lines = text::lines(&bytes).expect("lines");
    let program = read(&bytes).expect("a program");
    let record = Record::of(&lines, &program).expect("number 10 does not come up");
    let mut statements = program.statements.iter();
    let place = statements.position(|statement| statement.line == line);
    let seen = &record.seen[place.expect("a statement")];
    let state = seen.before.as_ref().expect("the check comes there");
    let permissions = state.permissions.iter().map(|held| {
        let field = String::from_utf8_lossy(held.field).into_owned();
        (held.share, held.var, field)
    });
    permissions.collect()
}
