//! W14: all small scripts. "For the course we want each accepted main of 0 to 3
//! statements over `class S`, `field int n`, `var S s`, `var int a`."

use crate::check;
use crate::number::DONE;

/// "The statements, in this order", place n at entry n - 1.
pub const STATEMENTS: [&str; 5] = [
    "new\ts\tS",
    "let\ta\ts.n",
    "let\ta\t7",
    "set\ts\tn\ta",
    "release\tacc\ts\tn",
];

/// "0 to 3 statements"
pub const MOST: usize = 3;

/// The places of a main's statements, from 1.
pub type Places = Vec<usize>;

/// The text with these statements in its main.
pub fn text(places: &[usize]) -> String {
    let statements: String = places
        .iter()
        .map(|place| format!("{}\n", STATEMENTS[place - 1]))
        .collect();
    format!("class\tS\nfield\tint\tn\nmain\nvar\tS\ts\nvar\tint\ta\n{statements}end\n")
}

/// All mains, accepted or not: "Shorter ones come first, then by the first statement
/// that differs."
pub fn mains() -> Vec<Places> {
    let mut all = vec![Places::new()];
    let mut last = all.clone();
    for _ in 0..MOST {
        last = last.iter().flat_map(longer).collect();
        all.extend(last.iter().cloned());
    }
    all
}

/// A main with one statement more, each in turn.
fn longer(main: &Places) -> impl Iterator<Item = Places> + '_ {
    (1..=STATEMENTS.len()).map(|place| [&main[..], &[place]].concat())
}

/// "A program prints one a line, as the places from 1 of its statements without gaps;
/// the empty one is an empty line."
pub fn small() -> String {
    let accepted = |main: &Places| check(text(main).as_bytes()).0 == DONE;
    let line = |main: Places| main.iter().map(usize::to_string).collect::<String>() + "\n";
    mains().into_iter().filter(accepted).map(line).collect()
}
