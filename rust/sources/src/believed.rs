//! Which files a reader must believe: those of the claims, and all that they import.

use crate::documents::quoted;
use crate::root;
use std::collections::BTreeSet;
use std::fs;

/// The statements that docs/ASSURANCE.md makes, and what the contracts of the calls and of the programs are equations with.
pub const CLAIMS: [&str; 16] = [
    "crates/bound_runs/specs/Claims.antt",
    "crates/filling/specs/Claims.antt",
    "crates/joint/specs/Claims.antt",
    "crates/joint/specs/Counts.antt",
    "crates/rules/specs/Areas.antt",
    "crates/rules/specs/Demand.antt",
    "crates/rules/specs/Printed.antt",
    "crates/rules/specs/Refusals.antt",
    "crates/soundness/specs/AnyRun.antt",
    "crates/station/specs/Counts.antt",
    "crates/small_list/specs/Claims.antt",
    "crates/station/specs/Demand.antt",
    "crates/station/specs/Promises.antt",
    "crates/station/specs/Refusals.antt",
    "crates/unseen/specs/Handed.antt",
    "crates/unseen/specs/Unseen.antt",
];

/// The kit's library, whose definitions are the logic's.
const KIT: &str = "std";

/// The file of definitions that an import names: `use Rattle.rules.specs.State.{..}`. One of the kit's library is none of the
/// repository's, and a type that code declares is none.
pub fn imported(line: &str) -> Option<String> {
    let name = line.strip_prefix("pub ").unwrap_or(line);
    let name = name.strip_prefix("use Rattle.")?;
    let (krate, rest) = name.split_once('.')?;
    let module = rest.strip_prefix("specs.")?;
    let module = module.split(['.', ' ']).next()?;
    (krate != KIT && module != "declared").then(|| format!("crates/{krate}/specs/{module}.antt"))
}

/// These files and all that they import, with how to read one.
pub fn closure(starts: &[&str], read: impl Fn(&str) -> String) -> BTreeSet<String> {
    let mut todo: Vec<String> = starts.iter().map(|path| path.to_string()).collect();
    let mut seen = BTreeSet::new();
    while let Some(path) = todo.pop() {
        if seen.insert(path.clone()) {
            todo.extend(read(&path).lines().filter_map(imported));
        }
    }
    seen
}

/// What must be believed of the repository.
pub fn believed() -> BTreeSet<String> {
    closure(&CLAIMS, |path| {
        let text = fs::read_to_string(root().join(path));
        text.unwrap_or_else(|error| panic!("{path}: {error}"))
    })
}

/// The files that a page lists under the heading: a row for each crate, with its modules.
pub fn listed(page: &str, heading: &str) -> BTreeSet<String> {
    let lines = page.lines().skip_while(|line| *line != heading).skip(1);
    let section = lines.take_while(|line| !line.starts_with("## "));
    let mut files = BTreeSet::new();
    for line in section {
        let mut cells = line.split('|').skip(1);
        let (Some(first), Some(second)) = (cells.next(), cells.next()) else {
            continue;
        };
        for krate in quoted(first) {
            let modules = quoted(second);
            files.extend(modules.map(|module| format!("crates/{krate}/specs/{module}.antt")));
        }
    }
    files
}
