//! The `use` lines of a file.

/// `use PATH.{names}` or `use PATH as name`; of code, `use PATH::{names}`.
pub struct Import {
    /// The crate of the repository, where it is one: `rules` of `Rattle.rules.specs.Base`.
    pub crate_name: Option<String>,
    /// The module in it: `specs.Base`.
    pub module: String,
    /// The names taken, with the names that they get here; none where the whole module is.
    pub names: Option<Vec<(String, String)>>,
    /// The name that the module gets here.
    pub alias: Option<String>,
    first: usize,
    end: usize,
}

impl Import {
    pub fn covers(&self, line: usize) -> bool {
        self.first <= line && line < self.end
    }

    /// Does it take this name of its module?
    pub fn takes(&self, name: &str) -> bool {
        match &self.names {
            Some(names) => names.iter().any(|(taken, _)| taken == name),
            None => true,
        }
    }
}

fn taken(names: &str) -> Vec<(String, String)> {
    names
        .split(',')
        .map(str::trim)
        .filter(|name| !name.is_empty())
        .map(|name| match name.split_once(" as ") {
            Some((name, here)) => (name.to_string(), here.to_string()),
            None => (name.to_string(), name.to_string()),
        })
        .collect()
}

/// The crate and the module of a path: `Rattle.rules.specs.Base`.
fn parted(path: &str) -> (Option<String>, String) {
    let Some(rest) = path.strip_prefix("Rattle.") else {
        return (None, path.to_string());
    };
    let (name, module) = rest.split_once('.').unwrap_or((rest, ""));
    (Some(name.to_string()), module.to_string())
}

fn read(statement: &str, first: usize, end: usize) -> Import {
    let body = statement.trim().trim_end_matches(';');
    let (path, names) = match (body.split_once(".{"), body.split_once("::{")) {
        (Some((path, names)), _) => (path, Some(taken(names.trim_end_matches('}')))),
        // What code takes in a group is not looked at: a trait is used by its methods, without its name.
        (None, Some((path, _))) => (path, None),
        (None, None) => (body, None),
    };
    let (path, alias) = match path.split_once(" as ") {
        Some((path, alias)) => (path, Some(alias.trim().to_string())),
        None => (path, None),
    };
    let (crate_name, module) = parted(path.trim());
    Import {
        crate_name,
        module,
        names,
        alias,
        first,
        end,
    }
}

/// The imports of a file, each from its line to the line after it.
pub fn imports(text: &str) -> Vec<Import> {
    let lines: Vec<_> = text.lines().collect();
    let mut found = Vec::new();
    let mut at = 0;
    while at < lines.len() {
        let line = lines[at].trim_start();
        let line = line.strip_prefix("ghost ").unwrap_or(line);
        let line = line.strip_prefix("pub ").unwrap_or(line);
        let Some(rest) = line.strip_prefix("use ") else {
            at += 1;
            continue;
        };
        let first = at;
        let mut statement = rest.to_string();
        while statement.contains('{') && !statement.contains('}') && at + 1 < lines.len() {
            at += 1;
            statement.push_str(lines[at]);
        }
        at += 1;
        found.push(read(&statement, first, at));
    }
    found
}
