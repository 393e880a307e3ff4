//! What nobody uses: laws, definitions, types and functions, and imports.

use crate::{declarations, imports, words, Declaration, Import, Source, Uses};

/// A file with what it declares, imports and names.
pub struct File {
    source: Source,
    declared: Vec<Declaration>,
    imported: Vec<Import>,
    uses: Uses,
}

impl File {
    pub fn of(source: Source) -> File {
        let declared = declarations(&source);
        let imported = imports(&source.text);
        let uses = Uses::of(&source, &declared);
        File {
            source,
            declared,
            imported,
            uses,
        }
    }

    /// Does it import this name of that file's module, and use it?
    fn takes(&self, name: &str, from: &File) -> bool {
        let Some(module) = from.source.module() else {
            return self.source.is_code() && self.uses.names(name, &self.declared, None);
        };
        let imported = self.imported.iter().any(|import| {
            import.crate_name.as_deref() == Some(&from.source.crate_name)
                && import.module == module
                && import.takes(name)
        });
        imported && self.uses.names(name, &self.declared, None)
    }
}

/// Names that stand for themselves: the program's entry, the umbrella over a file's definitions, and the conversion that `?` calls.
const FREE: [&str; 3] = ["main", "opened", "from"];

/// The declarations that no file uses and no document names in backquotes. Answers are left out: each serves its function.
pub fn unused_declarations(files: &[File], documents: &str) -> Vec<String> {
    let mut unused = Vec::new();
    for file in files.iter().filter(|file| !file.source.is_answer()) {
        for (number, one) in file.declared.iter().enumerate() {
            let name = one.name.as_str();
            let said = |before: &str| documents.contains(&format!("{before}{name}`"));
            let free = FREE.contains(&name) || said("`") || said("::");
            let here = file.uses.names(name, &file.declared, Some(number));
            let elsewhere = || {
                let others = files.iter().filter(|other| !std::ptr::eq(*other, file));
                one.public && others.into_iter().any(|other| other.takes(name, file))
            };
            if !free && !here && !elsewhere() {
                unused.push(format!("{}: {name}", file.source.line(one.first)));
            }
        }
    }
    unused
}

/// The names and modules that a file imports and does not use.
pub fn unused_imports(files: &[File]) -> Vec<String> {
    let mut unused = Vec::new();
    for file in files {
        for import in &file.imported {
            let taken = import.names.iter().flatten().map(|(_, name)| name);
            for name in taken.chain(&import.alias) {
                let brackets = words(name).next().is_none() && file.source.text.contains(name);
                if !brackets && !file.uses.names(name, &[], None) {
                    let path = file.source.path();
                    unused.push(format!("{path}: {name} of {}", import.module));
                }
            }
        }
    }
    unused
}
