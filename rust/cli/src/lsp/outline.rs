//! What a text declares, also where it is not finished: classes, fields, methods
//! and variables, with their types and lines. Lines that have no form are passed
//! over.

use explain::script::shown;
use model::text::{line, Line};

/// Of a longer text, which is far from a script, nothing is named.
pub const NAMED_BYTES: usize = 2 * nuyardi::limits::TEXT_BYTES;

/// How a block has a name.
#[derive(Clone, Copy, Debug, PartialEq, Eq)]
pub enum Own {
    This,
    Param,
    Result,
    Local,
}

/// A field or a variable, its type, and its line from 1.
#[derive(Clone, Debug, PartialEq, Eq)]
pub struct Name {
    pub name: String,
    pub kind: String,
    pub line: u32,
}

#[derive(Clone, Debug)]
pub struct Method {
    pub name: String,
    pub result: String,
    pub param: Name,
    pub line: u32,
    /// Its place in the list of blocks.
    pub block: usize,
}

#[derive(Clone, Debug, Default)]
pub struct Class {
    pub name: String,
    pub line: u32,
    /// Its last line.
    pub to: u32,
    pub fields: Vec<Name>,
    pub methods: Vec<Method>,
}

/// A method or main: its lines and its names.
#[derive(Clone, Debug, Default)]
pub struct Block {
    pub from: u32,
    pub to: u32,
    pub names: Vec<(Own, Name)>,
}

#[derive(Clone, Debug, Default)]
pub struct Outline {
    pub classes: Vec<Class>,
    pub blocks: Vec<Block>,
}

impl Class {
    pub fn field(&self, name: &str) -> Option<&Name> {
        self.fields.iter().find(|field| field.name == name)
    }

    pub fn method(&self, name: &str) -> Option<&Method> {
        self.methods.iter().find(|method| method.name == name)
    }

    /// The fields that link to cards of this class: those of chains.
    pub fn links(&self) -> impl Iterator<Item = &Name> {
        self.fields.iter().filter(|field| field.kind == self.name)
    }
}

impl Block {
    pub fn name(&self, name: &str) -> Option<&(Own, Name)> {
        self.names.iter().find(|(_, known)| known.name == name)
    }

    /// Is it main, which has no `this`?
    pub fn is_main(&self) -> bool {
        self.names.iter().all(|(own, _)| *own == Own::Local)
    }
}

impl Outline {
    pub fn of(text: &[u8]) -> Outline {
        let mut outline = Outline::default();
        if text.len() > NAMED_BYTES {
            return outline;
        }
        let mut last = 0;
        for bytes in text.split_inclusive(|&byte| byte == b'\n') {
            last += 1;
            let bytes = bytes.strip_suffix(b"\n").unwrap_or(bytes);
            if let Some(line) = line(bytes) {
                outline.take(&line, last);
            }
        }
        outline.close_class(last);
        outline
    }

    /// The block that is open ends here, if it has not ended before.
    fn close_block(&mut self, line: u32) {
        if let Some(block) = self.blocks.last_mut().filter(|block| block.to == 0) {
            block.to = line.max(block.from);
        }
    }

    fn close_class(&mut self, line: u32) {
        self.close_block(line);
        if let Some(class) = self.classes.last_mut().filter(|class| class.to == 0) {
            class.to = line.max(class.line);
        }
    }

    fn take(&mut self, line: &Line, number: u32) {
        let named = |name: &[u8], kind: &[u8]| Name {
            name: shown(name),
            kind: shown(kind),
            line: number,
        };
        match *line {
            Line::Class(name) => {
                self.close_class(number - 1);
                self.classes.push(Class {
                    name: shown(name),
                    line: number,
                    ..Class::default()
                });
            }
            Line::Field { kind, name } => {
                if let Some(class) = self.classes.last_mut() {
                    class.fields.push(named(name, kind));
                }
            }
            Line::Method {
                result,
                name,
                kind,
                param,
            } => self.method(named(name, result), named(param, kind)),
            Line::Main => {
                self.close_class(number - 1);
                self.blocks.push(Block {
                    from: number,
                    ..Block::default()
                });
            }
            Line::Var { kind, name } => {
                if let Some(block) = self.blocks.last_mut() {
                    block.names.push((Own::Local, named(name, kind)));
                }
            }
            Line::End => self.close_block(number),
            _ => {}
        }
    }

    fn method(&mut self, method: Name, param: Name) {
        let line = method.line;
        self.close_block(line - 1);
        let own = |name: &str, kind: &str| Name {
            name: name.to_string(),
            kind: kind.to_string(),
            line,
        };
        let class = self.classes.last().map_or("", |class| &class.name);
        let names = vec![
            (Own::This, own("this", class)),
            (Own::Param, param.clone()),
            (Own::Result, own("result", &method.kind)),
        ];
        let block = self.blocks.len();
        self.blocks.push(Block {
            from: line,
            to: 0,
            names,
        });
        if let Some(class) = self.classes.last_mut() {
            class.methods.push(Method {
                name: method.name,
                result: method.kind,
                param,
                line,
                block,
            });
        }
    }

    pub fn class(&self, name: &str) -> Option<&Class> {
        self.classes.iter().find(|class| class.name == name)
    }

    /// The class that a line stands in, or after.
    pub fn class_at(&self, line: u32) -> Option<&Class> {
        self.classes.iter().rev().find(|class| class.line <= line)
    }

    /// The place of the block that a line stands in, or after.
    pub fn block_at(&self, line: u32) -> Option<usize> {
        self.blocks.iter().rposition(|block| block.from <= line)
    }

    /// A name of the block at a line.
    pub fn name(&self, line: u32, name: &str) -> Option<&(Own, Name)> {
        self.blocks[self.block_at(line)?].name(name)
    }

    /// The class of a variable at a line.
    pub fn class_of(&self, line: u32, variable: &str) -> Option<&Class> {
        self.class(&self.name(line, variable)?.1.kind)
    }
}
