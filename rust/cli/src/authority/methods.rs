//! Question 1, read off the text: what each method is handed, writes, only
//! reads and does not give back, which cards it makes, and where it is called.

use super::handed::{Contracts, Permission, Share};
use explain::script::{shown, Script};
use model::names::{Action, Expr, Path, Statement, THIS};

/// A field that a method is handed.
pub struct Handed {
    pub share: Share<String>,
    pub path: String,
    /// Does `ensures` give as many halves back, by its own name or an equal one?
    /// What it gives by another name may be the same card.
    pub back: bool,
    /// Does `ensures` give a chain by its name, which may have other cards?
    pub perhaps: bool,
    /// Can a line of the method, or of one that it calls, write it?
    pub written: bool,
}

/// A line that writes a field.
#[derive(PartialEq, Eq)]
pub struct Written {
    pub path: String,
    pub line: u32,
    /// The method that the line calls, if that writes it.
    pub by: Option<String>,
}

/// A method, or main.
pub struct Row {
    /// The name and class of a method.
    pub method: Option<(String, String)>,
    pub line: u32,
    pub handed: Vec<Handed>,
    pub written: Vec<Written>,
    /// Classes, and the lines of their `new`.
    pub makes: Vec<(String, u32)>,
    /// Blocks, and the lines of their calls.
    pub callers: Vec<(String, u32)>,
}

/// A write to a field of a variable, by a `set` or by a method that is called, or to
/// one of a chain.
struct Write<'a> {
    to: Permission<'a>,
    /// The place of its statement.
    place: usize,
    line: u32,
    by: Option<usize>,
}

/// Of each block what it is handed, and which of that may be written.
struct Blocks<'s, 'a> {
    script: &'s Script<'a>,
    contracts: Contracts<'s, 'a>,
    handed: Vec<Vec<Permission<'a>>>,
    altered: Vec<Vec<bool>>,
}

impl<'s, 'a> Blocks<'s, 'a> {
    fn of(script: &'s Script<'a>) -> Blocks<'s, 'a> {
        let contracts = Contracts::of(script);
        let blocks = 0..script.program.blocks.len();
        let handed: Vec<Vec<Permission>> = blocks.map(|block| contracts.handed(block)).collect();
        let altered = handed.iter().map(|all| vec![false; all.len()]).collect();
        let mut blocks = Blocks {
            script,
            contracts,
            handed,
            altered,
        };
        while blocks.more() {}
        blocks
    }

    /// Notes what is written by what is known to be written so far; is there
    /// something new?
    fn more(&mut self) -> bool {
        let found: Vec<Vec<bool>> = (0..self.handed.len())
            .map(|block| {
                let writes = self.writes(block);
                let hit = |at| writes.iter().any(|write| self.may_hit(block, write, at));
                (0..self.handed[block].len()).map(hit).collect()
            })
            .collect();
        let new = found != self.altered;
        self.altered = found;
        new
    }

    fn writes(&self, block: usize) -> Vec<Write<'a>> {
        let first = self.script.program.blocks[block].start;
        let body = (first..).zip(self.script.program.body(block));
        body.flat_map(|(place, statement)| self.writes_of(place, statement))
            .collect()
    }

    fn writes_of(&self, place: usize, statement: &Statement<'a>) -> Vec<Write<'a>> {
        let line = statement.line;
        match statement.action {
            Action::Set(path, _) => vec![Write {
                to: Permission {
                    path,
                    share: Share::Whole,
                },
                place,
                line,
                by: None,
            }],
            Action::Call(call) => {
                let handed = self.handed[call.method].iter();
                let handed = handed.zip(&self.altered[call.method]);
                let two = self.contracts.differ(place, call.y, call.z);
                let written = handed.filter(|(handed, altered)| {
                    **altered && !(two && matches!(handed.share, Share::Either(_)))
                });
                let write = written.map(|(handed, _)| Write {
                    to: Permission {
                        path: Path {
                            var: if handed.path.var == THIS {
                                call.y
                            } else {
                                call.z
                            },
                            ..handed.path
                        },
                        ..*handed
                    },
                    place,
                    line,
                    by: Some(call.method),
                });
                write.collect()
            }
            _ => Vec::new(),
        }
    }

    /// May a write hit a field that its block is handed? One of which it has a half
    /// keeps its value. The names of `this` and of the parameter stay; other
    /// variables may be either, unless the checker knows better.
    fn may_hit(&self, block: usize, write: &Write<'a>, at: usize) -> bool {
        let handed = self.handed[block][at];
        let Permission { path, share } = handed;
        let Path { var, field, .. } = write.to.path;
        let alike = self.contracts.alike(block, path.var, var);
        if path.field != field || share == Share::Half || !alike {
            return false;
        }
        if [share, write.to.share].contains(&Share::Chain) {
            // What is next to the other before the line has no card of it.
            let (one, other) = (write.to.atom(), handed.atom());
            return !self.contracts.beside(write.place, one, other);
        }
        let same = self.contracts.same(block, path.var);
        if same.contains(&Expr::Var(var)) {
            return true;
        }
        let mut others = self.handed[block].iter();
        let apart = others.any(|other| {
            (other.path.var, other.path.field) == (var, field) && share.apart(&other.share)
        });
        !apart && !self.contracts.differ(write.place, path.var, var)
    }

    /// A path, or the atom of a chain, in the block's names.
    fn told(&self, block: usize, its: &Permission<'a>) -> String {
        let names = self.script.names(block);
        match its.share {
            Share::Chain => names.atom(its.atom()),
            _ => names.expr(Expr::Path(its.path)),
        }
    }

    /// What a block is handed: how much of it, whether it comes back, and whether it
    /// may be written.
    fn handed_to(&self, block: usize, its: Permission<'a>, written: bool) -> Handed {
        let perhaps = self.contracts.back(block, its);
        let names = self.script.names(block);
        Handed {
            share: match its.share {
                Share::Whole => Share::Whole,
                Share::Half => Share::Half,
                Share::Either(other) => Share::Either(names.expr(Expr::Path(other))),
                Share::Chain => Share::Chain,
            },
            path: self.told(block, &its),
            back: perhaps && !(written && its.share == Share::Chain),
            perhaps,
            written,
        }
    }

    fn row(&self, block: usize) -> Row {
        let header = self.script.program.blocks[block].header;
        let handed = self.handed[block].iter().zip(&self.altered[block]);
        let mut written: Vec<Written> = Vec::new();
        for write in self.writes(block) {
            let name = |method| block_name(self.script, method);
            let write = Written {
                path: self.told(block, &write.to),
                line: write.line,
                by: write.by.map(name),
            };
            if !written.contains(&write) {
                written.push(write);
            }
        }
        Row {
            method: header.map(|header| (shown(header.name), shown(header.class))),
            line: self.script.block_line(block),
            handed: handed
                .map(|(&its, &written)| self.handed_to(block, its, written))
                .collect(),
            written,
            makes: makes(self.script, block),
            callers: callers(self.script, block),
        }
    }
}

/// The name of a method, or `main`.
pub fn block_name(script: &Script, block: usize) -> String {
    let header = script.program.blocks[block].header;
    header.map_or("main".to_string(), |header| shown(header.name))
}

fn makes(script: &Script, block: usize) -> Vec<(String, u32)> {
    let body = script.program.body(block).iter();
    let made = body.filter_map(|statement| match statement.action {
        Action::New(_, class) => Some((shown(script.program.classes[class].name), statement.line)),
        _ => None,
    });
    made.collect()
}

fn callers(script: &Script, block: usize) -> Vec<(String, u32)> {
    let blocks = 0..script.program.blocks.len();
    let calls = blocks.flat_map(|caller| {
        let body = script.program.body(caller).iter();
        let here = body.filter(
            move |statement| matches!(statement.action, Action::Call(call) if call.method == block),
        );
        here.map(move |statement| (block_name(script, caller), statement.line))
    });
    calls.collect()
}

/// A row for each method, and one for main.
pub fn rows(script: &Script) -> Vec<Row> {
    let blocks = Blocks::of(script);
    (0..script.program.blocks.len())
        .map(|block| blocks.row(block))
        .collect()
}
