//! Names and types: the numbers 6, 7 and 9, line by line, and the program that
//! comes of it.

use crate::faults::{Fault, Faults, Noted, Role};
use crate::number::{Reason, Refusal};
use crate::scope::{Scope, View};
use crate::text::{self, reserved, Line, Name};

pub use crate::program::*;

/// The pass over the lines: 6, 7 and 9 on each, and the program that grows.
struct Resolver<'a> {
    program: Program<'a>,
    /// The class that the line is in, a place in the list.
    class: usize,
    /// The block that the line is in, a place in the list.
    block: usize,
    classes_seen: usize,
    blocks_seen: usize,
    fields_seen: usize,
    locals_seen: usize,
    /// The open `if`, `else` and `loop` statements.
    open: Vec<usize>,
}

impl<'a> Resolver<'a> {
    fn type_name(&self, name: Name<'a>, faults: &mut Faults<'a>) {
        let known = name == b"int" || (!reserved(name) && self.program.class(name).is_some());
        let fault = match reserved(name) {
            true => Fault::Reserved(name),
            false => Fault::Undeclared(name, Role::Class),
        };
        faults.note_if(!known, Reason::Name, fault);
    }

    fn declaration(&mut self, line: &Line<'a>) -> Faults<'a> {
        let mut faults = Faults::default();
        match *line {
            Line::Class(name) => {
                self.class = self.classes_seen;
                self.classes_seen += 1;
                self.fields_seen = 0;
                let twice = self.program.class(name) != Some(self.class);
                faults.declared(name, twice);
            }
            Line::Field { kind, name } => {
                self.type_name(kind, &mut faults);
                let earlier = &self.program.classes[self.class].fields[..self.fields_seen];
                let twice = earlier.iter().any(|field| field.name == name);
                faults.declared(name, twice);
                self.fields_seen += 1;
            }
            Line::Method { .. } => self.method(&mut faults),
            Line::Main => self.start_block(),
            Line::Var { kind, name } => {
                self.type_name(kind, &mut faults);
                let block = &self.program.blocks[self.block];
                let earlier = &block.locals[..self.locals_seen];
                let twice = earlier.iter().any(|local| local.name == name)
                    || block.header.is_some_and(|header| header.param.name == name);
                faults.declared(name, twice);
                self.locals_seen += 1;
            }
            _ => unreachable!("a statement is no declaration"),
        }
        faults
    }

    fn start_block(&mut self) {
        self.block = self.blocks_seen;
        self.blocks_seen += 1;
        self.locals_seen = 0;
        self.program.blocks[self.block].start = self.program.statements.len();
    }

    fn method(&mut self, faults: &mut Faults<'a>) {
        self.start_block();
        let header = self.program.blocks[self.block].header.expect("a method");
        for kind in [header.result, header.param.kind] {
            if let Type::Class(name) = kind {
                self.type_name(name, faults);
            }
        }
        let twice = self.program.classes[self.class]
            .methods
            .iter()
            .take_while(|&&block| block < self.block)
            .filter_map(|&block| self.program.blocks[block].header)
            .any(|earlier| earlier.name == header.name);
        faults.declared(header.name, twice);
        faults.declared(header.param.name, false);
    }

    fn contract(&mut self, view: View, formula: &[text::Atom<'a>]) -> Faults<'a> {
        let block = &self.program.blocks[self.block];
        let mut scope = Scope::new(&self.program, block, view);
        let resolved = scope.formula(formula);
        let faults = scope.faults;
        if let Some(formula) = resolved {
            let block = &mut self.program.blocks[self.block];
            match view {
                View::Requires => block.requires = formula,
                _ => block.ensures = formula,
            }
        }
        faults
    }

    fn statement(&mut self, at: u32, line: &Line<'a>) -> Faults<'a> {
        let block = &self.program.blocks[self.block];
        let mut scope = Scope::new(&self.program, block, View::Body);
        let action = scope.statement(line);
        let faults = scope.faults;
        if let Some(action) = action {
            self.push(Statement { line: at, action });
        }
        faults
    }

    /// Puts the statement into the list and sets the targets that lead to it.
    fn push(&mut self, mut statement: Statement<'a>) {
        let here = self.program.statements.len();
        match &mut statement.action {
            Action::If(_) | Action::Loop(_) => self.open.push(here),
            Action::Again(start) => {
                *start = self.open.pop().expect("an again has a loop");
                if let Action::Loop(rounds) = &mut self.program.statements[*start].action {
                    rounds.again = here;
                }
            }
            Action::Else(_) => {
                let opened = *self.open.last().expect("an else has an if");
                if let Action::If(branch) = &mut self.program.statements[opened].action {
                    branch.other = here;
                }
                self.open.push(here);
            }
            Action::Join(_) => {
                for _ in 0..2 {
                    let opened = self.open.pop().expect("a join has an if and an else");
                    match &mut self.program.statements[opened].action {
                        Action::If(branch) => branch.join = here,
                        Action::Else(join) => *join = here,
                        _ => unreachable!("only if and else are open"),
                    }
                }
            }
            _ => {}
        }
        self.program.statements.push(statement);
    }

    fn line(&mut self, at: u32, line: &Line<'a>) -> Faults<'a> {
        match line {
            Line::Class(_)
            | Line::Field { .. }
            | Line::Method { .. }
            | Line::Main
            | Line::Var { .. } => self.declaration(line),
            Line::Requires(formula) => self.contract(View::Requires, formula),
            Line::Ensures(formula) => self.contract(View::Ensures, formula),
            _ => self.statement(at, line),
        }
    }
}

/// "then line by line 6, 7, 9 (for two on one line the lower)".
pub fn resolve<'a>(lines: &[Line<'a>]) -> Result<Program<'a>, Refusal> {
    resolve_noted(lines).map_err(|noted| noted.refusal)
}

/// The same; a refusal comes with its fault.
pub fn resolve_noted<'a>(lines: &[Line<'a>]) -> Result<Program<'a>, Box<Noted<'a>>> {
    let mut resolver = Resolver {
        program: declarations(lines),
        class: 0,
        block: 0,
        classes_seen: 0,
        blocks_seen: 0,
        fields_seen: 0,
        locals_seen: 0,
        open: Vec::new(),
    };
    for (index, line) in lines.iter().enumerate() {
        let at = index as u32 + 1;
        let faults = resolver.line(at, line);
        if let Some((reason, fault, atom)) = faults.lowest {
            let refusal = Refusal { reason, line: at };
            return Err(Box::new(Noted {
                refusal,
                fault,
                atom,
            }));
        }
    }
    Ok(resolver.program)
}
