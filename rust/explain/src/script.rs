//! A text as the model sees it, and its parts in the script's own names.

use model::checker::{Fact, Permission, State, Term};
use model::names::{
    Action, Atom, Block, Expr, Program, Type, Var, FIRST_LOCAL, PARAM, RESULT, THIS,
};
use model::text::{self, Line};
use std::ops::Range;

/// A text that the reader takes.
pub struct Script<'a> {
    /// The text.
    pub text: &'a [u8],
    /// Its lines.
    pub lines: Vec<Line<'a>>,
    /// Its program.
    pub program: Program<'a>,
}

/// A name of the text as a string.
pub fn shown(name: &[u8]) -> String {
    String::from_utf8_lossy(name).into_owned()
}

/// A line of the text, without its LF.
pub fn line(text: &[u8], number: u32) -> Option<&[u8]> {
    let at = usize::try_from(number).ok()?.checked_sub(1)?;
    let line = text.split_inclusive(|&byte| byte == b'\n').nth(at)?;
    Some(line.strip_suffix(b"\n").unwrap_or(line))
}

/// A line as messages quote it: its tabs as blanks, its ends trimmed.
pub fn quoted(text: &[u8], number: u32) -> String {
    let bytes = line(text, number).unwrap_or_default();
    let shown: String = bytes.iter().map(|&byte| crate::show::shown(byte)).collect();
    shown
}

/// Where a part of the line stands in it; none if it is no part of it.
pub fn place_in(line: &[u8], part: &[u8]) -> Option<Range<usize>> {
    let from = (part.as_ptr() as usize).checked_sub(line.as_ptr() as usize)?;
    let to = from.checked_add(part.len())?;
    (to <= line.len()).then_some(from..to)
}

/// The bytes of some fields of a line, by their places from 0.
pub fn field_range(line: &[u8], fields: Range<usize>) -> Option<Range<usize>> {
    let all = model::form::fields(line);
    let first = all.get(fields.start)?;
    let last = all.get(fields.end.min(all.len()).checked_sub(1)?)?;
    Some(first.0..last.0 + last.1.len())
}

/// `a`, `b` and `c`; each in the quotes of messages.
pub fn listed(items: &[String], last: &str) -> String {
    let quoted: Vec<String> = items.iter().map(|item| format!("`{item}`")).collect();
    match quoted.split_last() {
        None => String::new(),
        Some((only, [])) => only.clone(),
        Some((end, rest)) => format!("{} {last} {end}", rest.join(", ")),
    }
}

impl<'a> Script<'a> {
    /// None if the reader refuses the text.
    pub fn of(text: &'a [u8]) -> Option<Script<'a>> {
        let lines = text::lines(text).ok()?;
        let program = model::names::resolve(&lines).ok()?;
        Some(Script {
            text,
            lines,
            program,
        })
    }

    /// The place of the statement on a line.
    pub fn statement_at(&self, line: u32) -> Option<usize> {
        let found = |statement: &model::names::Statement| statement.line == line;
        self.program.statements.iter().position(found)
    }

    /// Is the statement at a place a `return`?
    pub fn returns(&self, place: usize) -> bool {
        matches!(self.program.statements[place].action, Action::Return(_))
    }

    /// The place of the block that a statement is in.
    pub fn block_of(&self, place: usize) -> usize {
        let blocks = self.program.blocks.iter();
        blocks
            .filter(|block| block.start <= place)
            .count()
            .saturating_sub(1)
    }

    /// The line on which a block starts: its `method` or `main`.
    pub fn block_line(&self, block: usize) -> u32 {
        let mut starts = self
            .lines
            .iter()
            .enumerate()
            .filter(|(_, line)| matches!(line, Line::Method { .. } | Line::Main));
        starts.nth(block).map_or(0, |(at, _)| at as u32 + 1)
    }

    /// The lines of a method's `requires` and `ensures`.
    pub fn contract_lines(&self, block: usize) -> (u32, u32) {
        let start = self.block_line(block);
        (start + 1, start + 2)
    }

    /// The names of a block.
    pub fn names(&self, block: usize) -> Names<'_, 'a> {
        Names {
            block: &self.program.blocks[block],
        }
    }

    /// The names at a statement.
    pub fn names_at(&self, place: usize) -> Names<'_, 'a> {
        self.names(self.block_of(place))
    }
}

/// Variables, terms and atoms in the names of one block.
#[derive(Clone, Copy)]
pub struct Names<'p, 'a> {
    /// The block.
    pub block: &'p Block<'a>,
}

impl<'a> Names<'_, 'a> {
    /// A variable's name.
    pub fn var(&self, var: Var) -> String {
        match (var, self.block.header) {
            (THIS, _) => "this".to_string(),
            (RESULT, _) => "result".to_string(),
            (PARAM, Some(header)) => shown(header.param.name),
            _ => {
                let local = var.checked_sub(FIRST_LOCAL);
                let local = local.and_then(|at| self.block.locals.get(at));
                local.map_or_else(|| format!("variable {var}"), |local| shown(local.name))
            }
        }
    }

    /// The type of a variable.
    pub fn kind(&self, var: Var) -> Option<Type<'a>> {
        let header = self.block.header;
        match var {
            THIS => header.map(|header| Type::Class(header.class)),
            RESULT => header.map(|header| header.result),
            PARAM => header.map(|header| header.param.kind),
            local => {
                let local = self.block.locals.get(local - FIRST_LOCAL)?;
                Some(local.kind)
            }
        }
    }

    /// An expression as the text has it.
    pub fn expr(&self, expr: Expr) -> String {
        match expr {
            Expr::Number(value) => value.to_string(),
            Expr::Null => "null".to_string(),
            Expr::Var(var) => self.var(var),
            Expr::Path(path) => format!("{}.{}", self.var(path.var), shown(path.field)),
        }
    }

    /// A term of the checker, written as an expression.
    pub fn term(&self, term: Term) -> String {
        match term {
            Term::Number(value) => value.to_string(),
            Term::Null => "null".to_string(),
            Term::Var(var) => self.var(var),
            Term::Path(var, field) => format!("{}.{}", self.var(var), shown(field)),
        }
    }

    /// An atom as the text has it, with blanks for tabs.
    pub fn atom(&self, atom: Atom) -> String {
        match atom {
            Atom::Permission(share, path) => {
                format!(
                    "{} {} {}",
                    share.word(),
                    self.var(path.var),
                    shown(path.field)
                )
            }
            Atom::Eq(left, right) => format!("eq {} {}", self.expr(left), self.expr(right)),
            Atom::Ne(left, right) => format!("ne {} {}", self.expr(left), self.expr(right)),
        }
    }

    /// What a state knows, as atoms: permissions first.
    pub fn state(&self, state: &State) -> Vec<String> {
        let permissions = state.permissions.iter().map(|held| self.held(held));
        let facts = state.facts.iter().map(|fact| self.fact(fact));
        permissions.chain(facts).collect()
    }

    /// A permission as an atom.
    pub fn held(&self, held: &Permission) -> String {
        let (var, field) = (self.var(held.var), shown(held.field));
        format!("{} {var} {field}", held.share.word())
    }

    /// A fact as an atom.
    pub fn fact(&self, fact: &Fact) -> String {
        let word = if fact.equal { "eq" } else { "ne" };
        format!("{word} {} {}", self.term(fact.left), self.term(fact.right))
    }

    /// How messages call the block.
    pub fn title(&self) -> String {
        match self.block.header {
            Some(header) => format!("`{}` of class {}", shown(header.name), shown(header.class)),
            None => "main".to_string(),
        }
    }
}
