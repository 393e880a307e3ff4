//! The reader of lines: where each may stand and how many there may be, with
//! the numbers 2, 3, 4, 5 and 8.

use crate::limits;
use crate::number::{Reason, Refusal};
use crate::text::{line, Line};

/// The two kinds of block.
#[derive(Clone, Copy, Debug, PartialEq, Eq)]
pub enum Block {
    Method,
    Main,
}

/// Where in the text the next line stands.
#[derive(Clone, Copy, Debug, PartialEq, Eq)]
pub enum Place {
    /// Before the first class.
    Start,
    /// After `class` or `field`.
    Fields,
    /// After a method's `end`.
    Methods,
    /// After `method`: `requires` must come.
    Requires,
    /// After `requires`: `ensures` must come.
    Ensures,
    /// Before a block's first statement.
    Vars(Block),
    /// After a block's first statement.
    Body(Block),
    /// After main's `end`: "Nothing follows."
    Done,
}

/// The open part that the next line stands in: a branch of an `if`, or the body
/// of a `loop`.
#[derive(Clone, Copy, Debug, PartialEq, Eq)]
pub enum Branch {
    First,
    Second,
    Loop,
}

/// A limit of the text.
#[derive(Clone, Copy, Debug, PartialEq, Eq)]
#[non_exhaustive]
pub enum Limit {
    Classes,
    Fields,
    Methods,
    Locals,
    Statements,
    Nesting,
}

/// The place of the next line, and how much of each limit is used.
#[derive(Clone, Debug)]
pub struct Reader {
    pub place: Place,
    /// The open branches and loops, the innermost last: "Loops count toward the
    /// nesting limit of 4".
    pub branches: Vec<Branch>,
    /// Was the last line a `return`?
    pub returned: bool,
    classes: usize,
    fields: usize,
    methods: usize,
    locals: usize,
    statements: usize,
}

impl Default for Reader {
    fn default() -> Reader {
        Reader::new()
    }
}

impl Reader {
    /// Before the first line.
    pub fn new() -> Reader {
        Reader {
            place: Place::Start,
            branches: Vec::new(),
            returned: false,
            classes: 0,
            fields: 0,
            methods: 0,
            locals: 0,
            statements: 0,
        }
    }

    /// Takes the line if it may stand here; false is number 4.
    pub fn step(&mut self, line: &Line) -> bool {
        use Place::*;
        self.place = match (self.place, line) {
            (Start | Fields | Methods, Line::Class(_)) => Fields,
            (Fields, Line::Field { .. }) => Fields,
            (Fields | Methods, Line::Method { .. }) => Requires,
            (Requires, Line::Requires(_)) => Ensures,
            (Ensures, Line::Ensures(_)) => Vars(Block::Method),
            (Start | Fields | Methods, Line::Main) => Vars(Block::Main),
            (Vars(block), Line::Var { .. }) => Vars(block),
            (Vars(block) | Body(block), line) => match self.statement(block, line) {
                Some(place) => place,
                None => return false,
            },
            _ => return false,
        };
        self.returned = matches!(line, Line::Return(_));
        true
    }

    /// The place after a statement line, or none if it may not stand here. W2:
    /// "A statement between [a `return`] and the next `else`, `join` or `end` is
    /// number 4", and W5: "A `return` may also stand last before `again`".
    fn statement(&mut self, block: Block, line: &Line) -> Option<Place> {
        let closes = matches!(line, Line::Else | Line::Join(_) | Line::Again | Line::End);
        if self.returned && !closes {
            return None;
        }
        match line {
            _ if plain(line) => {}
            // "`return x` (methods only)"
            Line::Return(_) if block == Block::Method => {}
            Line::If(_) => self.branches.push(Branch::First),
            Line::Else if self.branches.last() == Some(&Branch::First) => {
                self.branches.pop();
                self.branches.push(Branch::Second);
            }
            Line::Join(_) if self.branches.last() == Some(&Branch::Second) => {
                self.branches.pop();
            }
            Line::Loop(..) => self.branches.push(Branch::Loop),
            // "`again` closes it"
            Line::Again if self.branches.last() == Some(&Branch::Loop) => {
                self.branches.pop();
            }
            Line::End if self.branches.is_empty() => {
                return Some(match block {
                    Block::Method => Place::Methods,
                    Block::Main => Place::Done,
                });
            }
            _ => return None,
        }
        Some(Place::Body(block))
    }

    /// Counts the line; false is number 5, a limit of the text passed.
    pub fn count(&mut self, line: &Line) -> bool {
        match line {
            Line::Class(_) => {
                self.classes += 1;
                self.fields = 0;
            }
            Line::Field { .. } => self.fields += 1,
            Line::Method { .. } => {
                self.methods += 1;
                self.locals = 0;
            }
            Line::Main => self.locals = 0,
            Line::Var { .. } => self.locals += 1,
            Line::Requires(_) | Line::Ensures(_) => {}
            _ => self.statements += 1,
        }
        self.passed().is_none()
    }

    /// The limit that is passed.
    pub fn passed(&self) -> Option<Limit> {
        [
            (Limit::Classes, self.classes, limits::CLASSES),
            (Limit::Fields, self.fields, limits::FIELDS),
            (Limit::Methods, self.methods, limits::METHODS),
            (Limit::Locals, self.locals, limits::LOCALS),
            (Limit::Statements, self.statements, limits::STATEMENT_LINES),
            (Limit::Nesting, self.branches.len(), limits::NESTING),
        ]
        .into_iter()
        .find_map(|(limit, used, most)| (used > most).then_some(limit))
    }
}

/// Is it a statement that may stand among others in every block?
fn plain(line: &Line) -> bool {
    matches!(
        line,
        Line::Set(..)
            | Line::Let(..)
            | Line::Compute(..)
            | Line::New(..)
            | Line::Call(..)
            | Line::Open(..)
            | Line::Shut(..)
            | Line::Assert(_)
            | Line::Release(_)
    )
}

/// "byte other than tab, LF, 33 to 126"
pub fn allowed_byte(byte: &u8) -> bool {
    matches!(byte, b'\t' | b'\n' | 33..=126)
}

/// Reads the text: 2; then line by line 3, 4, 5; then 8. Line n of the text is
/// entry n - 1 of the list.
pub fn lines(text: &[u8]) -> Result<Vec<Line<'_>>, Refusal> {
    lines_by(&mut Reader::new(), text)
}

/// The same, with a fresh reader that the caller looks at afterwards: for 4 it
/// stands before the refused line, for 5 after it, for 8 at the end.
pub fn lines_by<'a>(reader: &mut Reader, text: &'a [u8]) -> Result<Vec<Line<'a>>, Refusal> {
    let refuse = |reason, line: usize| Refusal {
        reason,
        line: line as u32,
    };
    if text.len() > limits::TEXT_BYTES {
        return Err(refuse(Reason::TooLong, 0));
    }
    let mut lines = Vec::new();
    for bytes in text.split_inclusive(|&byte| byte == b'\n') {
        let at = lines.len() + 1;
        if !bytes.ends_with(b"\n") || !bytes.iter().all(allowed_byte) {
            return Err(refuse(Reason::Byte, at));
        }
        let line = line(&bytes[..bytes.len() - 1])
            .filter(|line| reader.step(line))
            .ok_or(refuse(Reason::Form, at))?;
        if !reader.count(&line) {
            return Err(refuse(Reason::Limit, at));
        }
        lines.push(line);
    }
    if reader.place != Place::Done {
        return Err(refuse(Reason::Unfinished, lines.len()));
    }
    Ok(lines)
}
