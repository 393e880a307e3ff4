//! The program with its names resolved, and what the text declares.

use crate::limits;
use crate::text::{Line, Name, Operator, Share};

/// The place of a variable in a frame. The places rise in the paper's order:
/// "`this`, w, locals, `result`".
pub type Var = usize;
pub const THIS: Var = 0;
pub const PARAM: Var = 1;
pub const FIRST_LOCAL: Var = 2;
pub const RESULT: Var = FIRST_LOCAL + limits::LOCALS;
/// The number of places.
pub const VARS: usize = RESULT + 1;

/// "T is `int` or a class name, earlier or later." Types are compared by name.
#[derive(Clone, Copy, Debug, PartialEq, Eq)]
pub enum Type<'a> {
    Int,
    Class(Name<'a>),
}

/// The type of an expression: null fits every class.
#[derive(Clone, Copy, Debug, PartialEq, Eq)]
pub enum Kind<'a> {
    Null,
    Of(Type<'a>),
}

/// `x.f`: the checker goes by the field's name, the machine by its slot, the
/// field's place in the class of x.
#[derive(Clone, Copy, Debug, PartialEq, Eq)]
pub struct Path<'a> {
    pub var: Var,
    pub field: Name<'a>,
    pub slot: usize,
}

#[derive(Clone, Copy, Debug, PartialEq, Eq)]
pub enum Expr<'a> {
    Number(i32),
    Null,
    Var(Var),
    Path(Path<'a>),
}

#[derive(Clone, Copy, Debug, PartialEq, Eq)]
pub enum Atom<'a> {
    /// `acc x f`, `read x f` or `chain x f`.
    Permission(Share, Path<'a>),
    Eq(Expr<'a>, Expr<'a>),
    Ne(Expr<'a>, Expr<'a>),
}

pub type Formula<'a> = Vec<Atom<'a>>;

/// What a statement line does. A target is a place in the program's list of
/// statements.
#[derive(Clone, Debug, PartialEq, Eq)]
pub enum Action<'a> {
    Set(Path<'a>, Var),
    Let(Var, Expr<'a>),
    Compute(Compute),
    /// The variable and the class, a place in the program's list of classes.
    New(Var, usize),
    Call(Call),
    Open(Open<'a>),
    /// `shut x f`.
    Shut(Path<'a>),
    Return(Var),
    Assert(Formula<'a>),
    Release(Formula<'a>),
    If(Branch<'a>),
    /// The target is the `join`.
    Else(usize),
    Join(Formula<'a>),
    Loop(Loop<'a>),
    /// The target is the `loop`.
    Again(usize),
    End,
}

impl<'a> Action<'a> {
    /// The line's own formula, if it has one; of a `loop` its invariant.
    pub fn formula(&self) -> Option<&[Atom<'a>]> {
        match self {
            Action::Assert(formula) | Action::Release(formula) | Action::Join(formula) => {
                Some(formula)
            }
            Action::Loop(rounds) => Some(&rounds.invariant),
            _ => None,
        }
    }
}

/// `add x y z` or `sub x y z`.
#[derive(Clone, Copy, Debug, PartialEq, Eq)]
pub struct Compute {
    pub operator: Operator,
    pub x: Var,
    pub y: Var,
    pub z: Var,
}

/// `call x y m z`; the method is a place in the program's list of blocks.
#[derive(Clone, Copy, Debug, PartialEq, Eq)]
pub struct Call {
    pub x: Var,
    pub y: Var,
    pub method: usize,
    pub z: Var,
}

/// `open y x f`; the path is `x.f`.
#[derive(Clone, Copy, Debug, PartialEq, Eq)]
pub struct Open<'a> {
    pub y: Var,
    pub path: Path<'a>,
}

/// An `if` with the targets of its `else` and `join`.
#[derive(Clone, Copy, Debug, PartialEq, Eq)]
pub struct Branch<'a> {
    pub condition: Atom<'a>,
    pub other: usize,
    pub join: usize,
}

/// A `loop` with the target of its `again`.
#[derive(Clone, Debug, PartialEq, Eq)]
pub struct Loop<'a> {
    pub condition: Atom<'a>,
    pub invariant: Formula<'a>,
    pub again: usize,
}

#[derive(Clone, Debug, PartialEq, Eq)]
pub struct Statement<'a> {
    pub line: u32,
    pub action: Action<'a>,
}

/// A declared field or variable.
#[derive(Clone, Copy, Debug, PartialEq, Eq)]
pub struct Declared<'a> {
    pub name: Name<'a>,
    pub kind: Type<'a>,
}

#[derive(Clone, Debug, PartialEq, Eq)]
pub struct Class<'a> {
    pub name: Name<'a>,
    pub fields: Vec<Declared<'a>>,
    /// Places in the list of blocks.
    pub methods: Vec<usize>,
}

/// What a method's line declares.
#[derive(Clone, Copy, Debug, PartialEq, Eq)]
pub struct Header<'a> {
    pub class: Name<'a>,
    pub result: Type<'a>,
    pub name: Name<'a>,
    pub param: Declared<'a>,
}

/// A method or main. Main has no header, and both its formulas are empty.
#[derive(Clone, Debug, PartialEq, Eq)]
pub struct Block<'a> {
    pub header: Option<Header<'a>>,
    pub locals: Vec<Declared<'a>>,
    pub requires: Formula<'a>,
    pub ensures: Formula<'a>,
    /// The place of the first statement in the program's list.
    pub start: usize,
}

/// The program with its names resolved. Main is the last block.
#[derive(Clone, Debug, PartialEq, Eq)]
pub struct Program<'a> {
    pub classes: Vec<Class<'a>>,
    pub blocks: Vec<Block<'a>>,
    pub statements: Vec<Statement<'a>>,
}

impl<'a> Program<'a> {
    pub fn main(&self) -> &Block<'a> {
        &self.blocks[self.blocks.len() - 1]
    }

    /// The statements of a block, its `end` the last.
    pub fn body(&self, block: usize) -> &[Statement<'a>] {
        let next = self.blocks.get(block + 1);
        let end = next.map_or(self.statements.len(), |next| next.start);
        &self.statements[self.blocks[block].start..end]
    }

    /// Of two declarations of one name the first counts.
    pub fn class(&self, name: Name) -> Option<usize> {
        self.classes.iter().position(|class| class.name == name)
    }

    /// A field of a class: its slot and its type.
    pub(crate) fn field(&self, class: Name, name: Name) -> Option<(usize, Type<'a>)> {
        let fields = &self.classes[self.class(class)?].fields;
        let slot = fields.iter().position(|field| field.name == name)?;
        Some((slot, fields[slot].kind))
    }

    /// A method of a class: its place in the list of blocks and its header.
    pub(crate) fn method(&self, class: Name, name: Name) -> Option<(usize, Header<'a>)> {
        self.classes[self.class(class)?]
            .methods
            .iter()
            .filter_map(|&block| Some((block, self.blocks[block].header?)))
            .find(|(_, header)| header.name == name)
    }
}

fn type_named(name: Name) -> Type {
    match name {
        b"int" => Type::Int,
        class => Type::Class(class),
    }
}

/// All that the text declares, no matter whether it is right: a name counts
/// for lines before its declaration too. Formulas and statements stay empty.
pub fn declarations<'a>(lines: &[Line<'a>]) -> Program<'a> {
    let mut program = Program {
        classes: Vec::new(),
        blocks: Vec::new(),
        statements: Vec::new(),
    };
    for line in lines {
        declare(&mut program, line);
    }
    program
}

fn declared<'a>(kind: Name<'a>, name: Name<'a>) -> Declared<'a> {
    Declared {
        name,
        kind: type_named(kind),
    }
}

fn empty_block(header: Option<Header>) -> Block {
    Block {
        header,
        locals: Vec::new(),
        requires: Vec::new(),
        ensures: Vec::new(),
        start: 0,
    }
}

fn declare<'a>(program: &mut Program<'a>, line: &Line<'a>) {
    match *line {
        Line::Class(name) => program.classes.push(Class {
            name,
            fields: Vec::new(),
            methods: Vec::new(),
        }),
        Line::Field { kind, name } => {
            let class = program.classes.last_mut().expect("a field has a class");
            class.fields.push(declared(kind, name));
        }
        Line::Method {
            result,
            name,
            kind,
            param,
        } => {
            let class = program.classes.last_mut().expect("a method has a class");
            class.methods.push(program.blocks.len());
            program.blocks.push(empty_block(Some(Header {
                class: class.name,
                result: type_named(result),
                name,
                param: declared(kind, param),
            })));
        }
        Line::Main => program.blocks.push(empty_block(None)),
        Line::Var { kind, name } => {
            let block = program.blocks.last_mut().expect("a local has a block");
            block.locals.push(declared(kind, name));
        }
        _ => {}
    }
}
