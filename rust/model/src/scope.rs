//! The names that a line may use: the numbers 6, 7 and 9 of formulas and
//! statements.

use crate::faults::{Fault, Faults, Role, Sides};
use crate::number::Reason;
use crate::program::*;
use crate::text::{self, reserved, Line, Name, Operator, Share};

/// Which names of the block a line may use: "`requires` names only `this` and
/// w; `ensures` also `result`".
#[derive(Clone, Copy, Debug, PartialEq, Eq)]
pub enum View {
    Requires,
    Ensures,
    Body,
}

/// The names that one line may use, and the faults found in it so far.
pub struct Scope<'p, 'a> {
    program: &'p Program<'a>,
    block: &'p Block<'a>,
    view: View,
    pub faults: Faults<'a>,
}

impl<'p, 'a> Scope<'p, 'a> {
    pub fn new(program: &'p Program<'a>, block: &'p Block<'a>, view: View) -> Scope<'p, 'a> {
        Scope {
            program,
            block,
            view,
            faults: Faults::default(),
        }
    }

    pub(crate) fn find(&self, name: Name) -> Option<(Var, Type<'a>)> {
        let header = self.block.header;
        match name {
            b"int" | b"null" => return None,
            b"this" => return header.map(|header| (THIS, Type::Class(header.class))),
            b"result" if self.view == View::Requires => return None,
            b"result" => return header.map(|header| (RESULT, header.result)),
            _ => {}
        }
        if let Some(header) = header.filter(|header| header.param.name == name) {
            return Some((PARAM, header.param.kind));
        }
        if self.view != View::Body {
            return None;
        }
        let place = self
            .block
            .locals
            .iter()
            .position(|local| local.name == name)?;
        Some((FIRST_LOCAL + place, self.block.locals[place].kind))
    }

    fn var(&mut self, name: Name<'a>) -> Option<(Var, Type<'a>)> {
        let found = self.find(name);
        let fault = Fault::Undeclared(name, Role::Variable);
        self.faults.note_if(found.is_none(), Reason::Name, fault);
        found
    }

    /// "A field is looked up in x's class ...: absent there is 6, an int x ...
    /// is 7." A reserved word is 6 whatever x is.
    pub(crate) fn path(&mut self, x: Name<'a>, field: Name<'a>) -> Option<(Path<'a>, Type<'a>)> {
        self.faults
            .note_if(reserved(field), Reason::Name, Fault::Reserved(field));
        let (var, kind) = self.var(x)?;
        let Type::Class(class) = kind else {
            self.faults.note(Reason::Type, Fault::NoObject(x));
            return None;
        };
        let found = self.program.field(class, field);
        let fault = Fault::Undeclared(field, Role::Field(class));
        self.faults.note_if(found.is_none(), Reason::Name, fault);
        let (slot, kind) = found?;
        Some((Path { var, field, slot }, kind))
    }

    fn expression(&mut self, expr: text::Expr<'a>) -> Option<(Expr<'a>, Kind<'a>)> {
        Some(match expr {
            text::Expr::Number(value) => (Expr::Number(value), Kind::Of(Type::Int)),
            text::Expr::Null => (Expr::Null, Kind::Null),
            text::Expr::Var(name) => {
                let (var, kind) = self.var(name)?;
                (Expr::Var(var), Kind::Of(kind))
            }
            text::Expr::Path(x, field) => {
                let (path, kind) = self.path(x, field)?;
                (Expr::Path(path), Kind::Of(kind))
            }
        })
    }

    /// "are int, or are null or of one class", else 7.
    pub(crate) fn same(
        &mut self,
        sides: Sides,
        left: (text::Expr<'a>, Kind<'a>),
        right: (text::Expr<'a>, Kind<'a>),
    ) {
        let fit = match (left.1, right.1) {
            (Kind::Of(left), Kind::Of(right)) => left == right,
            (Kind::Null, Kind::Of(other)) | (Kind::Of(other), Kind::Null) => other != Type::Int,
            (Kind::Null, Kind::Null) => true,
        };
        let fault = Fault::Mismatch { sides, left, right };
        self.faults.note_if(!fit, Reason::Type, fault);
    }

    fn sides(
        &mut self,
        left: text::Expr<'a>,
        right: text::Expr<'a>,
    ) -> Option<(Expr<'a>, Expr<'a>)> {
        let resolved = (self.expression(left), self.expression(right));
        let ((one, one_kind), (other, other_kind)) = (resolved.0?, resolved.1?);
        self.same(Sides::Atom, (left, one_kind), (right, other_kind));
        Some((one, other))
    }

    fn atom(&mut self, atom: text::Atom<'a>) -> Option<Atom<'a>> {
        Some(match atom {
            text::Atom::Permission(Share::Chain, x, field) => {
                Atom::Permission(Share::Chain, self.link(x, field)?.0)
            }
            text::Atom::Permission(share, x, field) => {
                Atom::Permission(share, self.path(x, field)?.0)
            }
            text::Atom::Eq(left, right) => {
                let (left, right) = self.sides(left, right)?;
                Atom::Eq(left, right)
            }
            text::Atom::Ne(left, right) => {
                let (left, right) = self.sides(left, right)?;
                Atom::Ne(left, right)
            }
        })
    }

    /// Every atom is looked at, also after one at fault.
    pub fn formula(&mut self, formula: &[text::Atom<'a>]) -> Option<Formula<'a>> {
        let mut atoms = Vec::with_capacity(formula.len());
        for (place, &atom) in formula.iter().enumerate() {
            self.faults.atom = place;
            atoms.extend(self.atom(atom));
        }
        (atoms.len() == formula.len()).then_some(atoms)
    }

    /// "`this`, w or `result` assigned by `let`, `new` or `call`" is 9, and W1:
    /// "Number 9 covers these lines too: x may not be w or `result`."
    pub(crate) fn assigned(&mut self, name: Name<'a>) -> Option<(Var, Type<'a>)> {
        let found = self.var(name)?;
        let local = (FIRST_LOCAL..RESULT).contains(&found.0);
        self.faults
            .note_if(!local, Reason::Assigned, Fault::Assigned(name));
        Some(found)
    }

    fn set(&mut self, x: Name<'a>, field: Name<'a>, y: Name<'a>) -> Option<Action<'a>> {
        let path = self.path(x, field);
        let value = self.var(y);
        let ((path, field_kind), (value, value_kind)) = (path?, value?);
        let left = (text::Expr::Path(x, field), Kind::Of(field_kind));
        let right = (text::Expr::Var(y), Kind::Of(value_kind));
        self.same(Sides::Set, left, right);
        Some(Action::Set(path, value))
    }

    fn assign(&mut self, x: Name<'a>, expr: text::Expr<'a>) -> Option<Action<'a>> {
        let var = self.assigned(x);
        let value = self.expression(expr);
        let ((var, var_kind), (value, value_kind)) = (var?, value?);
        let left = (text::Expr::Var(x), Kind::Of(var_kind));
        self.same(Sides::Let, left, (expr, value_kind));
        Some(Action::Let(var, value))
    }

    /// "the int x ... the int variables y and z": each that is not int is 7.
    fn int(&mut self, name: Name<'a>, found: Option<(Var, Type<'a>)>) -> Option<Var> {
        let (var, kind) = found?;
        self.faults
            .note_if(kind != Type::Int, Reason::Type, Fault::NoInt(name));
        Some(var)
    }

    fn compute(
        &mut self,
        operator: Operator,
        x: Name<'a>,
        y: Name<'a>,
        z: Name<'a>,
    ) -> Option<Action<'a>> {
        let assigned = self.assigned(x);
        let (one, other) = (self.var(y), self.var(z));
        let assigned = self.int(x, assigned);
        let (one, other) = (self.int(y, one), self.int(z, other));
        Some(Action::Compute(Compute {
            operator,
            x: assigned?,
            y: one?,
            z: other?,
        }))
    }

    /// "the x of `new` is of class C, else 7". The class must be declared.
    fn create(&mut self, x: Name<'a>, name: Name<'a>) -> Option<Action<'a>> {
        let var = self.assigned(x);
        let class = self.program.class(name).filter(|_| !reserved(name));
        let fault = match reserved(name) {
            true => Fault::Reserved(name),
            false => Fault::Undeclared(name, Role::Class),
        };
        self.faults.note_if(class.is_none(), Reason::Name, fault);
        let ((var, kind), class) = (var?, class?);
        let fault = Fault::Mismatch {
            sides: Sides::New,
            left: (text::Expr::Var(x), Kind::Of(kind)),
            right: (text::Expr::Var(name), Kind::Of(Type::Class(name))),
        };
        let fits = kind == Type::Class(name);
        self.faults.note_if(!fits, Reason::Type, fault);
        Some(Action::New(var, class))
    }

    fn call(&mut self, x: Name<'a>, y: Name<'a>, m: Name<'a>, z: Name<'a>) -> Option<Action<'a>> {
        self.faults
            .note_if(x == y || x == z, Reason::Assigned, Fault::Same(x));
        let target = self.assigned(x);
        let method = self.receiver(y, m);
        let argument = self.var(z);
        let var = |name, kind| (text::Expr::Var(name), Kind::Of(kind));
        if let (Some((_, _, header)), Some((_, kind))) = (method, argument) {
            let param = var(header.param.name, header.param.kind);
            self.same(Sides::Argument, param, var(z, kind));
        }
        if let (Some((_, _, header)), Some((_, kind))) = (method, target) {
            self.same(Sides::Result, var(x, kind), var(m, header.result));
        }
        let (y, method, _) = method?;
        Some(Action::Call(Call {
            x: target?.0,
            y,
            method,
            z: argument?.0,
        }))
    }

    /// "... a method in y's [class]: absent there is 6, an int ... y is 7."
    fn receiver(&mut self, y: Name<'a>, m: Name<'a>) -> Option<(Var, usize, Header<'a>)> {
        self.faults
            .note_if(reserved(m), Reason::Name, Fault::Reserved(m));
        let (var, kind) = self.var(y)?;
        let Type::Class(class) = kind else {
            self.faults.note(Reason::Type, Fault::NoObject(y));
            return None;
        };
        let found = self.program.method(class, m);
        let fault = Fault::Undeclared(m, Role::Method(class));
        self.faults.note_if(found.is_none(), Reason::Name, fault);
        let (block, header) = found?;
        Some((var, block, header))
    }

    fn give_back(&mut self, x: Name<'a>) -> Option<Action<'a>> {
        let (var, kind) = self.var(x)?;
        let header = self.block.header.expect("a return stands in a method");
        let result = (text::Expr::Var(b"result"), Kind::Of(header.result));
        let returned = (text::Expr::Var(x), Kind::Of(kind));
        self.same(Sides::Return, result, returned);
        Some(Action::Return(var))
    }

    /// The atoms of a `loop` in the order of the line, the condition first.
    fn rounds(
        &mut self,
        condition: text::Atom<'a>,
        invariant: &[text::Atom<'a>],
    ) -> Option<Action<'a>> {
        let atoms = self.formula(&[&[condition], invariant].concat())?;
        let (&condition, invariant) = atoms.split_first()?;
        Some(Action::Loop(Loop {
            condition,
            invariant: invariant.to_vec(),
            again: 0,
        }))
    }

    /// A statement line with its names resolved; none if it has a fault. The
    /// targets of `if`, `else`, `loop` and `again` are left at 0.
    pub fn statement(&mut self, line: &Line<'a>) -> Option<Action<'a>> {
        match *line {
            Line::Set(x, field, y) => self.set(x, field, y),
            Line::Let(x, expr) => self.assign(x, expr),
            Line::Compute(operator, x, y, z) => self.compute(operator, x, y, z),
            Line::New(x, class) => self.create(x, class),
            Line::Call(x, y, m, z) => self.call(x, y, m, z),
            Line::Open(y, x, field) => self.open(y, x, field),
            Line::Shut(x, field) => self.link(x, field).map(|(path, _)| Action::Shut(path)),
            Line::Return(x) => self.give_back(x),
            Line::Assert(ref formula) => self.formula(formula).map(Action::Assert),
            Line::Release(ref formula) => self.formula(formula).map(Action::Release),
            Line::Join(ref formula) => self.formula(formula).map(Action::Join),
            Line::If(condition) => Some(Action::If(Branch {
                condition: self.atom(condition)?,
                other: 0,
                join: 0,
            })),
            Line::Else => Some(Action::Else(0)),
            Line::Loop(condition, ref invariant) => self.rounds(condition, invariant),
            Line::Again => Some(Action::Again(0)),
            Line::End => Some(Action::End),
            _ => unreachable!("a declaration is no statement"),
        }
    }
}
