//! W9: chains of cards, in names, check and machine: the atom `chain x f` and the
//! lines `open y x f` and `shut x f`.

use crate::faults::{Fault, Sides};
use crate::formula::{Outcome, Reader};
use crate::locations::Locations;
use crate::machine::Machine;
use crate::names::{Action, Atom, Expr, Kind, Open, Path, Type};
use crate::number::{Reason, Stop};
use crate::scope::Scope;
use crate::showing::Left;
use crate::state::{Permission, Rule, State, Term};
use crate::text::{self, Name, Share};
use crate::watch::{At, Halt, Purpose, Watch};

impl<'a> Scope<'_, 'a> {
    /// The link `x.f` of a chain and its type: "f a field with x's class as its
    /// type (else 7)".
    pub(crate) fn link(&mut self, x: Name<'a>, field: Name<'a>) -> Option<(Path<'a>, Type<'a>)> {
        let (path, kind) = self.path(x, field)?;
        let (_, class) = self.find(x)?;
        let fault = Fault::NoLink(x, field, kind);
        self.faults.note_if(kind != class, Reason::Type, fault);
        Some((path, class))
    }

    /// y is of x's class, else 7. "Number 9 covers `open`: y may not be `this`, w,
    /// `result` or x."
    pub(crate) fn open(&mut self, y: Name<'a>, x: Name<'a>, field: Name<'a>) -> Option<Action<'a>> {
        self.faults
            .note_if(y == x, Reason::Assigned, Fault::Same(y));
        let target = self.assigned(y);
        let link = self.link(x, field);
        let ((y_var, y_kind), (path, class)) = (target?, link?);
        let left = (text::Expr::Var(y), Kind::Of(y_kind));
        let right = (text::Expr::Path(x, field), Kind::Of(class));
        self.same(Sides::Open, left, right);
        Some(Action::Open(Open { y: y_var, path }))
    }
}

impl<'a> State<'a> {
    fn add_chain(&mut self, path: Path<'a>) -> Rule<()> {
        self.add_atom(Atom::Permission(Share::Chain, path))
    }

    /// "`open y x f` takes x ≠ null and `chain x f`; y becomes `x.f`, and the state
    /// gets `x.f`, `x.f` = y and the chain of y." The fact has this very name, and
    /// `x.f` is a new entry whatever is listed.
    pub(crate) fn open<W: Watch<'a>>(&mut self, open: Open<'a>, at: &mut At<W>) -> Rule<()> {
        let Open { y, path } = open;
        let object = [Atom::Ne(Expr::Var(path.var), Expr::Null)];
        at.show(self, Purpose::Open, &object);
        self.show(&object)?;
        let chain = [Atom::Permission(Share::Chain, path)];
        at.show(self, Purpose::Open, &chain);
        self.take(&chain)?;
        self.remove(y, Term::Null);
        self.add_permission(Permission {
            share: Share::Acc,
            var: path.var,
            field: path.field,
        })?;
        self.add_fact(true, Term::Path(path.var, path.field), Term::Var(y))?;
        self.add_chain(Path { var: y, ..path })
    }

    /// Takes "a chain of the value of `x.f`, shown by a chain, by the same f, of a
    /// variable ~ to `x.f` or else by `x.f` ~ null"; "an unlisted `x.f`" is 12 too.
    /// Gives what is left of each entry.
    pub fn rest(&self, path: Path<'a>) -> Rule<Left> {
        let value = self.resolve(Expr::Path(path));
        let value = value.map_err(|_| Reason::NoPermission)?;
        let mut left = self.whole();
        self.show_permission(Share::Chain, value, path.field, &mut left)?;
        Ok(left)
    }

    /// "`shut x f` takes a chain of the value of `x.f` ..., then the whole permission
    /// to `x.f`, and gives the chain of x." It takes before it gives.
    pub(crate) fn shut<W: Watch<'a>>(&mut self, path: Path<'a>, at: &mut At<W>) -> Rule<()> {
        at.read(self, Purpose::Shut, Expr::Path(path));
        at.rest(self, Purpose::Shut, path);
        let mut left = self.rest(path)?;
        at.show(self, Purpose::Shut, &[Atom::Permission(Share::Acc, path)]);
        self.show_permission(Share::Acc, Term::Var(path.var), path.field, &mut left)?;
        self.keep(left);
        self.add_chain(path)
    }
}

impl Reader<'_> {
    /// `chain x f` "holds if going by f from x reaches null and every location
    /// passed is held whole; its footprint is those." The chain of null holds.
    pub fn chain<'a>(&self, path: Path<'a>, taken: &Locations) -> Outcome<'a, Locations> {
        self.walk(self.values[path.var], path, taken)
    }

    /// The walk from an object by the field of the path. It "stops with 26 at a
    /// location that it has passed itself (a ring), and with 24 at one not held
    /// whole or taken by an earlier atom."
    fn walk<'a>(&self, from: i32, path: Path<'a>, taken: &Locations) -> Outcome<'a, Locations> {
        let mut passed = Locations::default();
        let mut object = from;
        while object != 0 {
            let location = self.objects[object as usize - 1].first + path.slot;
            if passed.contains(location) {
                return Err(Halt {
                    ring: Some(location),
                    ..Halt::at(Stop::FormulaFalse, path)
                });
            }
            self.needs(location, Share::Chain, path, taken)?;
            passed.add(location, Share::Chain.halves());
            object = self.heap[location];
        }
        Ok(passed)
    }

    /// `shut`: x null, no half of `x.f`, the walk from its value, both halves of
    /// `x.f` beside what the walk took.
    pub fn shut<'a>(&self, path: Path<'a>) -> Outcome<'a, ()> {
        let value = self.value(Expr::Path(path))?;
        let walked = self.walk(value, path, &Locations::NONE)?;
        self.location(path, Share::Acc, &walked).map(|_| ())
    }
}

impl<'a> Machine<'_, 'a> {
    /// `open`: x null, then the walk from x; y gets the value of `x.f`. "`open` and
    /// `shut` never move permissions on the machine".
    pub(crate) fn open(&mut self, open: Open<'a>) -> Outcome<'a, ()> {
        let reader = self.reader();
        let location = reader.place(open.path)?;
        reader.chain(open.path, &Locations::NONE)?;
        self.assign(open.y, self.heap[location]);
        Ok(())
    }
}
