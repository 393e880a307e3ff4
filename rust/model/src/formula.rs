//! Formulas on the machine: what they read and what they take, and the numbers
//! 24, 25 and 26.

use crate::locations::{Location, Locations};
use crate::machine::{Object, Values};
use crate::names::{Atom, Expr, Path};
use crate::number::Stop;
use crate::text::Share;
use crate::watch::{Halt, Missing, Tested};

/// A step that cannot be done stops.
pub(crate) type Outcome<'a, T> = Result<T, Halt<'a>>;

/// A formula's reader: the values it sees and the locations it may read.
pub(crate) struct Reader<'m> {
    pub objects: &'m [Object],
    pub heap: &'m [i32],
    pub values: &'m Values,
    pub held: &'m Locations,
}

impl Reader<'_> {
    /// The location of `x.f`: null followed is 25.
    pub fn place<'a>(&self, path: Path<'a>) -> Outcome<'a, Location> {
        location(self.objects, self.values, path).ok_or_else(|| Halt::at(Stop::NullFollowed, path))
    }

    /// The location of `x.f`, of which the share is held beside what is taken.
    pub fn location<'a>(
        &self,
        path: Path<'a>,
        share: Share,
        taken: &Locations,
    ) -> Outcome<'a, Location> {
        let location = self.place(path)?;
        self.needs(location, share, path, taken)?;
        Ok(location)
    }

    /// If fewer halves of the location are held than the share has, beside those
    /// that are taken already, it is 24.
    pub fn needs<'a>(
        &self,
        location: Location,
        share: Share,
        path: Path<'a>,
        taken: &Locations,
    ) -> Outcome<'a, ()> {
        let (held, taken) = (self.held.halves(location), taken.halves(location));
        if held >= taken + share.halves() {
            return Ok(());
        }
        Err(Halt {
            missing: Some(Missing {
                location,
                share,
                held,
                taken,
            }),
            ..Halt::at(Stop::PermissionMissing, path)
        })
    }

    /// "reading a path needs its location in A", over the whole A. W8: "Reading
    /// needs one half".
    pub fn value<'a>(&self, expr: Expr<'a>) -> Outcome<'a, i32> {
        Ok(match expr {
            Expr::Number(value) => value,
            Expr::Null => 0,
            Expr::Var(var) => self.values[var],
            Expr::Path(path) => self.heap[self.location(path, Share::Read, &Locations::NONE)?],
        })
    }

    /// "of two sides the left first".
    pub fn equal<'a>(&self, left: Expr<'a>, right: Expr<'a>) -> Outcome<'a, bool> {
        let left = self.value(left)?;
        let right = self.value(right)?;
        Ok(left == right)
    }

    /// "Formula atoms go in order". Gives the footprint, "the locations that
    /// its `acc` atoms take", with the halves that `acc` and `read` take of each.
    pub fn formula<'a>(&self, formula: &[Atom<'a>], tested: Tested) -> Outcome<'a, Locations> {
        let mut taken = Locations::default();
        for (place, &atom) in formula.iter().enumerate() {
            self.atom(atom, &mut taken).map_err(|halt| Halt {
                atom: Some(place),
                tested,
                ..halt
            })?;
        }
        Ok(taken)
    }

    fn atom<'a>(&self, atom: Atom<'a>, taken: &mut Locations) -> Outcome<'a, ()> {
        let holds = match atom {
            Atom::Permission(Share::Chain, path) => {
                taken.add_all(&self.chain(path, taken)?);
                true
            }
            Atom::Permission(share, path) => {
                let location = self.location(path, share, taken)?;
                taken.add(location, share.halves());
                true
            }
            Atom::Eq(left, right) => self.equal(left, right)?,
            Atom::Ne(left, right) => !self.equal(left, right)?,
        };
        if holds {
            Ok(())
        } else {
            Err(Halt::of(Stop::FormulaFalse))
        }
    }
}

/// Where `x.f` is, for these values of the variables; none if x is null.
pub fn location(objects: &[Object], values: &Values, path: Path) -> Option<Location> {
    let object = (values[path.var] as usize).checked_sub(1)?;
    Some(objects[object].first + path.slot)
}
