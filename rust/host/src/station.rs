//! The calls with areas of their own.

use crate::counted::apart;
use crate::limits::{BOUNDS_BYTES, COUNT_BYTES, PLACES_BYTES, RESULTS_BYTES, WORK_BYTES};
use crate::numbers::known;
use crate::outcome::{AcceptedEnding, Ending};
use crate::{calls, Bound, Counted, Filled, NoBound, NotCounted, NotFilled, Outcome, Refusal};
use crate::{Returned, Share};
use core::borrow::BorrowMut;
use core::fmt;

/// The work area that a [`Station`] has if none is lent to it.
#[cfg(feature = "alloc")]
pub type OwnWork = alloc::boxed::Box<[u8; WORK_BYTES]>;
/// The work area that a [`Station`] has if none is lent to it.
#[cfg(not(feature = "alloc"))]
pub type OwnWork = [u8; WORK_BYTES];

/// The areas that the library is lent, kept from call to call: one station
/// serves any number of calls, one after the other.
///
/// ```
/// let mut station = nuyardi::Station::new();
/// for text in [&b"main\nend\n"[..], b"main\nvar\tint\ta\nend\n"] {
///     let accepted = station.check(text)?;
///     assert!(accepted.run(&mut station, 10).finished());
/// }
/// # Ok::<(), nuyardi::Refusal>(())
/// ```
#[derive(Clone)]
pub struct Station<W = OwnWork> {
    work: W,
    results: [u8; RESULTS_BYTES],
}

impl Station {
    /// Areas for one call at a time: the only allocation there is.
    #[cfg(feature = "alloc")]
    pub fn new() -> Station {
        let work = alloc::vec![0; WORK_BYTES].into_boxed_slice().try_into();
        Station::over(work.unwrap_or_else(|_| alloc::boxed::Box::new([0; WORK_BYTES])))
    }

    /// Areas for one call at a time.
    #[cfg(not(feature = "alloc"))]
    pub const fn new() -> Station {
        Station::over([0; WORK_BYTES])
    }
}

impl Default for Station {
    fn default() -> Station {
        Station::new()
    }
}

impl<W> fmt::Debug for Station<W> {
    fn fmt(&self, f: &mut fmt::Formatter<'_>) -> fmt::Result {
        f.debug_struct("Station").finish_non_exhaustive()
    }
}

impl<W> Station<W> {
    /// A station over a work area of the caller's, whatever it holds.
    ///
    /// ```
    /// let mut area = [0xa5; nuyardi::limits::WORK_BYTES];
    /// let mut station = nuyardi::Station::over(&mut area);
    /// assert!(station.check(b"main\nend\n").is_ok());
    /// ```
    pub const fn over(work: W) -> Station<W> {
        Station {
            work,
            results: [0; RESULTS_BYTES],
        }
    }
}

impl<W: BorrowMut<[u8; WORK_BYTES]>> Station<W> {
    /// Checks a text: accepted, or refused with a number and a line.
    pub fn check<'t>(&mut self, text: &'t [u8]) -> Result<Accepted<'t>, Refusal> {
        let returned = calls::check(text, self.work.borrow_mut());
        let accepted = (returned.word() == 0).then_some(Accepted { text });
        match returned.refusal() {
            None => Ok(known(accepted, returned.number())),
            Some(refusal) => Err(refusal),
        }
    }

    /// Runs a text for at most that many steps, if check accepts it: refused as by
    /// check, or run to an [`AcceptedEnding`]. There is no third, by a theorem. A
    /// text that is run more than once is better checked once, and run by
    /// [`Accepted::run`].
    ///
    /// ```
    /// let mut station = nuyardi::Station::new();
    /// assert_eq!(station.run(b"main\nend\n", 10)?.steps(), 1);
    /// let refusal = station.run(b"main\nassert\teq\t1\t2\nend\n", 10).unwrap_err();
    /// assert_eq!((refusal.number(), refusal.line()), (13, 2));
    /// # Ok::<(), nuyardi::Refusal>(())
    /// ```
    pub fn run<'t>(
        &mut self,
        text: &'t [u8],
        steps: u32,
    ) -> Result<Outcome<'t, AcceptedEnding>, Refusal> {
        let returned = calls::run(text, self.work.borrow_mut(), steps, &mut self.results);
        self.ran(returned, text)
    }

    /// What [`Station::run`] answers, always, on a machine that keeps no permissions
    /// and evaluates no assert, requires, ensures, join or invariant: an accepted
    /// text never fails one, by a theorem. It is for long runs over many objects. In
    /// a short one nearly all time goes into the check, which both make each time: a
    /// text that is run often is then better checked once, and run by
    /// [`Accepted::run`].
    ///
    /// ```
    /// let mut station = nuyardi::Station::new();
    /// let text = b"main\nvar\tint\ta\nlet\ta\t7\nassert\teq\ta\t7\nend\n";
    /// let outcome = station.lean(text, 1_000)?;
    /// assert_eq!((outcome.steps(), outcome.finished()), (3, true));
    /// assert_eq!(station.lean(text, 1_000), station.run(text, 1_000));
    ///
    /// let refused = b"main\nassert\teq\t1\t2\nend\n";
    /// assert_eq!(station.lean(refused, 10), station.run(refused, 10));
    /// # Ok::<(), nuyardi::Refusal>(())
    /// ```
    ///
    /// # Errors
    ///
    /// A text that check refuses is refused as by [`Station::check`].
    pub fn lean<'t>(
        &mut self,
        text: &'t [u8],
        steps: u32,
    ) -> Result<Outcome<'t, AcceptedEnding>, Refusal> {
        let returned = calls::lean(text, self.work.borrow_mut(), steps, &mut self.results);
        self.ran(returned, text)
    }

    /// What run or lean returned for the text.
    fn ran<'t>(
        &self,
        returned: Returned,
        text: &'t [u8],
    ) -> Result<Outcome<'t, AcceptedEnding>, Refusal> {
        match returned.refusal() {
            None => Ok(self.ended(AcceptedEnding::of, returned, text)),
            Some(refusal) => Err(refusal),
        }
    }

    /// Tries a text out: runs it for at most that many steps, accepted or not. A
    /// text that check refuses with one of the numbers 10 to 14 runs all the same;
    /// the machine tests every permission.
    pub fn trial<'t>(&mut self, text: &'t [u8], steps: u32) -> Outcome<'t> {
        self.tried(Ending::of, text, steps)
    }

    fn tried<'t, E: Copy>(
        &mut self,
        ending: fn(u32) -> Option<E>,
        text: &'t [u8],
        steps: u32,
    ) -> Outcome<'t, E> {
        let returned = calls::trial(text, self.work.borrow_mut(), steps, &mut self.results);
        self.ended(ending, returned, text)
    }

    /// What a call that runs the text returned, as its ending.
    fn ended<'t, E: Copy>(
        &self,
        ending: fn(u32) -> Option<E>,
        returned: Returned,
        text: &'t [u8],
    ) -> Outcome<'t, E> {
        let number = returned.number();
        let ending = known(ending(number), number);
        Outcome::of(returned, ending, text, &self.results)
    }

    /// The most that a run of the text can take, known before it: its statement
    /// lines, with those of the methods that it calls, as often as it calls them.
    ///
    /// ```
    /// use nuyardi::{Excess, NoBound};
    /// let mut station = nuyardi::Station::new();
    /// let text = b"main\nvar\tint\ta\nlet\ta\t7\nend\n";
    /// let bound = station.bound(text)?;
    /// assert_eq!((bound.steps, bound.frames), (2, 1));
    /// let outcome = station.check(text)?.run(&mut station, bound.steps);
    /// assert!(outcome.finished());
    ///
    /// let text = b"main\nvar\tint\ta\nloop\teq\ta\t0\nagain\nend\n";
    /// let excess = Excess::Unbounded;
    /// assert_eq!(station.bound(text), Err(NoBound::Accepted { excess, line: 3 }));
    /// # Ok::<(), NoBound>(())
    /// ```
    ///
    /// # Errors
    ///
    /// A text that check refuses is refused as by [`Station::check`]. An accepted
    /// one has no bound if a line of it, in a method that main does not call too,
    /// is a `loop` or a `call` that can lead back to its own method, or if the
    /// bound is above [`BOUND`](crate::limits::BOUND).
    pub fn bound(&mut self, text: &[u8]) -> Result<Bound, NoBound> {
        let mut bounds = [0; BOUNDS_BYTES];
        let returned = calls::bound(text, self.work.borrow_mut(), &mut bounds);
        known(returned.bound(&bounds), returned.number())
    }

    /// The first set of at most [`FILLED`](crate::limits::FILLED) permissions that may
    /// take the place of the star in a line `requires *`: with them check accepts the
    /// text, apart from its length. Fewer permissions come first, then the fields of `this`
    /// in the order of their lines, then those of the parameter. One method has such a
    /// line, and all else in the text is complete.
    ///
    /// ```
    /// use nuyardi::{Lack, NotFilled};
    /// let mut station = nuyardi::Station::new();
    /// let text = b"class\tS\nfield\tint\ta\nfield\tint\tb\nmethod\tint\tm\tS\ts\n\
    ///     requires\t*\nensures\nvar\tint\tr\nlet\tr\ts.b\nset\tthis\ta\tr\nend\nmain\nend\n";
    /// let filled = station.fill(text)?;
    /// assert_eq!(filled.places(), [1, 4]);
    /// assert_eq!(filled.to_string(), "requires\tacc\tthis\ta\tacc\ts\tb");
    ///
    /// let lack = Lack::Stars;
    /// assert_eq!(station.fill(b"main\nend\n"), Err(NotFilled::Read { lack, line: 0 }));
    /// # Ok::<(), NotFilled>(())
    /// ```
    ///
    /// # Errors
    ///
    /// A text is refused with the numbers 2 to 9 as by [`Station::check`], the star's
    /// line taken as a formula without atoms. Then there is no set if there is no star,
    /// or a second one, or if none is accepted, be it for a fault elsewhere in the text.
    pub fn fill<'t>(&mut self, text: &'t [u8]) -> Result<Filled<'t>, NotFilled> {
        let mut places = [0; PLACES_BYTES];
        let returned = calls::fill(text, self.work.borrow_mut(), &mut places);
        known(returned.filled(text, &places), returned.number())
    }

    /// Runs up to [`SCRIPTS`](crate::limits::SCRIPTS) scripts over one heap, one step of
    /// each a round, in order, for at most that many rounds. A script that is refused,
    /// finished or stopped is passed over. What becomes of each is the same whatever
    /// the others do, by a theorem: what [`Station::run`] answers of it alone, with its
    /// share for the heap and the rounds as steps.
    ///
    /// ```
    /// use nuyardi::{Kind, Share};
    /// let mut station = nuyardi::Station::new();
    /// let text = b"class\tS\nmain\nvar\tS\ts\nnew\ts\tS\nnew\ts\tS\nend\n";
    /// let scripts = [(&text[..], 1), (text, 255)].map(|(text, share)| Share::new(text, share));
    /// let counted = station.count(&scripts, 1_000)?;
    /// let said = counted.scripts().map(|script| script.unwrap().number());
    /// assert_eq!(said.collect::<Vec<u32>>(), [22, 0]);
    ///
    /// assert!(station.count(&[], 1_000).is_err());
    /// assert!(station.count(&[Share::new(text, 257)], 1_000).is_err());
    /// # Ok::<(), nuyardi::NotCounted>(())
    /// ```
    ///
    /// # Errors
    ///
    /// No script is read if there is none, if there are more than four, if a share is
    /// 0, or if the shares are above [`OBJECTS`](crate::limits::OBJECTS) together.
    pub fn count<'t>(
        &mut self,
        scripts: &[Share<'t>],
        rounds: u32,
    ) -> Result<Counted<'t>, NotCounted> {
        let (texts, shares) = apart(scripts);
        let mut results = [0; COUNT_BYTES];
        let count = u32::try_from(scripts.len()).unwrap_or(u32::MAX);
        let work = self.work.borrow_mut();
        let returned = calls::count(count, rounds, texts, work, shares, &mut results);
        known(returned.counted(scripts, &results), returned.number())
    }
}

/// A text that check accepts.
///
/// ```
/// let accepted = nuyardi::check(b"main\nend\n")?;
/// assert_eq!(format!("{accepted:?}"), r#"Accepted { text: "main\nend\n" }"#);
/// # Ok::<(), nuyardi::Refusal>(())
/// ```
#[derive(Clone, Copy, PartialEq, Eq)]
pub struct Accepted<'t> {
    text: &'t [u8],
}

/// A text in messages to those who debug: its first bytes.
struct Shown<'t>(&'t [u8]);

impl fmt::Debug for Shown<'_> {
    fn fmt(&self, f: &mut fmt::Formatter<'_>) -> fmt::Result {
        const BYTES: usize = 60;
        let (first, rest) = self.0.split_at(self.0.len().min(BYTES));
        write!(f, "\"{}\"", first.escape_ascii())?;
        match rest.len() {
            0 => Ok(()),
            more => write!(f, " and {more} bytes more"),
        }
    }
}

impl fmt::Debug for Accepted<'_> {
    fn fmt(&self, f: &mut fmt::Formatter<'_>) -> fmt::Result {
        let mut shown = f.debug_struct("Accepted");
        shown.field("text", &Shown(self.text)).finish()
    }
}

impl<'t> Accepted<'t> {
    /// The text.
    pub fn text(self) -> &'t [u8] {
        self.text
    }

    /// Runs the text for at most that many steps. It finishes, or stops for want
    /// of room or at a sum beyond 32 bits: an [`AcceptedEnding`] has no other
    /// case, by a theorem. It is not checked again: an accepted text gets the same
    /// from run and from trial, by another.
    ///
    /// ```
    /// use nuyardi::{AcceptedEnding, AcceptedStop};
    /// let mut station = nuyardi::Station::new();
    /// let accepted = station.check(b"main\nvar\tint\ta\nlet\ta\t7\nend\n")?;
    /// let outcome = accepted.run(&mut station, 1);
    /// assert_eq!(outcome.ending(), AcceptedEnding::Stopped(AcceptedStop::OutOfSteps));
    /// assert_eq!((outcome.line(), outcome.steps()), (4, 1));
    /// # Ok::<(), nuyardi::Refusal>(())
    /// ```
    pub fn run<W: BorrowMut<[u8; WORK_BYTES]>>(
        self,
        station: &mut Station<W>,
        steps: u32,
    ) -> Outcome<'t, AcceptedEnding> {
        station.tried(AcceptedEnding::of, self.text, steps)
    }
}
