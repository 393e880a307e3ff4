//! What a line `requires *` is filled in with, or why it is not.

use crate::limits::PLACES_BYTES;
use crate::{explain, Lack, Refusal, Returned};
use core::fmt;

/// The line that is filled in, as it stands in the text.
const STAR: &[u8] = b"requires\t*";

/// A permission `acc x f`; its words are those of the text.
#[derive(Clone, Copy, Debug, PartialEq, Eq, Hash)]
#[non_exhaustive]
pub struct Permission<'t> {
    /// `this`, or the name of the parameter.
    pub variable: &'t str,
    /// The name of the field.
    pub field: &'t str,
}

/// A text with one line `requires *`, and the permissions that the star stands for:
/// with them check accepts the text, unless it gets too long.
///
/// ```
/// # #[cfg(feature = "library")] {
/// let text = b"class\tS\nfield\tint\tn\nmethod\tint\tm\tint\tk\nrequires\t*\n\
///     ensures\nset\tthis\tn\tk\nend\nmain\nend\n";
/// let filled = nuyardi::fill(text).unwrap();
/// assert_eq!((filled.line(), filled.places()), (4, &[1][..]));
/// assert_eq!(filled.to_string(), "requires\tacc\tthis\tn");
/// assert!(nuyardi::check(&filled.text()).is_ok());
/// # }
/// ```
#[derive(Clone, Copy, PartialEq, Eq, Hash)]
pub struct Filled<'t> {
    text: &'t [u8],
    places: [u8; PLACES_BYTES],
}

/// Why a text is not filled in.
#[derive(Clone, Copy, Debug, PartialEq, Eq, Hash)]
#[non_exhaustive]
pub enum NotFilled {
    /// The text is refused with one of the numbers 2 to 9, with a bare `requires` in
    /// the place of the star.
    Refused(Refusal),
    /// The reader takes the text, and there is no set, or not one star.
    Read {
        /// Why there is no set.
        lack: Lack,
        /// The line of the star, or of a second one; 0 where there is none.
        line: u32,
    },
}

fn lines(text: &[u8]) -> impl Iterator<Item = &[u8]> {
    text.split(|&byte| byte == b'\n')
}

/// The fields of a line whose first one is this word.
fn fields_of<'t>(line: &'t [u8], word: &str) -> Option<impl Iterator<Item = &'t str>> {
    let line = core::str::from_utf8(line).ok()?;
    let rest = line.strip_prefix(word)?.strip_prefix('\t')?;
    Some(rest.split('\t'))
}

/// The first field after the word.
fn name_of<'t>(line: &'t [u8], word: &str) -> Option<&'t str> {
    fields_of(line, word)?.next()
}

/// The permissions to the fields of a class, which follow its line.
fn of_class<'t>(
    text: &'t [u8],
    variable: &'t str,
    class: &'t str,
) -> impl Iterator<Item = Permission<'t>> {
    lines(text)
        .skip_while(move |line| name_of(line, "class") != Some(class))
        .skip(1)
        .map_while(|line| fields_of(line, "field")?.nth(1))
        .map(move |field| Permission { variable, field })
}

impl<'t> Filled<'t> {
    /// What fill returned, the text, and what it left in the places area; none for a
    /// number that it does not return.
    pub(crate) fn of(
        returned: Returned,
        text: &'t [u8],
        places: &[u8; PLACES_BYTES],
    ) -> Option<Result<Filled<'t>, NotFilled>> {
        let line = returned.line();
        if let Some(lack) = Lack::of(returned.number()) {
            return Some(Err(NotFilled::Read { lack, line }));
        }
        if let Some(refusal) = returned.refusal() {
            return Some(Err(NotFilled::Refused(refusal)));
        }
        let places = *places;
        (returned.number() == 0).then_some(Ok(Filled { text, places }))
    }

    /// The places of the permissions, from 1, rising: the fields of `this` in the order
    /// of their lines, then those of the parameter.
    pub fn places(&self) -> &[u8] {
        let zero = self.places.iter().position(|&place| place == 0);
        &self.places[..zero.unwrap_or(PLACES_BYTES)]
    }

    /// The line of the star, from 1.
    pub fn line(&self) -> u32 {
        lines(self.text).take_while(|line| *line != STAR).count() as u32 + 1
    }

    /// What there is to choose from: a permission to each field of `this`, then to
    /// each field of the parameter, if that has a class.
    pub fn choice(&self) -> impl Iterator<Item = Permission<'t>> {
        let text = self.text;
        let before = || lines(text).take_while(|line| *line != STAR);
        let class = before().filter_map(|line| name_of(line, "class")).last();
        let header = before().last().and_then(|line| fields_of(line, "method"));
        let mut header = header.into_iter().flatten().skip(2);
        let (kind, parameter) = (header.next(), header.next());
        let own = of_class(text, "this", class.unwrap_or(""));
        own.chain(of_class(text, parameter.unwrap_or(""), kind.unwrap_or("")))
    }

    /// The permissions, in the order of their places.
    pub fn permissions(&self) -> impl Iterator<Item = Permission<'t>> {
        let places = self.places;
        let choice = self.choice().zip(1..);
        choice.filter_map(move |(permission, place)| places.contains(&place).then_some(permission))
    }

    /// The text with the permissions in the star's place.
    #[cfg(feature = "alloc")]
    pub fn text(&self) -> alloc::vec::Vec<u8> {
        let line = self.line() as usize;
        let mut all = alloc::vec::Vec::with_capacity(self.text.len());
        for (old, at) in self.text.split_inclusive(|&byte| byte == b'\n').zip(1..) {
            match at == line {
                true => all.extend_from_slice(alloc::format!("{self}\n").as_bytes()),
                false => all.extend_from_slice(old),
            }
        }
        all
    }
}

impl NotFilled {
    /// The number.
    pub fn number(self) -> u32 {
        match self {
            NotFilled::Refused(refusal) => refusal.number(),
            NotFilled::Read { lack, .. } => lack.number(),
        }
    }

    /// The line, from 1; 0 where the whole text is meant.
    pub fn line(self) -> u32 {
        match self {
            NotFilled::Refused(refusal) => refusal.line(),
            NotFilled::Read { line, .. } => line,
        }
    }
}

/// The atom, its fields separated by tabs.
impl fmt::Display for Permission<'_> {
    fn fmt(&self, f: &mut fmt::Formatter<'_>) -> fmt::Result {
        write!(f, "acc\t{}\t{}", self.variable, self.field)
    }
}

/// The line that takes the place of `requires *`, without its LF.
impl fmt::Display for Filled<'_> {
    fn fmt(&self, f: &mut fmt::Formatter<'_>) -> fmt::Result {
        write!(f, "requires")?;
        for permission in self.permissions() {
            write!(f, "\t{permission}")?;
        }
        Ok(())
    }
}

impl fmt::Debug for Filled<'_> {
    fn fmt(&self, f: &mut fmt::Formatter<'_>) -> fmt::Result {
        f.debug_struct("Filled")
            .field("line", &self.line())
            .field("places", &self.places())
            .finish_non_exhaustive()
    }
}

impl fmt::Display for NotFilled {
    fn fmt(&self, f: &mut fmt::Formatter<'_>) -> fmt::Result {
        explain::words_at(f, self.line(), self.number())
    }
}

impl core::error::Error for NotFilled {}

impl From<Refusal> for NotFilled {
    fn from(refusal: Refusal) -> NotFilled {
        NotFilled::Refused(refusal)
    }
}
