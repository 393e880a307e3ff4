//! W11: a `requires` line to be filled in. "With `requires *` on one method and all
//! else complete, the call gives the first set of at most 4 `acc` atoms, over the
//! fields of `this` and then of w, with which the whole text, its length apart, is
//! accepted."

use crate::checker::check_block;
use crate::framing::frame;
use crate::limits::{FILLED_ATOMS, TEXT_BYTES};
use crate::names::{resolve, Action, Atom, Path, Program, Type, Var, PARAM, THIS};
use crate::number::{self, Reason, Refusal};
use crate::text::{self, Line, Share};

/// What fill returns and what it leaves in its area.
#[derive(Clone, Copy, Debug, PartialEq, Eq)]
pub struct Filled {
    pub number: u32,
    pub line: u32,
    /// "the atoms' places from 1, rising, then zeros"
    pub places: [u8; FILLED_ATOMS],
}

/// The line with a star, and the line without atoms that it is read as.
const STAR: &[u8] = b"requires\t*\n";
const BARE: &[u8] = b"requires\n";

/// "a refusal has only zeros".
pub fn fill(text: &[u8]) -> Filled {
    match filled(text) {
        Ok(places) => Filled {
            number: number::DONE,
            line: 0,
            places,
        },
        Err(refusal) => Filled {
            number: refusal.number(),
            line: refusal.line,
            places: [0; FILLED_ATOMS],
        },
    }
}

/// First the numbers 2 to 9, 2 for the length of the text as it is given; then 18
/// and 17: "both come after 9".
fn filled(text: &[u8]) -> Result<[u8; FILLED_ATOMS], Refusal> {
    if text.len() > TEXT_BYTES {
        return Err(refused(Reason::TooLong, 0));
    }
    let (bare, stars) = without_stars(text);
    let lines = text::lines(&bare)?;
    let program = resolve(&lines)?;
    let star = only(&stars)?;
    // Number 10 is that of another line: it is the same for every set.
    let framed = frame(&lines).is_ok();
    let set = framed.then(|| Filling::new(program, method_at(&lines, star)).first());
    match set.flatten() {
        Some(set) => Ok(written(&set)),
        None => Err(refused(Reason::Unfilled, star)),
    }
}

fn refused(reason: Reason, line: u32) -> Refusal {
    Refusal { reason, line }
}

/// The text with no atoms in the place of each star, and the lines of the stars.
fn without_stars(text: &[u8]) -> (Vec<u8>, Vec<u32>) {
    let mut bare = Vec::with_capacity(text.len());
    let mut stars = Vec::new();
    for (line, at) in text.split_inclusive(|&byte| byte == b'\n').zip(1..) {
        if line == STAR {
            stars.push(at);
            bare.extend_from_slice(BARE);
        } else {
            bare.extend_from_slice(line);
        }
    }
    (bare, stars)
}

/// "with 18 at the second star, or at line 0 where there is none".
fn only(stars: &[u32]) -> Result<u32, Refusal> {
    match *stars {
        [] => Err(refused(Reason::Stars, 0)),
        [star] => Ok(star),
        [_, second, ..] => Err(refused(Reason::Stars, second)),
    }
}

/// The method whose `requires` is this line, a place in the list of blocks.
fn method_at(lines: &[Line], requires: u32) -> usize {
    let before = &lines[..requires as usize - 1];
    let methods = before
        .iter()
        .filter(|line| matches!(line, Line::Method { .. }));
    methods.count() - 1
}

/// Places from 1, rising.
type Set = Vec<usize>;

fn written(set: &[usize]) -> [u8; FILLED_ATOMS] {
    let mut places = [0; FILLED_ATOMS];
    for (byte, &place) in places.iter_mut().zip(set) {
        *byte = place as u8;
    }
    places
}

/// A program, one of whose methods has its `requires` filled in.
struct Filling<'a> {
    program: Program<'a>,
    /// The method, a place in the list of blocks.
    method: usize,
    /// "over the fields of `this` and then of w": place n is entry n - 1.
    places: Vec<Path<'a>>,
}

impl<'a> Filling<'a> {
    fn new(program: Program<'a>, method: usize) -> Filling<'a> {
        let header = program.blocks[method].header.expect("a method");
        let mut places = fields(&program, THIS, Type::Class(header.class));
        places.extend(fields(&program, PARAM, header.param.kind));
        Filling {
            program,
            method,
            places,
        }
    }

    /// The first set that is accepted. "Fewer atoms come first, then the earlier
    /// place where two sets first differ".
    fn first(mut self) -> Option<Set> {
        let blocks = 0..self.program.blocks.len();
        let (others, concerned): (Vec<_>, Vec<_>) = blocks.partition(|&at| !self.concerns(at));
        if !accepted(&self.program, &others) {
            return None;
        }
        let mut sets = vec![Set::new()];
        loop {
            if let Some(found) = sets.iter().find(|set| self.accepts(set, &concerned)) {
                return Some(found.clone());
            }
            if sets.first()?.len() == FILLED_ATOMS {
                return None;
            }
            sets = longer(&sets, self.places.len());
        }
    }

    /// Does the check of the block read what the method requires? That of the
    /// method itself does, and that of every block which calls it.
    fn concerns(&self, block: usize) -> bool {
        let calls =
            |action: &Action| matches!(action, Action::Call(call) if call.method == self.method);
        let mut body = self.program.body(block).iter();
        block == self.method || body.any(|statement| calls(&statement.action))
    }

    /// Is the program accepted with these atoms, so far as it is these blocks?
    fn accepts(&mut self, set: &[usize], blocks: &[usize]) -> bool {
        let atom = |&place: &usize| Atom::Permission(Share::Acc, self.places[place - 1]);
        self.program.blocks[self.method].requires = set.iter().map(atom).collect();
        accepted(&self.program, blocks)
    }
}

/// The paths of a variable by the fields of its class; an int has none.
fn fields<'a>(program: &Program<'a>, var: Var, kind: Type<'a>) -> Vec<Path<'a>> {
    let Type::Class(class) = kind else {
        return Vec::new();
    };
    let class = program.class(class).expect("a class that is declared");
    let fields = program.classes[class].fields.iter().enumerate();
    let path = |(slot, field): (usize, &crate::names::Declared<'a>)| Path {
        var,
        field: field.name,
        slot,
    };
    fields.map(path).collect()
}

fn accepted(program: &Program, blocks: &[usize]) -> bool {
    let mut blocks = blocks.iter();
    blocks.all(|&block| check_block(program, block).is_ok())
}

/// The sets of one place more, in order, from those of one length in order.
fn longer(sets: &[Set], places: usize) -> Vec<Set> {
    let with_one = |set: &Set| {
        let set = set.clone();
        let next = set.last().map_or(1, |last| last + 1);
        (next..=places).map(move |place| [&set[..], &[place]].concat())
    };
    sets.iter().flat_map(with_one).collect()
}
