//! Every number in words: what it means and what usually helps.

use core::fmt;

/// A number in words.
#[derive(Clone, Copy, Debug, PartialEq, Eq)]
#[non_exhaustive]
pub struct Explanation {
    /// The number.
    pub number: u32,
    /// What is the matter, in a few words.
    pub title: &'static str,
    /// What the number means.
    pub meaning: &'static str,
    /// What usually helps.
    pub advice: &'static str,
    /// A short script that gets the number, where there is one.
    pub example: Option<&'static str>,
}

macro_rules! example {
    ($name:literal) => {
        Some(include_str!(concat!(
            "../../../examples/",
            $name,
            ".script"
        )))
    };
}

/// The explanation of a number, if it is one that the calls return.
///
/// ```
/// let known = nuyardi::explain(12).unwrap();
/// assert_eq!(known.title, "a permission that is not shown");
/// assert!(nuyardi::explain(20).is_none());
/// ```
pub fn explain(number: u32) -> Option<&'static Explanation> {
    EXPLANATIONS.iter().find(|known| known.number == number)
}

/// A number's title and advice, as messages have them.
pub(crate) fn words(f: &mut fmt::Formatter<'_>, number: u32) -> fmt::Result {
    match explain(number) {
        Some(known) => write!(f, "{} (number {number}); {}", known.title, known.advice),
        None => write!(f, "number {number}"),
    }
}

/// The same after the line, where there is one.
pub(crate) fn words_at(f: &mut fmt::Formatter<'_>, line: u32, number: u32) -> fmt::Result {
    if line != 0 {
        write!(f, "line {line}: ")?;
    }
    words(f, number)
}

/// Every number that the calls return, in rising order.
pub const EXPLANATIONS: &[Explanation] = &[
    Explanation {
        number: 0,
        title: "accepted, or finished",
        meaning: "Check accepts the text: its runs never lack a permission, follow null or meet \
                  a false formula. A run has done main's `end`. Bound gives the most steps, and \
                  fill the permissions. Count has run its scripts, each with an answer of its own.",
        advice: "there is nothing to fix",
        example: None,
    },
    Explanation {
        number: 1,
        title: "a lent area of wrong length",
        meaning: "The program that calls the library lent it an area of another length than it \
                  takes. No script can cause this.",
        advice: "lend 65,536 bytes to work in, 52 bytes for results, 8 bytes for bounds and 4 bytes \
               for places, and 224 bytes for the results of a count",
        example: None,
    },
    Explanation {
        number: 2,
        title: "a text that is too long",
        meaning: "A text has at most 32,768 bytes, tabs and line ends counted.",
        advice: "shorten names, or split the script into several",
        example: None,
    },
    Explanation {
        number: 3,
        title: "a byte that is not allowed in a text",
        meaning: "A text has tabs, line ends (LF) and the visible ASCII characters, and its last \
                  line is ended too. Blanks, CR, accented letters and control characters are refused.",
        advice: "separate fields by tabs, not blanks, end lines with LF alone, and end the last line",
        example: example!("refused-03"),
    },
    Explanation {
        number: 4,
        title: "a line that the grammar does not have, or that is in the wrong place",
        meaning: "The first word is unknown, a field is missing or too many, a field is no name, \
                  number, expression or atom, or the line may not stand here: `requires` and \
                  `ensures` follow `method`, `var` lines come before statements, every `if` has \
                  `else` and `join`, every `loop` its `again`, `return` stands in methods only and \
                  only `else`, `join`, `again` or `end` follows it, nothing follows main's `end`. \
                  A formula has at most 8 atoms, in a `loop` after its condition; a name has at most \
                  12 letters and digits. A line `requires *` is yet to be filled in: only fill takes \
                  it.",
        advice: "compare the line with its form in the guide; one tab separates two fields, and none \
               begins or ends a line; fill finds what a `requires *` stands for",
        example: example!("refused-04"),
    },
    Explanation {
        number: 5,
        title: "a limit of the text is passed",
        meaning: "A text has at most 16 classes, 8 fields a class, 64 methods, 12 `var` lines a \
                  block, 256 statement lines (`else`, `join`, `again` and `end` counted), and \
                  branches and loops that nest 4 deep.",
        advice: "lines that recur go into a method, where they count once, and so do the inner branches \
               and loops; fields go into a second class with a link to it; or split the script",
        example: example!("refused-05"),
    },
    Explanation {
        number: 6,
        title: "a name that is not declared, not allowed here, reserved or declared twice",
        meaning: "Every class, field, method and variable is declared once, and a field or method \
                  belongs to the class of the variable before it. `requires` names only `this` and \
                  the parameter, `ensures` also `result`; main has none of the three. `int`, `null`, \
                  `this` and `result` are reserved.",
        advice: "declare the name, look for a slip in its letters, or look up which class has the field",
        example: example!("refused-06"),
    },
    Explanation {
        number: 7,
        title: "a wrong type",
        meaning: "Both sides of `eq`, `ne`, `let` and `set`, an argument and its parameter, a result \
                  and what takes it are both int, or both null or of one class. All three variables of \
                  `add` and `sub` are int. Only a variable of a class has fields and methods. The \
                  variable of `new` is of that class. The field of a `chain`, an `open` or a `shut` \
                  has the class of its x as its type, and the y of `open y x f` is of that class.",
        advice: "give both sides one type: change the declaration, or name another variable",
        example: example!("refused-07"),
    },
    Explanation {
        number: 8,
        title: "the text ends before main's `end`",
        meaning: "A text ends with a block `main`, and that block with `end`. The line given is the \
                  last one.",
        advice: "add what is missing after the last line; an `else`, `join`, `again` or `end` that is \
               missing before other lines is number 4, at the line that comes in its place",
        example: example!("refused-08"),
    },
    Explanation {
        number: 9,
        title: "a variable that may not be assigned here",
        meaning: "`let`, `new`, `call`, `add`, `sub` and `open` may not assign `this`, the parameter \
                  or `result`; the x of `call x y m z` may be neither y nor z, and the y of \
                  `open y x f` not x.",
        advice: "assign a local variable instead; `return` is what sets `result`",
        example: example!("refused-09"),
    },
    Explanation {
        number: 10,
        title: "a path that is read before its `acc` or `read`",
        meaning: "In `requires`, `ensures`, `join` and the invariant of a `loop` a path `x.f` may be \
                  read only after `acc x f` or `read x f`, by these two names, in the same line. The \
                  condition of a `loop` reads only paths whose `acc` or `read` is in the invariant \
                  after it. `chain x f` does not serve for `x.f`.",
        advice: "write `acc x f` or `read x f` before the atom that reads `x.f`; for a loop's \
               condition, into its invariant; a link of a chain is read after `open`, in the body",
        example: example!("refused-10"),
    },
    Explanation {
        number: 11,
        title: "a path that does not resolve",
        meaning: "The line reads `x.f`, but no permission to it is known here, neither whole nor \
                  half: not for x, nor for anything known to be equal to x.",
        advice: "keep or ask for the permission before this line: in `requires`, in the `ensures` of \
               the method called before, in the `join` or `loop` before, or by not releasing it; a \
               path that is in a chain is there after `open`",
        example: example!("refused-11"),
    },
    Explanation {
        number: 12,
        title: "a permission that is not shown",
        meaning: "The line needs `acc x f`, `read x f` or `chain x f`, for itself or for a formula \
                  that it must show, and no permission that is known here and not yet used by the \
                  same formula gives it. `set` needs `acc`, and a `read`, which is a half, never gives \
                  an `acc`. `open` takes a chain. `shut x f` takes the chain of the card that `x.f` \
                  leads to, and `acc x f`.",
        advice: "ask for it in `requires`, give it back in `ensures`, keep it in `join` or in the \
               invariant of a `loop`, which is shown before the first round and at each `again`; a \
               formula with `acc x f` twice needs two objects; a half that a method was handed by \
               `read` comes back by a `read` in its `ensures`; a chain that was opened is one again \
               after `shut`, the last card's first, and a ring of cards never is; what a method's \
               `requires` lacks, fill finds for a `requires *`",
        example: example!("refused-12"),
    },
    Explanation {
        number: 13,
        title: "an `eq` or `ne` that is not shown",
        meaning: "What is known here does not make the two sides equal, or different. Of a new value \
                  only what its line says is known: of a sum or difference nothing, of the fields that \
                  a call is handed what `ensures` says. After `join` only its formula is known, in \
                  a loop only the invariant and the condition, after it the invariant and the \
                  condition's opposite. `open y x f` wants x not to be null.",
        advice: "state the fact where it is lost: in `ensures`, in `join`, in `loop`, or by `if`; what \
               a loop's body makes false cannot be in its invariant",
        example: example!("refused-13"),
    },
    Explanation {
        number: 14,
        title: "the checker's state is full",
        meaning: "At most 64 permissions and 64 facts can be known at one line; a chain is one \
                  permission. The line would add one more.",
        advice: "move a part into a method, whose contract keeps only what is needed, or let a `join` \
               or `loop` do so; `release` makes room for permissions",
        example: example!("refused-14"),
    },
    Explanation {
        number: 15,
        title: "a loop, or a call that can lead back to its own method",
        meaning: "How often a `loop` goes round, and how often a method calls itself, by way of \
                  others too, shows in a run alone: no bound is known before it. Methods that main \
                  does not call count too. Only bound refuses so; check accepts the text.",
        advice: "run it with as many steps as it may take, and number 21 stops it there; or write the \
               rounds as lines, or as calls of a method that does one",
        example: example!("refused-15"),
    },
    Explanation {
        number: 16,
        title: "a bound of more than 1,000,000 steps",
        meaning: "Main's statement lines, with those of the methods that they call, as often as they \
                  call them, are above 1,000,000 in all. Only bound refuses so; check accepts the \
                  text.",
        advice: "run it with as many steps as it may take, and number 21 stops it there; or call less: \
               methods that each call the next one twice double the bound every time",
        example: example!("refused-16"),
    },
    Explanation {
        number: 17,
        title: "no permissions with which a `requires *` is accepted",
        meaning: "With none of the sets of at most 4 permissions `acc x f`, to the fields of `this` \
                  and of the parameter, in the place of the star does check accept the text. The \
                  fault may also stand elsewhere, in a line that the star has nothing to do with. \
                  Only fill refuses so; check refuses the star itself, with number 4.",
        advice: "write `requires` by hand and let check say which line is refused: it may need a fact, \
               a `read` or a `chain`, a permission to a further object, more than 4 permissions, or \
               an `ensures` that gives back what the caller lacks",
        example: example!("refused-17"),
    },
    Explanation {
        number: 18,
        title: "no `requires *` to be filled in, or a second one",
        meaning: "One method of the text has a line `requires *`, `requires` and `*` separated by a tab. \
                  The line given is that of the second star, 0 if there is none. Only fill refuses \
                  so; check refuses a star with number 4.",
        advice: "put the star in the place of all atoms of the one `requires` line that is to be filled \
               in, and write the others by hand",
        example: example!("refused-18"),
    },
    Explanation {
        number: 19,
        title: "a count without scripts, or with shares that do not fit",
        meaning: "A count takes 1 to 4 scripts, and gives each a share of the 256 objects, at least 1. \
                  There is no script, or a fifth, a share is 0, or the shares are above 256 \
                  together. No script is read. Only count refuses so.",
        advice: "give at most 4 scripts, each a share of 1 or more objects, at most 256 in all",
        example: None,
    },
    Explanation {
        number: 21,
        title: "the allowed steps are taken",
        meaning: "Each statement line is a step, `else`, `join` and `end` too; `return` is one, and \
                  the method's `end` none after it; in a loop each `again` is one, and each arrival \
                  at the `loop`. In a count each round is one for each script. The line given is the \
                  one that would have come next.",
        advice: "allow more steps, or look for a loop that never ends or a method that calls itself without end",
        example: example!("stopped-21"),
    },
    Explanation {
        number: 22,
        title: "the heap is full",
        meaning: "A run makes at most 256 objects with 1,024 fields in all, a script of a count as many \
                  objects as its share has, with 4 times as many fields. Objects are never taken back.",
        advice: "make fewer objects, or classes with fewer fields; in a count, give the script a larger \
               share",
        example: example!("stopped-22"),
    },
    Explanation {
        number: 23,
        title: "the frames are full",
        meaning: "At most 64 blocks are open at a time, main's among them: calls nest at most 63 \
                  deep.",
        advice: "look for a method that calls itself without end, or make the chain of calls shorter",
        example: example!("stopped-23"),
    },
    Explanation {
        number: 24,
        title: "a permission is missing",
        meaning: "The running block does not hold the field that the line reads, writes or claims, \
                  or only a half of one that it writes or claims whole, or a chain goes over a card \
                  whose link it does not hold whole. An accepted text never stops so.",
        advice: "check the text: the refused line says which permission is not handed over",
        example: example!("stopped-24"),
    },
    Explanation {
        number: 25,
        title: "null was followed",
        meaning: "The line reads or claims a field of null, opens or shuts a chain there, or calls a \
                  method of null. An accepted text never stops so.",
        advice: "check the text; test by `if ne x null` before following x",
        example: example!("stopped-25"),
    },
    Explanation {
        number: 26,
        title: "an `eq` or `ne` is false, or a chain is a ring",
        meaning: "A formula of the line is false: an `assert` or `release`, a `join`, the invariant \
                  of a `loop`, the `requires` of a call or the `ensures` of a method; or the chain that \
                  the line goes over leads back to one of its cards. An accepted text never stops \
                  so.",
        advice: "check the text, and compare the values that the run left with the formula",
        example: example!("stopped-26"),
    },
    Explanation {
        number: 27,
        title: "a sum or difference beyond 32 bits",
        meaning: "An `add` or `sub` would give less than -2147483648 or more than 2147483647. The \
                  step is not done, and the variable keeps its value. The checker does not compute, \
                  so an accepted text may stop so too.",
        advice: "test before adding, by `if eq` the number at which counting must end, or keep counts \
               small",
        example: example!("stopped-27"),
    },
];
