//! The form of the text: fields, names, numbers, atoms and the kinds of line.
//! Where lines may stand is told in `reader`.

use crate::limits;

pub use crate::reader::{allowed_byte, lines, lines_by, Block, Branch, Limit, Place, Reader};
pub use crate::share::Share;

/// A name as it stands in the text. A reserved word has the form of a name.
pub type Name<'a> = &'a [u8];

/// "An expression e is a number, `null`, a variable x, or a path `x.f`."
#[derive(Clone, Copy, Debug, PartialEq, Eq)]
pub enum Expr<'a> {
    Number(i32),
    Null,
    Var(Name<'a>),
    Path(Name<'a>, Name<'a>),
}

/// "An atom is three fields: `acc x f`, `eq e e` or `ne e e`", W8: "A new atom
/// `read x f`", and W9: "The atom `chain x f`".
#[derive(Clone, Copy, Debug, PartialEq, Eq)]
pub enum Atom<'a> {
    /// `acc x f`, `read x f` or `chain x f`.
    Permission(Share, Name<'a>, Name<'a>),
    Eq(Expr<'a>, Expr<'a>),
    Ne(Expr<'a>, Expr<'a>),
}

/// "New lines `add x y z` and `sub x y z` give the int x the sum or difference
/// of the int variables y and z".
#[derive(Clone, Copy, Debug, PartialEq, Eq)]
pub enum Operator {
    Add,
    Sub,
}

impl Operator {
    /// The line's word.
    pub fn word(self) -> &'static str {
        match self {
            Operator::Add => "add",
            Operator::Sub => "sub",
        }
    }

    /// The sum or difference; none if it is "beyond 32 bits signed".
    pub fn value(self, y: i32, z: i32) -> Option<i32> {
        match self {
            Operator::Add => y.checked_add(z),
            Operator::Sub => y.checked_sub(z),
        }
    }
}

/// A formula: the atoms of one line.
pub type Formula<'a> = Vec<Atom<'a>>;

/// One line, by its first word.
#[derive(Clone, Debug, PartialEq, Eq)]
pub enum Line<'a> {
    Class(Name<'a>),
    Field {
        kind: Name<'a>,
        name: Name<'a>,
    },
    Method {
        result: Name<'a>,
        name: Name<'a>,
        kind: Name<'a>,
        param: Name<'a>,
    },
    Requires(Formula<'a>),
    Ensures(Formula<'a>),
    Main,
    Var {
        kind: Name<'a>,
        name: Name<'a>,
    },
    Set(Name<'a>, Name<'a>, Name<'a>),
    Let(Name<'a>, Expr<'a>),
    /// `add x y z` or `sub x y z`.
    Compute(Operator, Name<'a>, Name<'a>, Name<'a>),
    New(Name<'a>, Name<'a>),
    Call(Name<'a>, Name<'a>, Name<'a>, Name<'a>),
    /// W9: `open y x f`.
    Open(Name<'a>, Name<'a>, Name<'a>),
    /// W9: `shut x f`.
    Shut(Name<'a>, Name<'a>),
    Return(Name<'a>),
    Assert(Formula<'a>),
    Release(Formula<'a>),
    If(Atom<'a>),
    Else,
    Join(Formula<'a>),
    /// W5: "`loop` takes a condition atom (`eq` or `ne`) and then the atoms of
    /// an invariant".
    Loop(Atom<'a>, Formula<'a>),
    Again,
    End,
}

/// "A name is a letter and up to 11 more letters or digits (ASCII)".
pub fn name(field: &[u8]) -> Option<Name<'_>> {
    let (first, rest) = field.split_first()?;
    let formed = first.is_ascii_alphabetic() && rest.iter().all(u8::is_ascii_alphanumeric);
    (formed && field.len() <= limits::NAME_BYTES).then_some(field)
}

/// "`int`, `null`, `this`, `result` are reserved."
pub fn reserved(name: Name) -> bool {
    matches!(name, b"int" | b"null" | b"this" | b"result")
}

/// "A number is decimal, −2147483648 to 2147483647, with `-` as its sign, no
/// leading zero and no `-0`." W4: "one path for both signs: digits times 1 or
/// −1, the factor worked out from the first byte."
pub fn number(field: &[u8]) -> Option<i32> {
    let factor = if field.starts_with(b"-") { -1 } else { 1 };
    let digits = &field[usize::from(factor < 0)..];
    if digits.is_empty() || digits.len() > 10 || !digits.iter().all(u8::is_ascii_digit) {
        return None;
    }
    if digits[0] == b'0' && field.len() > 1 {
        return None;
    }
    let size = digits
        .iter()
        .fold(0i64, |value, digit| value * 10 + i64::from(digit - b'0'));
    i32::try_from(size * factor).ok()
}

/// The form of an expression; a path has exactly one dot.
pub fn expression(field: &[u8]) -> Option<Expr<'_>> {
    if field == b"null" {
        return Some(Expr::Null);
    }
    if let Some(dot) = field.iter().position(|&byte| byte == b'.') {
        return Some(Expr::Path(name(&field[..dot])?, name(&field[dot + 1..])?));
    }
    match name(field) {
        Some(var) => Some(Expr::Var(var)),
        None => number(field).map(Expr::Number),
    }
}

fn atom<'a>(fields: &[&'a [u8]]) -> Option<Atom<'a>> {
    let &[word, left, right] = fields else {
        return None;
    };
    match word {
        b"eq" => Some(Atom::Eq(expression(left)?, expression(right)?)),
        b"ne" => Some(Atom::Ne(expression(left)?, expression(right)?)),
        _ => {
            let share = Share::named(word)?;
            Some(Atom::Permission(share, name(left)?, name(right)?))
        }
    }
}

/// "A formula is 0 to 8 atoms on the same line ...; a ninth is number 4".
fn formula<'a>(fields: &[&'a [u8]]) -> Option<Formula<'a>> {
    if fields.len() > 3 * limits::ATOMS {
        return None;
    }
    let mut atoms = Vec::with_capacity(fields.len().div_ceil(3));
    for fields in fields.chunks(3) {
        atoms.push(atom(fields)?);
    }
    Some(atoms)
}

/// "`if eq e e` or `if ne e e`", and the first atom of a `loop`.
fn condition<'a>(fields: &[&'a [u8]]) -> Option<Atom<'a>> {
    atom(fields).filter(|atom| !matches!(atom, Atom::Permission(..)))
}

/// A condition, "and then the atoms of an invariant, at most 8".
fn loop_line<'a>(fields: &[&'a [u8]]) -> Option<Line<'a>> {
    let (first, rest) = fields.split_at_checked(3)?;
    Some(Line::Loop(condition(first)?, formula(rest)?))
}

/// No line has more fields than a `loop` with its condition and eight atoms.
const FIELDS: usize = 1 + 3 * (1 + limits::ATOMS);

/// The form of one line, its LF taken off; none is number 4.
pub fn line(bytes: &[u8]) -> Option<Line<'_>> {
    let mut fields: [&[u8]; FIELDS] = [&[]; FIELDS];
    let mut count = 0;
    for field in bytes.split(|&byte| byte == b'\t') {
        *fields.get_mut(count)? = field;
        count += 1;
    }
    let (&word, rest) = fields[..count].split_first()?;
    match word {
        b"requires" => formula(rest).map(Line::Requires),
        b"ensures" => formula(rest).map(Line::Ensures),
        b"assert" => formula(rest).map(Line::Assert),
        b"release" => formula(rest).map(Line::Release),
        b"join" => formula(rest).map(Line::Join),
        b"if" => condition(rest).map(Line::If),
        b"loop" => loop_line(rest),
        b"let" => match *rest {
            [var, value] => Some(Line::Let(name(var)?, expression(value)?)),
            _ => None,
        },
        _ if rest.iter().all(|field| name(field).is_some()) => named_line(word, rest),
        _ => None,
    }
}

/// The kinds of line that have nothing but names after their word.
fn named_line<'a>(word: &[u8], names: &[Name<'a>]) -> Option<Line<'a>> {
    Some(match (word, names) {
        (b"class", &[name]) => Line::Class(name),
        (b"field", &[kind, name]) => Line::Field { kind, name },
        (b"method", &[result, name, kind, param]) => Line::Method {
            result,
            name,
            kind,
            param,
        },
        (b"main", &[]) => Line::Main,
        (b"var", &[kind, name]) => Line::Var { kind, name },
        (b"set", &[x, f, y]) => Line::Set(x, f, y),
        (b"add", &[x, y, z]) => Line::Compute(Operator::Add, x, y, z),
        (b"sub", &[x, y, z]) => Line::Compute(Operator::Sub, x, y, z),
        (b"new", &[x, class]) => Line::New(x, class),
        (b"call", &[x, y, m, z]) => Line::Call(x, y, m, z),
        (b"open", &[y, x, f]) => Line::Open(y, x, f),
        (b"shut", &[x, f]) => Line::Shut(x, f),
        (b"return", &[x]) => Line::Return(x),
        (b"else", &[]) => Line::Else,
        (b"again", &[]) => Line::Again,
        (b"end", &[]) => Line::End,
        _ => return None,
    })
}

#[cfg(test)]
mod tests {
    use super::*;

    #[test]
    fn numbers_have_one_form_each() {
        for (field, value) in [
            ("0", 0),
            ("7", 7),
            ("-1", -1),
            ("10", 10),
            ("2147483647", i32::MAX),
            ("-2147483648", i32::MIN),
        ] {
            assert_eq!(number(field.as_bytes()), Some(value), "{field}");
        }
        for field in [
            "",
            "-",
            "-0",
            "00",
            "01",
            "-01",
            "+5",
            "5a",
            "2147483648",
            "-2147483649",
            "9999999999",
            "99999999999999999999",
            "--1",
            "1-",
            "1.0",
        ] {
            assert_eq!(number(field.as_bytes()), None, "{field}");
        }
    }

    #[test]
    fn names_have_at_most_twelve_letters_or_digits() {
        for field in ["a", "Z9", "abcdefghijkl", "int", "A23456789012"] {
            assert_eq!(name(field.as_bytes()), Some(field.as_bytes()));
        }
        for field in ["", "9a", "a_b", "a.b", "abcdefghijklm", "-a", "a-"] {
            assert_eq!(name(field.as_bytes()), None, "{field}");
        }
    }

    #[test]
    fn expressions() {
        assert_eq!(expression(b"null"), Some(Expr::Null));
        assert_eq!(expression(b"x.f"), Some(Expr::Path(b"x", b"f")));
        assert_eq!(expression(b"null.f"), Some(Expr::Path(b"null", b"f")));
        assert_eq!(expression(b"this"), Some(Expr::Var(b"this")));
        assert_eq!(expression(b"-5"), Some(Expr::Number(-5)));
        for field in ["x.f.g", ".f", "x.", ".", "", "1.f", "x.1", "x..f"] {
            assert_eq!(expression(field.as_bytes()), None, "{field}");
        }
    }
}
