//! Numbers 6, 7, 9 and 10: names, types, what may be assigned, and paths that
//! are read before their `acc` or `read`.

use super::Cause;
use crate::nearest::did_you_mean;
use crate::script::{field_range, line, listed, place_in, shown};
use model::faults::{Fault, Role, Sides};
use model::names::{declarations, resolve_noted, Block, Class, Declared, Kind, Program, Type};
use model::text::{self, Expr, Line, Name};
use std::ops::Range;

/// The declarations of a text, and the line that is looked at.
struct Look<'a> {
    text: &'a [u8],
    lines: Vec<Line<'a>>,
    program: Program<'a>,
    number: u32,
}

impl<'a> Look<'a> {
    fn at(text: &'a [u8], number: u32) -> Option<Look<'a>> {
        let lines = text::lines(text).ok()?;
        let program = declarations(&lines);
        Some(Look {
            text,
            lines,
            program,
            number,
        })
    }

    fn bytes(&self) -> &'a [u8] {
        line(self.text, self.number).unwrap_or_default()
    }

    fn before(&self) -> impl DoubleEndedIterator<Item = (u32, &Line<'a>)> {
        let lines = self.lines.iter().enumerate();
        let numbered = lines.map(|(at, line)| (at as u32 + 1, line));
        numbered.take(self.number as usize)
    }

    /// The block that the line is in.
    fn block(&self) -> Option<&Block<'a>> {
        let starts = |line: &Line| matches!(line, Line::Method { .. } | Line::Main);
        let count = self.before().filter(|(_, line)| starts(line)).count();
        self.program.blocks.get(count.checked_sub(1)?)
    }

    fn line(&self) -> Option<&Line<'a>> {
        self.lines.get(self.number as usize - 1)
    }

    fn class(&self, name: Name) -> Option<&Class<'a>> {
        self.program.classes.get(self.program.class(name)?)
    }

    /// The type of a variable of the block.
    fn variable_kind(&self, name: Name) -> Option<Type<'a>> {
        let block = self.block()?;
        let local = block.locals.iter().find(|local| local.name == name);
        let header = block.header;
        match name {
            b"this" => header.map(|header| Type::Class(header.class)),
            b"result" => header.map(|header| header.result),
            _ => local.map(|local| local.kind).or_else(|| {
                let param = header.map(|header| header.param)?;
                (param.name == name).then_some(param.kind)
            }),
        }
    }

    /// The names that a line of the block may use.
    fn variables(&self) -> Vec<String> {
        let Some(block) = self.block() else {
            return Vec::new();
        };
        let contract = matches!(self.line(), Some(Line::Requires(_) | Line::Ensures(_)));
        let mut names = Vec::new();
        if let Some(header) = block.header {
            names.push("this".to_string());
            names.push(shown(header.param.name));
        }
        if !contract {
            names.extend(block.locals.iter().map(|local| shown(local.name)));
        }
        if block.header.is_some() && !matches!(self.line(), Some(Line::Requires(_))) {
            names.push("result".to_string());
        }
        names
    }
}

/// Numbers 6, 7 and 9.
pub fn fault(text: &[u8], number: u32) -> Option<Cause> {
    let look = Look::at(text, number)?;
    let noted = resolve_noted(&look.lines).err()?;
    let (fault, atom) = (noted.fault, noted.atom);
    let bytes = look.bytes();
    let name_mark = |name: Name| place_in(bytes, name);
    Some(match fault {
        Fault::Undeclared(name, role) => undeclared(&look, name, role).mark(name_mark(name)),
        Fault::Reserved(name) => reserved(name).mark(name_mark(name)),
        Fault::Twice(name) => twice(&look, name).mark(name_mark(name)),
        Fault::Mismatch { sides, left, right } => {
            let mark = sides_mark(bytes, sides, atom);
            mismatch(sides, left, right).mark(mark)
        }
        Fault::NoObject(name) => {
            let name_shown = shown(name);
            Cause::new(format!(
                "`{name_shown}` is int; only a variable of a class has fields and methods"
            ))
            .mark(name_mark(name))
        }
        Fault::NoInt(name) => no_int(&look, name).mark(name_mark(name)),
        Fault::NoLink(x, field, kind) => no_link(&look, x, field, kind).mark(name_mark(field)),
        Fault::Assigned(name) => assigned(&look, name).mark(name_mark(name)),
        Fault::Same(name) => same(&look, name).mark(name_mark(name)),
        _ => return None,
    })
}

/// An object variable in an `add` or `sub`.
fn no_int(look: &Look, name: Name) -> Cause {
    let kind = look.variable_kind(name).map(Kind::Of);
    let kind = kind.map_or("no number".to_string(), kind_shown);
    let takes = matches!(look.line(), Some(Line::Compute(_, x, ..)) if *x == name);
    let name = shown(name);
    let cause = Cause::new(format!(
        "`{name}` is {kind}; `add` and `sub` take int variables"
    ));
    match takes {
        true => cause.help("take the number in an int variable: `var int v`"),
        false => cause.help(format!(
            "`let k {name}.f` first, with an int variable k and an int field f, then name k here"
        )),
    }
}

fn sides_mark(bytes: &[u8], sides: Sides, atom: usize) -> Option<Range<usize>> {
    let fields = match sides {
        Sides::Atom => 1 + 3 * atom..4 + 3 * atom,
        Sides::Let => 2..3,
        Sides::Set => 3..4,
        Sides::Argument => 4..5,
        _ => 1..2,
    };
    field_range(bytes, fields)
}

fn undeclared(look: &Look, name: Name, role: Role) -> Cause {
    match role {
        Role::Variable => unknown_variable(look, name),
        Role::Class => {
            let classes: Vec<String> = look.program.classes.iter().map(|c| shown(c.name)).collect();
            let near = did_you_mean(&shown(name), classes.iter().map(String::as_str));
            let cause = Cause::new(format!("no class `{}` is declared{near}", shown(name)));
            let cause = cause.or_help(turned(look));
            match classes.is_empty() {
                true => cause.note("a type is `int` or a class, and there is no class"),
                false => cause.note(format!("a type is `int` or {}", listed(&classes, "or"))),
            }
        }
        Role::Field(class) => {
            let names = |class: &Class| class.fields.iter().map(|f| shown(f.name)).collect();
            member(look, "field", name, class, names)
        }
        Role::Method(class) => {
            let names = |class: &Class| {
                let blocks = class
                    .methods
                    .iter()
                    .map(|&at| look.program.blocks[at].header);
                blocks.flatten().map(|header| shown(header.name)).collect()
            };
            member(look, "method", name, class, names)
        }
        _ => Cause::new(format!("`{}` is not declared", shown(name))),
    }
}

/// The line with type and name in their order, where they were turned.
fn turned(look: &Look) -> Option<String> {
    let (word, kind, name) = match look.line()? {
        Line::Var { kind, name } => ("var", kind, name),
        Line::Field { kind, name } => ("field", kind, name),
        _ => return None,
    };
    let is_type = *name == b"int" || look.class(name).is_some();
    is_type.then(|| {
        format!(
            "the type comes first: `{word} {} {}`",
            shown(name),
            shown(kind)
        )
    })
}

fn member(
    look: &Look,
    what: &str,
    name: Name,
    class: Name,
    names: impl Fn(&Class) -> Vec<String>,
) -> Cause {
    let (name, class_name) = (shown(name), shown(class));
    let own = look.class(class).map(&names).unwrap_or_default();
    let near = did_you_mean(&name, own.iter().map(String::as_str));
    let cause = Cause::new(format!("class {class_name} has no {what} `{name}`{near}"));
    let others = look.program.classes.iter();
    let others: Vec<String> = others
        .filter(|class| names(class).contains(&name))
        .map(|class| shown(class.name))
        .collect();
    let cause = match own.is_empty() {
        true => cause.note(format!("class {class_name} has no {what} at all")),
        false => cause.note(format!("its {what}s: {}", listed(&own, "and"))),
    };
    match others.is_empty() {
        true => cause,
        false => cause.note(format!(
            "`{name}` is a {what} of {}",
            listed(&others, "and")
        )),
    }
}

/// A name that is no variable here, though it means something elsewhere.
fn elsewhere(look: &Look, name: Name, names: &[String]) -> Option<Cause> {
    let block = look.block()?;
    let here = block.locals.iter().any(|local| local.name == name);
    let shown_name = shown(name);
    Some(match (shown_name.as_str(), look.line()?) {
        ("null", Line::Compute(..)) => Cause::new("`null` is no number")
            .help("`let k 0` first, with an int variable k, then name k here"),
        ("null", _) => Cause::new("`null` stands where a variable must stand")
            .help("`let p null` first, with a variable p of the class, then name p here"),
        ("int", _) => Cause::new("`int` is a type, no variable"),
        ("this" | "result", _) if block.header.is_none() => Cause::new(format!(
            "`{shown_name}` stands in methods only, and this is main"
        )),
        ("result", Line::Requires(_)) => {
            Cause::new("`requires` is about the time before the call, which has no `result`")
                .help("write it in `ensures`")
        }
        (_, Line::Requires(_) | Line::Ensures(_)) if here => Cause::new(format!(
            "`{shown_name}` is a variable of the body; a contract names only {}",
            listed(names, "and")
        )),
        _ => return None,
    })
}

fn unknown_variable(look: &Look, name: Name) -> Cause {
    let shown_name = shown(name);
    let names = look.variables();
    if let Some(cause) = elsewhere(look, name, &names) {
        return cause;
    }
    let local = |declared: &Declared| declared.name == name;
    let near = did_you_mean(&shown_name, names.iter().map(String::as_str));
    let cause = Cause::new(format!(
        "no variable `{shown_name}` is declared in this block{near}"
    ));
    let cause = match names.is_empty() {
        true => cause.note("the block has no `var` line"),
        false => cause.note(format!("its variables: {}", listed(&names, "and"))),
    };
    let cause = match look.class(name) {
        Some(_) if matches!(look.line(), Some(Line::New(..))) => {
            cause.note("the variable comes first, then the class: `new x C`")
        }
        Some(_) => cause.note(format!("`{shown_name}` is a class")),
        None => cause,
    };
    let field = |class: &&Class| class.fields.iter().any(local);
    match look.program.classes.iter().find(field) {
        Some(class) => cause.note(format!(
            "`{shown_name}` is a field of class {}: a path is written `x.{shown_name}`",
            shown(class.name)
        )),
        None => cause,
    }
}

fn reserved(name: Name) -> Cause {
    let what = match name {
        b"int" => "the type of numbers",
        b"null" => "no object",
        b"this" => "the receiver of a method",
        _ => "what a method gives back",
    };
    let name = shown(name);
    Cause::new(format!("`{name}` is reserved: it is {what}")).help("take another name")
}

/// Is this the line's declared name?
fn declares(line: &Line, name: Name) -> bool {
    match *line {
        Line::Class(declared) => declared == name,
        Line::Field { name: declared, .. } | Line::Var { name: declared, .. } => declared == name,
        Line::Method {
            name: declared,
            param,
            ..
        } => declared == name || param == name,
        _ => false,
    }
}

fn twice(look: &Look, name: Name) -> Cause {
    let earlier = look.before().rev().skip(1);
    let earlier = earlier.filter(|(_, line)| declares(line, name));
    let same_kind = |line: &Line| match (look.line(), line) {
        (Some(Line::Var { .. }), Line::Var { .. } | Line::Method { .. }) => true,
        (Some(now), then) => std::mem::discriminant(now) == std::mem::discriminant(then),
        _ => false,
    };
    let found = earlier.map(|(at, line)| (at, same_kind(line)));
    let line = found.filter(|found| found.1).map(|found| found.0).next();
    let name = shown(name);
    match line {
        Some(line) => Cause::new(format!("`{name}` is declared in line {line} already")),
        None => Cause::new(format!("`{name}` is declared twice")),
    }
    .help("take another name, or leave one out")
}

fn kind_shown(kind: Kind) -> String {
    match kind {
        Kind::Null => "null".to_string(),
        Kind::Of(Type::Int) => "int".to_string(),
        Kind::Of(Type::Class(name)) => format!("of class {}", shown(name)),
    }
}

fn expr_shown(expr: Expr) -> String {
    match expr {
        Expr::Number(value) => value.to_string(),
        Expr::Null => "null".to_string(),
        Expr::Var(name) => shown(name),
        Expr::Path(x, field) => format!("{}.{}", shown(x), shown(field)),
    }
}

fn mismatch(sides: Sides, left: (Expr, Kind), right: (Expr, Kind)) -> Cause {
    let ((one, one_kind), (other, other_kind)) = (left, right);
    let (one, other) = (expr_shown(one), expr_shown(other));
    let (one_kind, other_kind) = (kind_shown(one_kind), kind_shown(other_kind));
    let said = match sides {
        Sides::New => format!("`{one}` is {one_kind}, and `new` makes an object {other_kind}"),
        Sides::Argument => format!(
            "the parameter `{one}` is {one_kind}, and the argument `{other}` is {other_kind}"
        ),
        Sides::Result => {
            format!("`{other}` gives back what is {other_kind}, and `{one}` is {one_kind}")
        }
        Sides::Return => {
            format!("the method's result is {one_kind}, and `{other}` is {other_kind}")
        }
        _ if other == "null" => format!("`{one}` is {one_kind}, and `null` is no number"),
        _ => format!("`{one}` is {one_kind}, and `{other}` is {other_kind}"),
    };
    let cause = Cause::new(said);
    match other.as_str() {
        "0" => cause.help("write `null`, which is no object; 0 is a number"),
        _ => cause,
    }
}

fn assigned(look: &Look, name: Name) -> Cause {
    let shown_name = shown(name);
    match name {
        b"result" => Cause::new("`result` is set by `return`, and by nothing else")
            .help("`return x`, with a variable x"),
        b"this" => Cause::new("`this` is the receiver, and may not be assigned")
            .help("assign a variable of the block"),
        _ => {
            let header = look.block().and_then(|block| block.header);
            let kind = header.map_or(String::new(), |header| match header.param.kind {
                Type::Int => "int".to_string(),
                Type::Class(class) => shown(class),
            });
            Cause::new(format!(
                "`{shown_name}` is the parameter, and may not be assigned"
            ))
            .help(format!("a variable of its own: `var {kind} v`"))
        }
    }
}

/// The field of a chain that does not lead to a card of the same class.
fn no_link(look: &Look, x: Name, field: Name, kind: Type) -> Cause {
    let own = look.variable_kind(x);
    let class = own.and_then(|kind| match kind {
        Type::Class(class) => look.class(class),
        Type::Int => None,
    });
    let links = class.map_or(&[][..], |class| &class.fields).iter();
    let links: Vec<String> = links
        .filter(|field| Some(field.kind) == own)
        .map(|field| shown(field.name))
        .collect();
    let class = class.map_or(String::new(), |class| shown(class.name));
    let (x, field, kind) = (shown(x), shown(field), kind_shown(Kind::Of(kind)));
    let cause = Cause::new(format!(
        "`{x}.{field}` is {kind}; a chain goes by a field with the class of `{x}` as its type"
    ));
    match links.is_empty() {
        true => cause.note(format!("class {class} has no such field")),
        false => cause.note(format!("class {class} has {}", listed(&links, "and"))),
    }
}

fn same(look: &Look, name: Name) -> Cause {
    let name_shown = shown(name);
    if matches!(look.line(), Some(Line::Open(..))) {
        return Cause::new(format!(
            "`{name_shown}` takes the next card, and is the card that is opened too"
        ))
        .help("take the next card in another variable");
    }
    let role = match look.line() {
        Some(Line::Call(_, y, _, _)) if *y == name => "the receiver",
        _ => "the argument",
    };
    Cause::new(format!(
        "`{name_shown}` takes the result of the call, and is {role} too"
    ))
    .help("take the result in another variable")
}

/// The atoms of a line that number 10 is about, as they stand on it, and how
/// many of them are the condition of a `loop`.
fn framed_atoms<'a>(line: &Line<'a>) -> Option<(Vec<text::Atom<'a>>, usize)> {
    match line {
        Line::Requires(formula) | Line::Ensures(formula) | Line::Join(formula) => {
            Some((formula.clone(), 0))
        }
        Line::Loop(condition, invariant) => Some(([&[*condition], &invariant[..]].concat(), 1)),
        _ => None,
    }
}

/// Number 10.
pub fn unframed(text: &[u8], number: u32) -> Option<Cause> {
    let look = Look::at(text, number)?;
    let (atoms, conditions) = framed_atoms(look.line()?)?;
    let (atom, x, field) = model::framing::unframed_in(look.line()?)?;
    let [acc, half] = text::Share::OF_PATHS.map(|share| permission(share, x, field));
    let path = format!("{}.{}", shown(x), shown(field));
    let condition = atom < conditions;
    let said = match condition {
        true => format!(
            "the condition reads `{path}`, and the invariant after it has neither `{acc}` nor \
             `{half}`"
        ),
        false => format!("`{path}` is read, and neither `{acc}` nor `{half}` stands before it"),
    };
    let mark = field_range(look.bytes(), 1 + 3 * atom..4 + 3 * atom);
    let cause = Cause::new(said).mark(mark);
    let serving = match condition {
        true => &atoms[conditions..],
        false => &atoms[conditions..atom],
    };
    let mut others = serving.iter().filter_map(|atom| of_field(atom, field));
    let other = others.find(|&(_, y)| y != x).map(|(share, y)| {
        format!(
            "`{}` does not count for `{path}`, also if the two are one card: it goes by the names \
             as written",
            permission(share, y, field)
        )
    });
    let cause = cause.or_note(in_chain(&atoms, x, field));
    let mut later = atoms[atom..]
        .iter()
        .filter_map(|atom| of_field(atom, field));
    let later = later.find(|&(_, y)| y == x).map(|(share, _)| share);
    Some(cause.or_note(other).help(match later {
        _ if condition => format!("write `{acc}` or `{half}` after the condition"),
        Some(share) => format!("move `{}` before it", permission(share, x, field)),
        None => format!("write `{acc}` or `{half}` before it"),
    }))
}

/// A chain among the atoms that the path is in, which does not count.
fn in_chain(atoms: &[text::Atom], x: Name, field: Name) -> Option<String> {
    let chain = text::Atom::Permission(text::Share::Chain, x, field);
    atoms.contains(&chain).then(|| {
        let chain = permission(text::Share::Chain, x, field);
        format!("`{chain}` does not count: a link of a chain is read after `open`, in the body")
    })
}

/// The share and the variable of a permission to a path of the field.
fn of_field<'a>(atom: &text::Atom<'a>, field: Name) -> Option<(text::Share, Name<'a>)> {
    match *atom {
        text::Atom::Permission(share, y, f) if share.lists_path() && f == field => Some((share, y)),
        _ => None,
    }
}

/// `acc x f` or `read x f`.
fn permission(share: text::Share, x: Name, field: Name) -> String {
    format!("{} {} {}", share.word(), shown(x), shown(field))
}
