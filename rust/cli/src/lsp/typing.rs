//! A line as it is typed, up to the field that is asked for: the names of the right
//! type for it. The line does not get number 6, 7 or 9 for one of them.

use super::completion::Item;
use super::outline::{Class, Method, Name, Outline, Own};
use super::roles::{role, Role};
use model::form::{AtomShape, ATOM_SHAPES};
use model::text::{expression, Expr};

/// What an expression must be, to stand beside another.
#[derive(Clone, Debug, PartialEq, Eq)]
enum Wanted {
    Anything,
    /// Not int: beside `null`.
    Link,
    Of(String),
}

const INT: &str = "int";

impl Wanted {
    fn takes(&self, kind: &str) -> bool {
        match self {
            Wanted::Anything => true,
            Wanted::Link => kind != INT,
            Wanted::Of(wanted) => kind == wanted,
        }
    }

    fn takes_null(&self) -> bool {
        *self != Wanted::Of(INT.to_string())
    }
}

/// A line up to the field that is typed.
pub struct Typing<'l> {
    pub outline: &'l Outline,
    /// From 1.
    pub line: u32,
    pub fields: Vec<&'l str>,
    /// The place of the field that is typed.
    pub at: usize,
}

impl<'l> Typing<'l> {
    /// The names of the block that the line may use.
    fn names(&self) -> impl Iterator<Item = &'l (Own, Name)> {
        let block = self.outline.block_at(self.line);
        let names = block.map(|block| &self.outline.blocks[block].names);
        let word = self.fields[0];
        let allowed = move |own: Own| match word {
            "requires" => matches!(own, Own::This | Own::Param),
            "ensures" => own != Own::Local,
            _ => true,
        };
        let names = names.into_iter().flatten();
        names.filter(move |(own, _)| allowed(*own))
    }

    fn variables(&self, fits: impl Fn(&Name) -> bool) -> Vec<Item> {
        let names = self.names().map(|(_, name)| name);
        names
            .filter(|name| fits(name))
            .map(Item::variable)
            .collect()
    }

    /// The variables that may be assigned.
    fn locals(&self, fits: impl Fn(&Name) -> bool) -> Vec<Item> {
        let locals = self.names().filter(|(own, _)| *own == Own::Local);
        let locals = locals.map(|(_, name)| name);
        locals
            .filter(|name| fits(name))
            .map(Item::variable)
            .collect()
    }

    /// The variables whose class has what is wanted of it.
    fn cards(&self, fits: impl Fn(&Class) -> bool) -> Vec<Item> {
        self.variables(|name| self.outline.class(&name.kind).is_some_and(&fits))
    }

    fn kind(&self, variable: &str) -> Option<&'l str> {
        let name = self.outline.name(self.line, variable)?;
        Some(&name.1.kind)
    }

    fn class_of(&self, variable: &str) -> Option<&'l Class> {
        self.outline.class_of(self.line, variable)
    }

    fn field(&self, variable: &str, field: &str) -> Option<&'l Name> {
        self.class_of(variable)?.field(field)
    }

    /// What may stand beside an expression.
    fn beside(&self, other: &str) -> Option<Wanted> {
        let kind = |kind: &str| Wanted::Of(kind.to_string());
        match expression(other.as_bytes())? {
            Expr::Number(_) => Some(kind(INT)),
            Expr::Null => Some(Wanted::Link),
            Expr::Var(_) => self.kind(other).map(kind),
            Expr::Path(x, _) => {
                let (variable, field) = other.split_at(x.len());
                let field = self.field(variable, &field[1..])?;
                Some(kind(&field.kind))
            }
        }
    }

    fn expressions(&self, wanted: &Wanted) -> Vec<Item> {
        let typed = self.fields[self.at];
        let started = typed.split_once('.').map(|(variable, _)| variable);
        let mut items = Vec::new();
        if started.is_none() {
            items.extend(self.variables(|name| wanted.takes(&name.kind)));
            items.extend(wanted.takes_null().then(|| Item::word("null")));
        }
        let names = self.names().map(|(_, name)| name);
        for name in names.filter(|name| started.is_none_or(|started| name.name == started)) {
            let class = self.outline.class(&name.kind).into_iter();
            let fields = class.flat_map(|class| &class.fields);
            let fields = fields.filter(|field| wanted.takes(&field.kind));
            items.extend(fields.map(|field| Item::path(&name.name, field)));
        }
        items
    }

    fn fields_of(&self, variable: &str) -> Vec<Item> {
        let class = self.class_of(variable).into_iter();
        class
            .flat_map(|class| &class.fields)
            .map(Item::field)
            .collect()
    }

    fn links_of(&self, variable: &str) -> Vec<Item> {
        let class = self.class_of(variable).into_iter();
        class.flat_map(Class::links).map(Item::field).collect()
    }

    fn types(&self) -> Vec<Item> {
        let classes = self.outline.classes.iter();
        let classes = classes.map(|class| Item::class(&class.name));
        [Item::word(INT)].into_iter().chain(classes).collect()
    }

    /// The names of an atom: its word and the place in it.
    fn in_atom(&self, word: &str, part: usize) -> Vec<Item> {
        let before = self.fields[self.at - 1];
        let linked = |class: &Class| class.links().next().is_some();
        match (word, part) {
            ("acc" | "read", 1) => self.cards(|class| !class.fields.is_empty()),
            ("acc" | "read", 2) => self.fields_of(before),
            ("chain", 1) => self.cards(linked),
            ("chain", 2) => self.links_of(before),
            ("eq" | "ne", 1) => self.expressions(&Wanted::Anything),
            ("eq" | "ne", 2) => match self.beside(before) {
                Some(wanted) => self.expressions(&wanted),
                None => Vec::new(),
            },
            _ => Vec::new(),
        }
    }

    /// `call x y m z`: the result is for x, which is neither y nor z.
    fn in_call(&self) -> Vec<Item> {
        let (x, y) = (self.fields[1], self.fields.get(2).copied().unwrap_or(""));
        let fits = |method: &Method| self.kind(x) == Some(method.result.as_str());
        match self.at {
            1 => self.locals(|_| true),
            2 => {
                let items = self.cards(|class| class.methods.iter().any(fits));
                items.into_iter().filter(|item| item.label != x).collect()
            }
            3 => {
                let class = self.class_of(y).into_iter();
                let methods = class.flat_map(|class| &class.methods);
                methods
                    .filter(|method| fits(method))
                    .map(Item::method)
                    .collect()
            }
            _ => {
                let method = self
                    .class_of(y)
                    .and_then(|class| class.method(self.fields[3]));
                let wanted = method.map(|method| method.param.kind.as_str());
                self.variables(|name| Some(name.kind.as_str()) == wanted && name.name != x)
            }
        }
    }

    /// `open y x f`: y is of x's class, and not x.
    fn in_open(&self) -> Vec<Item> {
        let linked = |class: &Class| class.links().next().is_some();
        let has_link = |name: &Name| self.outline.class(&name.kind).is_some_and(linked);
        match self.at {
            1 => self.locals(has_link),
            2 => {
                let (y, kind) = (self.fields[1], self.kind(self.fields[1]));
                let same = |name: &Name| Some(name.kind.as_str()) == kind && name.name != y;
                self.variables(|name| has_link(name) && same(name))
            }
            _ => self.links_of(self.fields[2]),
        }
    }

    /// The names of a statement.
    fn in_statement(&self) -> Vec<Item> {
        let first = self.fields[1];
        let is = |wanted: &'l str| move |name: &Name| name.kind == wanted;
        match (self.fields[0], self.at) {
            ("set", 1) => self.cards(|class| !class.fields.is_empty()),
            ("set", 2) => self.fields_of(first),
            ("set", _) => match self.field(first, self.fields[2]) {
                Some(field) => self.variables(is(&field.kind)),
                None => Vec::new(),
            },
            ("let", 1) => self.locals(|_| true),
            ("let", _) => match self.kind(first) {
                Some(kind) => self.expressions(&Wanted::Of(kind.to_string())),
                None => Vec::new(),
            },
            ("add" | "sub", 1) => self.locals(is(INT)),
            ("add" | "sub", _) => self.variables(is(INT)),
            ("new", 1) => self.locals(|name| self.outline.class(&name.kind).is_some()),
            ("new", _) => {
                let class = self.class_of(first).into_iter();
                class.map(|class| Item::class(&class.name)).collect()
            }
            ("call", _) => self.in_call(),
            ("open", _) => self.in_open(),
            ("shut", 1) => self.cards(|class| class.links().next().is_some()),
            ("shut", _) => self.links_of(first),
            ("return", _) => match self.kind("result") {
                Some(kind) => self.variables(is(kind)),
                None => Vec::new(),
            },
            _ => Vec::new(),
        }
    }

    /// What may stand there.
    pub fn items(&self) -> Vec<Item> {
        let words = |fits: fn(&AtomShape) -> bool| {
            let atoms = ATOM_SHAPES.iter().filter(move |atom| fits(atom));
            atoms.map(|atom| Item::word(atom.word))
        };
        match role(&self.fields, self.at) {
            Role::AtomWord if self.fields[0] == "requires" && self.at == 1 => {
                words(|_| true).chain([Item::word("*")]).collect()
            }
            Role::AtomWord => words(|_| true).collect(),
            Role::ConditionWord => words(|atom| atom.condition).collect(),
            Role::Type => self.types(),
            Role::Class | Role::Method(_) => self.in_statement(),
            Role::Variable | Role::Expression | Role::Field(_) => match self.atom() {
                Some((word, part)) => self.in_atom(word, part),
                None => self.in_statement(),
            },
            _ => Vec::new(),
        }
    }

    /// The word of the atom that the field stands in, and its place there.
    fn atom(&self) -> Option<(&'l str, usize)> {
        let shape = model::form::shape_of(self.fields[0].as_bytes())?;
        let part = self.at.checked_sub(shape.operands.len() + 1)? % 3;
        Some((self.fields[self.at - part], part))
    }
}
