//! Lines that may show what is asked, put before the line that needs it or before
//! one of those that lead to it.

use super::draft::{both, insert, Candidate};
use super::form::rewritten;
use super::rules::{path_shown, Refused};
use crate::script::shown;
use model::checker::{instance, Term};
use model::names::{Action, Atom, Call, Expr, Path, Type, Var, FIRST_LOCAL, PARAM, RESULT, THIS};
use model::watch::Purpose;

/// So many of the statements before the line are tried as its place.
const PLACES: usize = 14;
/// So many lines are tried at each place.
const LINES: usize = 60;

/// The fixes that insert lines.
pub fn candidates(refused: &Refused) -> Vec<Candidate> {
    let mut found = returns(refused);
    let mut places = vec![refused.here()];
    let before = refused.places.iter().rev().take(PLACES);
    places.extend(before.map(|&place| refused.line_of(place)));
    places.dedup();
    let mut lines = direct(refused);
    lines.extend(calls(refused));
    let computed = refused.computed();
    found.extend(refused.tested().filter(|_| computed));
    for line in &lines {
        found.extend(places.iter().map(|&at| insert(at, line)));
    }
    found.extend(refused.tested().filter(|_| !computed));
    let mut further = values(refused);
    further.extend(links(refused));
    further.retain(|line| !lines.contains(line));
    further.truncate(LINES);
    for line in &further {
        found.extend(places.iter().map(|&at| insert(at, line)));
    }
    found.extend(held(refused));
    found
}

impl<'a> Refused<'_, 'a> {
    fn kind(&self, var: Var) -> Option<Type<'a>> {
        self.unshown.names().kind(var)
    }

    /// The variables of the block that have a value at its start or get one.
    fn vars(&self) -> Vec<Var> {
        let block = &self.unshown.script.program.blocks[self.block()];
        let locals = FIRST_LOCAL..FIRST_LOCAL + block.locals.len();
        match block.header {
            Some(_) => [THIS, PARAM].into_iter().chain(locals).collect(),
            None => locals.collect(),
        }
    }

    fn locals(&self) -> Vec<Var> {
        let vars = self.vars().into_iter();
        vars.filter(|&var| var >= FIRST_LOCAL).collect()
    }

    pub fn of_kind(&self, kind: Option<Type>) -> Vec<Var> {
        let vars = self.vars().into_iter();
        vars.filter(|&var| self.kind(var) == kind).collect()
    }

    /// The type of a field of a variable.
    fn field_kind(&self, path: Path) -> Option<Type<'a>> {
        let Some(Type::Class(class)) = self.kind(path.var) else {
            return None;
        };
        let program = &self.unshown.script.program;
        let class = &program.classes[program.class(class)?];
        class.fields.get(path.slot).map(|field| field.kind)
    }

    /// Does a line that leads here give one side a value that only a run tells?
    fn computed(&self) -> bool {
        let (Atom::Eq(left, right) | Atom::Ne(left, right)) = self.wanted() else {
            return false;
        };
        let statements = &self.unshown.script.program.statements;
        self.places
            .iter()
            .any(|&place| match &statements[place].action {
                Action::Compute(compute) => [left, right].contains(&Expr::Var(compute.x)),
                _ => false,
            })
    }

    fn expr(&self, expr: Expr) -> String {
        self.unshown.names().expr(expr)
    }

    /// The local variables that are known to equal an expression.
    fn equal_locals(&self, expr: Expr) -> Vec<Var> {
        let state = &self.unshown.asked.state;
        let term = match expr {
            Expr::Var(var) => Some(Term::Var(var)),
            Expr::Path(path) => Some(Term::Path(path.var, path.field)),
            _ => None,
        };
        let terms = term.map(|term| state.equals(term)).unwrap_or_default();
        let local = |term| match term {
            Term::Var(var) if (FIRST_LOCAL..RESULT).contains(&var) => Some(var),
            _ => None,
        };
        terms.into_iter().filter_map(local).collect()
    }
}

/// The lines that give the wanted value to what has it not.
fn direct(refused: &Refused) -> Vec<String> {
    match refused.wanted() {
        Atom::Permission(_, path) => made(refused, path.var),
        Atom::Ne(Expr::Var(var), Expr::Null) | Atom::Ne(Expr::Null, Expr::Var(var)) => {
            made(refused, var)
        }
        Atom::Ne(left, right) => {
            let vars = [left, right].into_iter().filter_map(|side| match side {
                Expr::Var(var) => Some(var),
                _ => None,
            });
            vars.flat_map(|var| made(refused, var)).collect()
        }
        Atom::Eq(left, right) => {
            let mut lines = given(refused, left, right);
            lines.extend(given(refused, right, left));
            lines
        }
    }
}

/// `new`, or a `let` from a variable of the same class.
fn made(refused: &Refused, var: Var) -> Vec<String> {
    let Some(Type::Class(class)) = refused.kind(var) else {
        return Vec::new();
    };
    if !(FIRST_LOCAL..RESULT).contains(&var) {
        return Vec::new();
    }
    let name = refused.name(var);
    let mut lines = vec![format!("new\t{name}\t{}", shown(class))];
    let others = refused.of_kind(refused.kind(var)).into_iter();
    let others = others.filter(|&other| other != var);
    lines.extend(others.map(|other| format!("let\t{name}\t{}", refused.name(other))));
    lines.extend(paths(refused, refused.kind(var)).map(|path| format!("let\t{name}\t{path}")));
    lines
}

/// The paths of one type.
fn paths<'r>(refused: &'r Refused, kind: Option<Type<'r>>) -> impl Iterator<Item = String> + 'r {
    let program = &refused.unshown.script.program;
    refused.vars().into_iter().flat_map(move |var| {
        let class = match refused.kind(var) {
            Some(Type::Class(class)) => program.class(class),
            _ => None,
        };
        let fields = class.map_or(&[][..], |class| &program.classes[class].fields);
        let fields = fields.iter().filter(move |field| Some(field.kind) == kind);
        fields.map(move |field| format!("{}.{}", refused.name(var), shown(field.name)))
    })
}

/// The line that gives one side the value of the other.
fn given(refused: &Refused, side: Expr, value: Expr) -> Vec<String> {
    let shown_value = refused.expr(value);
    let result = matches!(value, Expr::Var(RESULT));
    match side {
        Expr::Var(var @ FIRST_LOCAL..RESULT) if !result => {
            let mut lines = vec![format!("let\t{}\t{shown_value}", refused.name(var))];
            let equal = refused.equal_locals(side).into_iter();
            lines.extend(equal.map(|var| format!("let\t{}\t{shown_value}", refused.name(var))));
            lines.dedup();
            lines
        }
        Expr::Path(path) => {
            let (x, f) = path_shown(refused, path);
            let mut lines = Vec::new();
            if let Expr::Var(var) = value {
                if var != RESULT {
                    lines.push(format!("set\t{x}\t{f}\t{}", refused.name(var)));
                }
            }
            let equal = refused.equal_locals(side).into_iter();
            lines.extend(equal.map(|var| format!("let\t{}\t{shown_value}", refused.name(var))));
            let vars = refused.of_kind(refused.field_kind(path)).into_iter();
            lines.extend(vars.map(|var| format!("set\t{x}\t{f}\t{}", refused.name(var))));
            lines
        }
        _ => Vec::new(),
    }
}

/// Any variable of the type given the value.
fn values(refused: &Refused) -> Vec<String> {
    let Atom::Eq(left, right) = refused.wanted() else {
        return Vec::new();
    };
    let mut lines = Vec::new();
    for (side, value) in [(left, right), (right, left)] {
        let kind = match side {
            Expr::Var(var) => refused.kind(var),
            Expr::Path(path) => refused.field_kind(path),
            _ => None,
        };
        let result = matches!(value, Expr::Var(RESULT));
        for var in refused.locals() {
            if kind.is_some() && refused.kind(var) == kind && !result {
                lines.push(format!(
                    "let\t{}\t{}",
                    refused.name(var),
                    refused.expr(value)
                ));
            }
        }
    }
    lines
}

/// Each link that is held, set to each variable of its class.
fn links(refused: &Refused) -> Vec<String> {
    let program = &refused.unshown.script.program;
    let mut lines = Vec::new();
    for held in &refused.unshown.asked.state.permissions {
        let Some(Type::Class(class)) = refused.kind(held.var) else {
            continue;
        };
        let class = program.class(class).map(|class| &program.classes[class]);
        let fields = class.map_or(&[][..], |class| &class.fields);
        let field = fields.iter().find(|field| field.name == held.field);
        let kind = field.map(|field| field.kind);
        if matches!(kind, None | Some(Type::Int)) {
            continue;
        }
        for var in refused.of_kind(kind) {
            let (x, f) = (refused.name(held.var), shown(held.field));
            lines.push(format!("set\t{x}\t{f}\t{}", refused.name(var)));
        }
    }
    lines
}

/// The calls whose `ensures` says what is wanted.
fn calls(refused: &Refused) -> Vec<String> {
    let program = &refused.unshown.script.program;
    let mut lines = Vec::new();
    for (method, block) in program.blocks.iter().enumerate() {
        let Some(header) = block.header else { continue };
        for &x in &refused.locals() {
            for &y in &refused.vars() {
                for &z in &refused.vars() {
                    let fits = refused.kind(x) == Some(header.result)
                        && refused.kind(y) == Some(Type::Class(header.class))
                        && refused.kind(z) == Some(header.param.kind)
                        && x != y
                        && x != z;
                    let call = Call { x, y, method, z };
                    if fits && instance(&block.ensures, call).contains(&refused.wanted()) {
                        let name = |var| refused.name(var);
                        let (x, y, z) = (name(x), name(y), name(z));
                        lines.push(format!("call\t{x}\t{y}\t{}\t{z}", shown(header.name)));
                    }
                }
            }
        }
    }
    lines.truncate(LINES);
    lines
}

/// Another `return`, or one where none is.
fn returns(refused: &Refused) -> Vec<Candidate> {
    if refused.unshown.asked.purpose != Purpose::Ensures {
        return Vec::new();
    }
    let at = refused.here();
    let block = refused.block();
    let header = refused.unshown.script.program.blocks[block].header;
    let vars = refused.of_kind(header.map(|header| header.result));
    let put = |line: &str| match refused.unshown.action() {
        Action::Return(_) => rewritten(
            at,
            &line.split('\t').map(str::to_string).collect::<Vec<_>>(),
        ),
        _ => insert(at, line),
    };
    let mut found = Vec::new();
    for &var in &vars {
        found.push(put(&format!("return\t{}", refused.name(var))));
    }
    let sides = match refused.wanted() {
        Atom::Eq(left, right) => vec![left, right],
        _ => Vec::new(),
    };
    let kind = header.map(|header| header.result);
    let paths: Vec<String> = paths(refused, kind).collect();
    let sides = sides.into_iter().filter(|side| *side != Expr::Var(RESULT));
    let sides = sides.map(|side| refused.expr(side)).chain(paths);
    for side in sides {
        for &var in vars.iter().filter(|var| **var >= FIRST_LOCAL) {
            let name = refused.name(var);
            let taken = insert(at, &format!("let\t{name}\t{side}"));
            found.push(both(taken, put(&format!("return\t{name}"))));
        }
    }
    found
}

/// A field given a number or `null` by a variable of its own.
fn held(refused: &Refused) -> Vec<Candidate> {
    let Atom::Eq(left, right) = refused.wanted() else {
        return Vec::new();
    };
    let (path, value) = match (left, right) {
        (Expr::Path(path), value) | (value, Expr::Path(path)) => (path, value),
        _ => return Vec::new(),
    };
    if matches!(value, Expr::Var(_)) {
        return Vec::new();
    }
    let (x, f) = path_shown(refused, path);
    let at = refused.here();
    let locals = refused.of_kind(refused.field_kind(path)).into_iter();
    let locals = locals.filter(|&var| var >= FIRST_LOCAL);
    let lines = locals.map(|var| {
        let name = refused.name(var);
        let taken = insert(at, &format!("let\t{name}\t{}", refused.expr(value)));
        both(taken, insert(at, &format!("set\t{x}\t{f}\t{name}")))
    });
    lines.collect()
}
