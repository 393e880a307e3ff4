//! Where values came about in a run: the step that made each one, however often it was
//! copied since.

use super::history::At;
use model::machine::{location, Machine, Values};
use model::names::{Action, Expr, Var, PARAM, THIS, VARS};

/// For each variable of each open frame and each field, the step in which its value
/// came about; zeros for what a variable starts as.
#[derive(Default)]
pub struct Sources {
    vars: Vec<[At; VARS]>,
    fields: Vec<At>,
}

impl Sources {
    /// Before the first step.
    pub fn new() -> Sources {
        Sources {
            vars: vec![[At::default(); VARS]],
            fields: Vec::new(),
        }
    }

    /// Of a variable of the running block.
    pub fn of_var(&self, var: Var) -> Option<At> {
        self.vars.last().map(|own| own[var])
    }

    /// Of a value that an expression has before a step, which makes constants itself.
    fn of(&self, machine: &Machine, values: &Values, expr: Expr, at: At) -> At {
        let own = self.vars.last();
        match expr {
            Expr::Var(var) => own.map_or(at, |own| own[var]),
            Expr::Path(path) => {
                let place = location(&machine.objects, values, path);
                let field = place.and_then(|place| self.fields.get(place));
                field.copied().unwrap_or(at)
            }
            Expr::Number(_) | Expr::Null => at,
        }
    }

    /// A step that was done, from these values.
    pub fn step(&mut self, machine: &Machine, action: &Action, values: &Values, at: At) {
        let of = |expr| self.of(machine, values, expr, at);
        let (var, source) = match action {
            Action::Let(x, expr) => (*x, of(*expr)),
            Action::Compute(compute) => (compute.x, at),
            Action::Open(open) => (open.y, of(Expr::Path(open.path))),
            Action::New(x, _) => {
                self.fields.resize(machine.heap.len(), at);
                (*x, at)
            }
            Action::Set(path, y) => {
                let source = of(Expr::Var(*y));
                if let Some(place) = location(&machine.objects, values, *path) {
                    self.fields[place] = source;
                }
                return;
            }
            Action::Call(call) => {
                let mut own = [At::default(); VARS];
                own[THIS] = of(Expr::Var(call.y));
                own[PARAM] = of(Expr::Var(call.z));
                self.vars.push(own);
                return;
            }
            _ => return,
        };
        if let Some(own) = self.vars.last_mut() {
            own[var] = source;
        }
    }

    /// A method ended with this value, which its caller's variable gets.
    pub fn back(&mut self, x: Option<Var>, returned: Option<Var>, at: At) {
        let left = self.vars.pop();
        let source = left.zip(returned).map_or(at, |(left, var)| left[var]);
        if let Some((x, own)) = x.zip(self.vars.last_mut()) {
            own[x] = source;
        }
    }
}
