//! W9: chains in the writer's lines: atoms, `open` and `shut`, ways to make a chain,
//! and lines that lack one.

use super::writer::Writer;
use crate::checker::State;
use crate::names::{Action, Atom, Expr, Open, Path, Type, Var, FIRST_LOCAL, RESULT};
use crate::number;
use crate::text::Share::{self, Acc, Chain, Read};

fn null(var: Var) -> Atom<'static> {
    Atom::Eq(Expr::Var(var), Expr::Null)
}

fn object(var: Var) -> Atom<'static> {
    Atom::Ne(Expr::Var(var), Expr::Null)
}

impl<'p, 'a> Writer<'p, 'a> {
    fn locals(&self, kind: Type<'a>) -> Vec<Var> {
        self.vars(|var, other| (FIRST_LOCAL..RESULT).contains(&var) && other == kind)
    }

    /// Is the path one by which a chain goes?
    pub(super) fn is_link(&self, path: Path<'a>) -> bool {
        let kind = self.path(path.var, path.field).map(|(_, kind)| kind);
        kind.is_some() && kind == self.type_of(path.var)
    }

    /// The paths of all variables by which a chain goes.
    fn links(&self) -> Vec<Path<'a>> {
        let vars = self.vars(|_, kind| kind != Type::Int);
        let paths = vars.iter().flat_map(|&var| self.paths(var));
        paths
            .map(|(path, _)| path)
            .filter(|&path| self.is_link(path))
            .collect()
    }

    /// The links of which the state has such a share, by any name of the card.
    fn listed_links(&self, state: &State<'a>, share: Share) -> Vec<Path<'a>> {
        let mut links = self.links();
        links.retain(|&path| state.first_listed(share, path).is_some());
        links
    }

    /// A link whose chain is listed; now and then any.
    pub(super) fn known_chain(&mut self, state: &State<'a>) -> Option<Path<'a>> {
        let listed = match self.rng.chance(4) {
            true => self.links(),
            false => self.listed_links(state, Chain),
        };
        self.rng.choose(&listed)
    }

    /// A chain to ask for.
    pub(super) fn chain_atom(&mut self, state: &State<'a>) -> Option<Atom<'a>> {
        let path = self.known_chain(state)?;
        Some(Atom::Permission(Chain, path))
    }

    /// A condition of a branch in which a chain can be opened.
    pub(super) fn chain_condition(&mut self, state: &State<'a>) -> Option<Atom<'a>> {
        let path = self.known_chain(state)?;
        let (object, null) = (object(path.var), null(path.var));
        Some(self.rng.pick(&[object, object, object, null]))
    }

    /// `open`, `shut`, both, or a card put before a chain.
    pub(super) fn chain_lines(&mut self, state: &State<'a>) -> Option<Vec<Action<'a>>> {
        match self.rng.below(12) {
            0..=4 => self.open_lines(state),
            5..=7 => self.shut_lines(state),
            8 => Some(vec![Action::Release(vec![self.chain_atom(state)?])]),
            _ => self.grow_lines(state),
        }
    }

    /// A branch on a card that is no null may begin with its `open`.
    pub(super) fn open_first(&mut self, state: &mut State<'a>) {
        if self.rng.chance(70) {
            if let Some(lines) = self.open_lines(state) {
                self.offer(state, &lines);
            }
        }
    }

    fn open_lines(&mut self, state: &State<'a>) -> Option<Vec<Action<'a>>> {
        let mut known = self.listed_links(state, Chain);
        known.retain(|path| state.show(&[object(path.var)]).is_ok());
        let path = self.rng.choose(&known)?;
        let y = self.local(self.type_of(path.var)?, &[path.var])?;
        let open = Action::Open(Open { y, path });
        Some(match self.rng.chance(20) {
            true => vec![open, Action::Shut(path)],
            false => vec![open],
        })
    }

    fn shut_lines(&mut self, state: &State<'a>) -> Option<Vec<Action<'a>>> {
        let mut held = self.listed_links(state, Acc);
        if self.rng.chance(90) {
            held.retain(|&path| state.rest(path).is_ok());
        }
        let path = self.rng.choose(&held)?;
        Some(vec![Action::Shut(path)])
    }

    /// A new card before a chain, or a chain of one card.
    fn grow_lines(&mut self, state: &State<'a>) -> Option<Vec<Action<'a>>> {
        let links = self.links();
        let path = self.rng.choose(&links)?;
        let kind = self.type_of(path.var)?;
        let x = self.rng.choose(&self.locals(kind))?;
        let path = Path { var: x, ..path };
        let mut lines = vec![Action::New(x, self.class_of(x)?)];
        let mut chains = self.listed_links(state, Chain);
        chains.retain(|other| {
            other.var != x && other.field == path.field && self.type_of(other.var) == Some(kind)
        });
        lines.extend(
            self.rng
                .choose(&chains)
                .map(|next| Action::Set(path, next.var)),
        );
        lines.push(Action::Shut(path));
        Some(lines)
    }

    /// Statements after which a chain is there: a `shut` if that is enough, null, or
    /// a new card.
    pub(super) fn link(&mut self, state: &State<'a>, path: Path<'a>) -> Option<Vec<Action<'a>>> {
        let shut = Action::Shut(path);
        if self.after(state, std::slice::from_ref(&shut)).is_ok() {
            return Some(vec![shut]);
        }
        if !(FIRST_LOCAL..RESULT).contains(&path.var) {
            return None;
        }
        // Where the card is known not to be null, it is asked for so.
        let made = state.show(&[object(path.var)]).is_ok() || self.rng.chance(50);
        Some(match made {
            true => vec![Action::New(path.var, self.class_of(path.var)?), shut],
            false => vec![Action::Let(path.var, Expr::Null)],
        })
    }

    /// The `open` after which a path is held whole, if there is one.
    pub(super) fn opened(&mut self, state: &State<'a>, path: Path<'a>) -> Option<Vec<Action<'a>>> {
        state.first_listed(Chain, path)?;
        let y = self.local(self.type_of(path.var)?, &[path.var])?;
        let open = vec![Action::Open(Open { y, path })];
        self.after(state, &open).is_ok().then_some(open)
    }

    /// A statement that may well be refused for want of a chain, of a card that is
    /// not null, or of a path.
    pub(super) fn wrong_by_chains(&mut self, state: &State<'a>) -> Option<Action<'a>> {
        match self.style.miss {
            Some(number::NO_PERMISSION) => self.no_chain(state),
            Some(number::NOT_SHOWN) => self.no_card(state),
            _ => {
                let path = self.known_chain(state)?;
                let y = self.local(self.type_of(path.var)?, &[])?;
                Some(Action::Let(y, Expr::Path(path)))
            }
        }
    }

    fn no_chain(&mut self, state: &State<'a>) -> Option<Action<'a>> {
        let links = self.links();
        let any = self.rng.choose(&links)?;
        let chain = self.known_chain(state).unwrap_or(any);
        let share = self.rng.pick(&[Acc, Acc, Read]);
        let held = self.listed_links(state, share);
        let held = self.rng.choose(&held).unwrap_or(any);
        let atom = |path| Atom::Permission(Chain, path);
        let mut objects = links.clone();
        objects.retain(|path| state.show(&[object(path.var)]).is_ok());
        Some(match self.rng.below(8) {
            0 => Action::Assert(vec![atom(any)]),
            1 => Action::Assert(vec![atom(chain), atom(chain)]),
            2 => Action::Release(vec![atom(chain), atom(chain)]),
            3 => Action::Set(chain, self.any_var(self.type_of(chain.var)?)?),
            4 => {
                let path = self.rng.choose(&objects).unwrap_or(any);
                let y = self.local(self.type_of(path.var)?, &[path.var])?;
                Action::Open(Open { y, path })
            }
            5 => Action::Call(self.any_call()?),
            6 => Action::Shut(self.rng.pick(&[chain, any])),
            _ => Action::Shut(held),
        })
    }

    /// A card, or two, taken to be no null or different because of a chain.
    fn no_card(&mut self, state: &State<'a>) -> Option<Action<'a>> {
        let path = self.known_chain(state)?;
        let kind = self.type_of(path.var)?;
        Some(match self.rng.below(3) {
            0 => Action::Assert(vec![object(path.var)]),
            1 => {
                let other = self.any_var(kind)?;
                Action::Assert(vec![Atom::Ne(Expr::Var(path.var), Expr::Var(other))])
            }
            _ => {
                let y = self.local(kind, &[path.var])?;
                Action::Open(Open { y, path })
            }
        })
    }
}
