//! W3: what gives way to what when terms are dropped.

use model::names::{Action, Program, Type, Var, FIRST_LOCAL, PARAM, RESULT, THIS};
use model::state::{Fact, Permission, State, Term};
use model::text::Share;
use model::watch::Record;
use model::{read, text};

const A: Term = Term::Var(FIRST_LOCAL);
const B: Term = Term::Var(FIRST_LOCAL + 1);
const X: Var = FIRST_LOCAL + 2;
const FIVE: Term = Term::Number(5);

fn path(var: Var, field: &'static str) -> Term<'static> {
    Term::Path(var, field.as_bytes())
}

fn eq<'a>(left: Term<'a>, right: Term<'a>) -> Fact<'a> {
    Fact {
        equal: true,
        left,
        right,
    }
}

fn ne<'a>(left: Term<'a>, right: Term<'a>) -> Fact<'a> {
    Fact {
        equal: false,
        left,
        right,
    }
}

fn state(listed: &[(Var, &'static str)], facts: &[Fact<'static>]) -> State<'static> {
    let permission = |&(var, field): &(Var, &'static str)| Permission {
        share: Share::Acc,
        var,
        field: field.as_bytes(),
    };
    State {
        permissions: listed.iter().map(permission).collect(),
        facts: facts.to_vec(),
    }
}

/// The facts after the drop.
fn dropped(mut state: State<'static>, terms: &[Term<'static>]) -> Vec<Fact<'static>> {
    state.drop_terms(terms);
    state.facts
}

/// "The order is variables as in document 01, listed paths, null, numbers
/// rising."
#[test]
fn the_first_term_left_takes_the_place() {
    let gone = path(X, "f");
    let order = [
        Term::Var(THIS),
        Term::Var(PARAM),
        A,
        B,
        Term::Var(RESULT),
        path(X, "g"),
        path(THIS, "f"),
        Term::Null,
        Term::Number(-7),
        Term::Number(0),
        FIVE,
    ];
    let listed = [(X, "g"), (THIS, "f"), (X, "h")];
    // From each place on, in the list's order whatever the order of the facts.
    for first in 0..order.len() {
        let left = &order[first..];
        let links = left.iter().rev().map(|&term| eq(gone, term));
        let facts: Vec<_> = links.chain([ne(gone, path(X, "h"))]).collect();
        let after = dropped(state(&listed, &facts), &[gone]);
        let expected = left.iter().rev().filter(|&&term| term != left[0]);
        let expected = expected.map(|&term| eq(left[0], term));
        let last = ne(left[0], path(X, "h"));
        assert_eq!(after, expected.chain([last]).collect::<Vec<_>>());
    }
}

/// "A fact with a dropped term that has no such successor goes. An equality
/// that now has one term on both sides goes too; all other facts keep their
/// order."
#[test]
fn facts_without_a_successor_go() {
    let (one, other) = (path(X, "f"), path(X, "g"));
    let facts = [
        ne(one, A),
        eq(FIVE, FIVE),
        eq(other, B),
        ne(B, B),
        eq(A, FIVE),
    ];
    let after = dropped(state(&[], &facts), &[one]);
    assert_eq!(after, [eq(other, B), ne(B, B), eq(A, FIVE)]);
    // Dropped terms are no successors of one another.
    let facts = [eq(one, other), ne(other, A), eq(one, B), eq(one, one)];
    assert_eq!(dropped(state(&[], &facts), &[one, other]), [ne(B, A)]);
    let facts = [eq(one, other), ne(other, A)];
    assert_eq!(dropped(state(&[], &facts), &[one, other]), []);
    // Over any number of links: the first in the order, not the nearest.
    let facts = [eq(one, FIVE), eq(FIVE, other), eq(other, A), ne(one, B)];
    let after = dropped(state(&[(X, "g")], &facts), &[one]);
    assert_eq!(
        after,
        [eq(A, FIVE), eq(FIVE, other), eq(other, A), ne(A, B)]
    );
    // Where nothing is dropped, nothing goes.
    let facts = [eq(FIVE, FIVE)];
    assert_eq!(dropped(state(&[], &facts), &[]), facts);
}

/// Removing x: a variable ~ x takes its place everywhere, else x and its paths
/// are dropped; what is left of r.
#[test]
fn removing_a_variable() {
    let x = Term::Var(X);
    let facts = [eq(x, A), eq(path(X, "f"), B), ne(x, Term::Null)];
    let mut renamed = state(&[(X, "f"), (FIRST_LOCAL, "f")], &facts);
    let renamed_path = path(FIRST_LOCAL, "f");
    assert_eq!(renamed.remove(X, path(X, "f")), Some(renamed_path));
    // A path renamed onto a listed one: both keep their entries.
    let listed = [(FIRST_LOCAL, "f"), (FIRST_LOCAL, "f")];
    let facts = [eq(renamed_path, B), ne(A, Term::Null)];
    assert_eq!(renamed, state(&listed, &facts));
    let facts = [ne(x, A), eq(path(X, "f"), B), eq(path(X, "g"), FIVE)];
    let listed = [(X, "f"), (THIS, "f"), (X, "g")];
    for (r, left) in [
        (path(X, "f"), Some(B)),
        (path(X, "g"), Some(FIVE)),
        (path(THIS, "f"), Some(path(THIS, "f"))),
        (Term::Null, Some(Term::Null)),
        (x, None),
    ] {
        let mut removed = state(&listed, &facts);
        assert_eq!(removed.remove(X, r), left);
        assert_eq!(removed, state(&[(THIS, "f")], &[]));
    }
}

/// The terms that stand in a state.
fn terms<'a>(states: [&State<'a>; 2]) -> Vec<Term<'a>> {
    let mut terms = Vec::new();
    for state in states {
        terms.extend(state.facts.iter().flat_map(|fact| [fact.left, fact.right]));
        terms.extend(state.permissions.iter().filter_map(|listed| listed.path()));
    }
    terms
}

/// The term that the statement drops without another in its place, if it drops
/// a variable of int or the value of a path: those of which all others are left.
fn drops<'a>(program: &Program<'a>, record: &Record<'a>, place: usize) -> Option<Term<'a>> {
    let block = program.blocks.iter().rfind(|block| block.start <= place)?;
    let int = |x: Var| {
        let local = x
            .checked_sub(FIRST_LOCAL)
            .and_then(|at| block.locals.get(at));
        local.is_some_and(|local| local.kind == Type::Int)
    };
    let before = record.seen[place].before.as_ref()?;
    match program.statements[place].action {
        Action::Compute(compute) => Some(Term::Var(compute.x)),
        Action::Let(x, _) if int(x) => Some(Term::Var(x)),
        Action::Set(path, _) => {
            let place = before.first_listed(Share::Acc, path)?;
            before.permissions[place].path()
        }
        _ => None,
    }
}

/// "When paths or a variable are dropped, two terms that are left shall be ~
/// exactly if they were ~ before."
#[test]
fn terms_that_are_left_stay_equal() {
    let (mut statements, mut pairs, mut given_way) = (0, 0, 0);
    for seed in 0..1_500 {
        let text = generator::text(0x3000_0000 + seed);
        let Ok(lines) = text::lines(&text) else {
            continue;
        };
        let Ok(program) = read(&text) else { continue };
        let Some(record) = Record::of(&lines, &program) else {
            continue;
        };
        for place in 0..program.statements.len() {
            let seen = &record.seen[place];
            let (Some(before), Some(after)) = (&seen.before, &seen.after) else {
                continue;
            };
            let release = matches!(program.statements[place].action, Action::Release(_));
            let gone = drops(&program, &record, place);
            if gone.is_none() && !release {
                continue;
            }
            statements += 1;
            let mut left = terms([before, after]);
            let paths = || after.permissions.iter().filter_map(|left| left.path());
            let listed = |path| paths().any(|left| left == path);
            left.retain(|&term| {
                Some(term) != gone && (!matches!(term, Term::Path(..)) || listed(term))
            });
            for &one in &left {
                let (was, is) = (before.equals(one), after.equals(one));
                pairs += left.len();
                let same = left
                    .iter()
                    .all(|other| was.contains(other) == is.contains(other));
                assert!(same, "{before:?}\n{after:?}");
            }
            let new = |fact: &&Fact| fact.equal && !before.facts.contains(fact);
            let new = after.facts.iter().filter(new);
            let old = |fact: &&Fact| {
                Some(fact.left) != gone && before.equals(fact.left).contains(&fact.right)
            };
            given_way += new.filter(old).count();
        }
    }
    println!("{statements} statements, {pairs} pairs, {given_way} facts with a successor");
    assert!(statements > 2_000 && pairs > 100_000 && given_way > 200);
}
