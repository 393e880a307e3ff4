//! What the table of methods says is so in every run.

use super::accepted;
use crate::authority::handed;
use crate::authority::methods::{self, Handed, Row};
use explain::script::Script;
use model::machine::{callee_values, location, Machine, Step, Values};
use model::names::{Action, Atom, Path};
use model::text::Share;

/// A field that was handed over: its place, its value then, how many halves of it
/// went, by all names, and how many the caller had.
struct Field {
    place: usize,
    value: i32,
    went: u8,
    had: u8,
}

/// An open call: its method, how deep it is, and of each path or chain that it was
/// handed the fields.
struct Open {
    block: usize,
    depth: usize,
    handed: Vec<Vec<Field>>,
}

/// The atoms of a formula that are permissions.
fn permissions<'a>(formula: &[Atom<'a>]) -> Vec<(Share, Path<'a>)> {
    let paths = formula.iter().filter_map(|atom| match atom {
        Atom::Permission(share, path) => Some((*share, *path)),
        _ => None,
    });
    paths.collect()
}

/// The places of a permission: that of its path, or those of all links of a chain.
fn places(machine: &Machine, values: &Values, (share, path): (Share, Path)) -> Vec<usize> {
    let mut found: Vec<usize> = location(&machine.objects, values, path)
        .into_iter()
        .collect();
    while let Some(&last) = found.last().filter(|_| share == Share::Chain) {
        let Some(next) = (machine.heap[last] as usize).checked_sub(1) else {
            break;
        };
        found.push(machine.objects[next].first + path.slot);
    }
    found
}

/// The call that the next step does, if it does one.
fn call(machine: &Machine) -> Option<Open> {
    let Action::Call(call) = machine.statement().action else {
        return None;
    };
    let values = callee_values(&machine.frame().values, call);
    let requires = permissions(&machine.program.blocks[call.method].requires);
    let mut asked: Vec<(Share, Path)> = Vec::new();
    for &(share, path) in &requires {
        let share = if share == Share::Chain {
            share
        } else {
            Share::Acc
        };
        asked.extend(Some((share, path)).filter(|one| !asked.contains(one)));
    }
    let halves = |place: usize| {
        let takes = |one: &&(Share, Path)| places(machine, &values, **one).contains(&place);
        let takers = requires.iter().filter(takes);
        takers.map(|(share, _)| share.halves()).sum()
    };
    let field = |place: usize| Field {
        place,
        value: machine.heap[place],
        went: halves(place),
        had: machine.frame().held.halves(place),
    };
    let fields = |one| {
        places(machine, &values, one)
            .into_iter()
            .map(field)
            .collect()
    };
    Some(Open {
        block: call.method,
        depth: machine.frames.len(),
        handed: asked.into_iter().map(fields).collect(),
    })
}

/// Do as many halves of a field go as its share says?
fn share_is(share: &handed::Share<String>, went: u8) {
    use handed::Share;
    match share {
        Share::Whole | Share::Chain => assert_eq!(went, 2),
        Share::Half => assert_eq!(went, 1),
        Share::Either(_) => assert!((1..=2).contains(&went)),
    }
}

/// Does a field that is only read keep its value, also one of which a half went,
/// and do the halves that are given back go to the caller? Counts the fields that
/// were looked at.
fn is_kept(open: &Open, rows: &[Row], machine: &Machine, ended: bool) -> usize {
    let handed = &rows[open.block].handed;
    assert_eq!(handed.len(), open.handed.len());
    let told = handed.iter().zip(&open.handed);
    let told = told.flat_map(|(handed, fields)| fields.iter().map(move |field| (handed, field)));
    let told: Vec<(&Handed, &Field)> = told.collect();
    for (handed, field) in &told {
        share_is(&handed.share, field.went);
        let changed = machine.heap[field.place] != field.value;
        let may = handed.written && field.went == 2;
        assert!(!changed || may, "{} is written", handed.path);
    }
    for (_, field) in told.iter().filter(|_| ended) {
        let mut names = told.iter().filter(|(_, other)| other.place == field.place);
        let back = names.all(|(handed, _)| handed.back);
        let has = machine.frame().held.halves(field.place);
        assert!(!back || has >= field.had, "halves are lost");
    }
    handed.iter().filter(|handed| !handed.written).count()
}

fn run_is_as_told(script: &Script, rows: &[Row]) -> usize {
    let mut machine = Machine::new(&script.program);
    let mut open: Vec<Open> = Vec::new();
    let mut seen = 0;
    while machine.steps < 2_000 {
        let next = call(&machine);
        if machine.step() != Ok(Step::On) {
            break;
        }
        open.extend(next);
        while let Some(last) = open.pop_if(|last| last.depth == machine.frames.len()) {
            seen += is_kept(&last, rows, &machine, true);
        }
        for call in &open {
            is_kept(call, rows, &machine, false);
        }
    }
    seen
}

/// What the table of methods says is so in every run.
#[test]
fn only_read_and_given_back() {
    let texts = accepted();
    assert!(texts.len() > 300, "{}", texts.len());
    let mut seen = 0;
    for text in &texts {
        let script = Script::of(text).expect("an accepted text is read");
        seen += run_is_as_told(&script, &methods::rows(&script));
    }
    assert!(seen > 100, "{seen}");
}

/// A script with a method `m` of these two lines and a variable t, which main calls
/// for a card with another one, and a method `w` that writes `this.n`.
fn script_of(requires: &str, ensures: &str, body: &str) -> Vec<u8> {
    let text = format!(
        "class S\nfield int n\nmethod int w int k\nrequires acc this n\nensures acc this n\n\
         set this n k\nreturn k\nend\nmethod int m S p\nrequires {requires}\nensures {ensures}\n\
         var S t\nvar int k\nvar int j\nlet k 7\n{body}return k\nend\nmain\nvar S a\nvar S b\nvar int r\n\
         new a S\nnew b S\ncall r a m b\nend\n"
    );
    text.replace(' ', "\t").into_bytes()
}

/// A field is written by whatever name: that of a variable, of the parameter, or
/// of a receiver. Two that are handed over are of two cards, and so is one that
/// is made.
#[test]
fn written_by_any_name() {
    let (own, gone) = ("acc this n ne this null", "ne this null");
    let both = "acc this n acc p n ne this null ne p null";
    let either = "if eq k 7\nlet t p\nelse\nlet t this\njoin acc t n ne this null\nset t n k\n";
    for (requires, ensures, body, only_read) in [
        (own, own, "", &["this.n"][..]),
        (own, own, "let k this.n\n", &["this.n"]),
        (own, own, "set this n k\n", &[]),
        (own, own, "let t this\nset t n k\n", &[]),
        (own, own, "new t S\nset t n k\n", &["this.n"]),
        (own, own, "new t S\ncall j t w k\n", &["this.n"]),
        (own, own, "new t S\nlet t this\nset t n k\n", &[]),
        (own, own, "call j this w k\n", &[]),
        (own, own, "let t this\ncall j t w k\n", &[]),
        (both, both, "set this n k\n", &["p.n"]),
        (both, both, "set p n k\n", &["this.n"]),
        (both, both, "call j p w k\n", &["this.n"]),
        (both, both, "let t p\nset t n k\n", &["this.n"]),
        (both, gone, either, &[]),
    ] {
        let text = script_of(requires, ensures, body);
        assert_eq!(nuyardi::check(&text).err(), None, "{requires}: {body}");
        let script = Script::of(&text).expect("it is read");
        let rows = methods::rows(&script);
        run_is_as_told(&script, &rows);
        let kept = rows[1].handed.iter().filter(|handed| !handed.written);
        let kept: Vec<&str> = kept.map(|handed| handed.path.as_str()).collect();
        assert_eq!(kept, only_read, "{requires}: {body}");
    }
}

/// A script as above, whose main calls `m` for a card with that card itself if so
/// told, and a method `h` that is handed `this.n` for reading.
fn script_with_halves(requires: &str, ensures: &str, body: &str, itself: bool) -> Vec<u8> {
    let text = String::from_utf8(script_of(requires, ensures, body)).expect("a text");
    let reads = "method\tint\th\tint\tk\nrequires\tread\tthis\tn\nensures\tread\tthis\tn\nreturn\tk\nend\nmain\n";
    let text = text.replace("main\n", reads);
    match itself {
        true => text
            .replace("call\tr\ta\tm\tb", "call\tr\ta\tm\ta")
            .into_bytes(),
        false => text.into_bytes(),
    }
}

/// `this.n half p.n written back`: what a row says of the fields that it is handed.
fn told(row: &Row) -> String {
    let handed = row.handed.iter().map(|handed| {
        let other = handed.share.other().map(|other| format!(" {other}"));
        let (written, back) = (handed.written, handed.back);
        [
            handed.path.clone(),
            format!(" {}", handed.share.word()),
            other.unwrap_or_default(),
            if written { " written" } else { "" }.to_string(),
            if back { " back" } else { "" }.to_string(),
        ]
        .concat()
    });
    handed.collect::<Vec<_>>().join(", ")
}

const ONE: &str = "read this n ne this null";
const TWICE: &str = "read this n read this n ne this null";
const BOTH: &str = "read this n read p n ne this null ne p null";
const TWO: &str = "read this n read p n ne this null ne p null ne this p";
const SAME: &str = "eq this p read this n read p n ne this null";
const SET: &str = "set this n k\n";
/// Where both names are of one card, the halves come together after a call.
const FOUND: &str = "if eq this p\ncall j this h k\nset this n k\nelse\n\
                     join read this n read p n ne this null ne p null\n";
const EITHER: &str = "this.n half p.n back, p.n half this.n back";
const WRITTEN: &str = "this.n half p.n written back, p.n half this.n written back";

/// What m requires, ensures and does, whether it is called with the card itself,
/// and what is told.
const HALVES: [(&str, &str, &str, bool, &str); 15] = [
    (ONE, ONE, "let k this.n\n", false, "this.n half back"),
    (ONE, "ne this null", "", false, "this.n half"),
    (ONE, ONE, "call j this h k\n", false, "this.n half back"),
    (TWICE, TWICE, SET, false, "this.n whole written back"),
    (TWICE, ONE, SET, false, "this.n whole written"),
    (TWICE, "acc this n", "", false, "this.n whole back"),
    (BOTH, BOTH, "", false, EITHER),
    (BOTH, BOTH, "", true, EITHER),
    (BOTH, ONE, "", true, "this.n half p.n back, p.n half this.n"),
    (BOTH, BOTH, FOUND, false, WRITTEN),
    (BOTH, BOTH, FOUND, true, WRITTEN),
    (TWO, BOTH, "", false, "this.n half back, p.n half back"),
    (
        SAME,
        BOTH,
        "set p n k\n",
        true,
        "this.n whole written back, p.n whole written back",
    ),
    (SAME, ONE, "", true, "this.n whole, p.n whole"),
    (
        "acc this n read p n",
        "acc this n",
        SET,
        false,
        "this.n whole written back, p.n half",
    ),
];

/// One half is for reading, two are the whole, by one name or by two that are of
/// one card; as many as were handed over must come back.
#[test]
fn halves_are_counted() {
    for (requires, ensures, body, itself, wanted) in HALVES {
        let text = script_with_halves(requires, ensures, body, itself);
        assert_eq!(model::check(&text), (0, 0), "{requires}: {body}");
        let script = Script::of(&text).expect("it is read");
        let rows = methods::rows(&script);
        run_is_as_told(&script, &rows);
        assert_eq!(told(&rows[1]), wanted, "{requires}: {ensures}: {body}");
    }
}

/// Of a refused text nothing is known beyond its lines: two names with a half each
/// may be of one card, and then one half is not all that was handed over.
#[test]
fn halves_of_a_refused_text() {
    let wrong = "assert eq k 8\n";
    let text = script_with_halves(SAME, "read this n eq this p", wrong, true);
    assert_eq!(model::check(&text).0, 13);
    let script = Script::of(&text).expect("it is read");
    let rows = methods::rows(&script);
    assert_eq!(told(&rows[1]), "this.n half p.n, p.n half this.n");
}

/// A script with a method `m` of these lines, which main calls for a chain of three
/// cards with another card.
fn script_with_chain(requires: &str, ensures: &str, body: &str) -> Vec<u8> {
    let text = format!(
        "class S\nfield S p\nmethod S m S w\nrequires {requires}\nensures {ensures}\n\
         var S t\nvar S n\n{body}end\nmain\nvar S a\nvar S b\nvar S c\nvar S d\nvar S r\n\
         new a S\nshut a p\nnew b S\nset b p a\nshut b p\nnew c S\nset c p b\nshut c p\nnew d S\n\
         call r c m d\nend\n"
    );
    text.replace(' ', "\t").into_bytes()
}

const CHAIN: &str = "chain this p ne this null";
const WITH: &str = "chain this p ne this null acc w p";

/// What m requires, ensures and does, and what is told.
const CHAINS: [(&str, &str, &str, &str); 9] = [
    (CHAIN, "chain this p", "", "chain this p chain back"),
    (CHAIN, "ne this null", "", "chain this p chain"),
    (
        CHAIN,
        "chain this p",
        "open t this p\nshut this p\n",
        "chain this p chain back",
    ),
    (
        CHAIN,
        "chain this p",
        "open t this p\nset this p n\nlet n null\nset this p n\nshut this p\n",
        "chain this p chain written",
    ),
    (
        CHAIN,
        "chain this p",
        "new t S\nset t p this\n",
        "chain this p chain back",
    ),
    (
        WITH,
        "chain this p acc w p",
        "set w p this\n",
        "chain this p chain back, w.p whole written back",
    ),
    (
        WITH,
        "chain w p",
        "set w p this\nshut w p\n",
        "chain this p chain, w.p whole written back",
    ),
    (
        WITH,
        "chain this p acc w p",
        "open t this p\nset this p t\nshut this p\n",
        "chain this p chain written, w.p whole back",
    ),
    (
        WITH,
        "chain this p chain w p",
        "let t null\nset w p t\nshut w p\n",
        "chain this p chain back, w.p whole written back",
    ),
];

/// A chain is handed over as a whole; what is written beside it is none of its
/// cards, and it comes back by its name if none of its links is written.
#[test]
fn chains_are_told() {
    for (requires, ensures, body, wanted) in CHAINS {
        let text = script_with_chain(requires, ensures, body);
        assert_eq!(model::check(&text), (0, 0), "{requires}: {body}");
        let script = Script::of(&text).expect("it is read");
        let rows = methods::rows(&script);
        run_is_as_told(&script, &rows);
        assert_eq!(told(&rows[0]), wanted, "{requires}: {ensures}: {body}");
    }
}
