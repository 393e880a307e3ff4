//! Texts to time and measure: common ones, long runs, and the worst found for
//! the checker and the reader.
#![allow(dead_code)]

use nuyardi::limits::{CLASSES, CLASS_FIELDS, LOCALS, METHODS, STATEMENTS, TEXT_BYTES};

pub struct Workload {
    pub name: &'static str,
    pub text: Vec<u8>,
    /// How many steps to allow; none where only check is of interest.
    pub steps: Option<u32>,
}

fn text(lines: &[String]) -> Vec<u8> {
    let mut text = Vec::new();
    for line in lines {
        text.extend(
            line.bytes()
                .map(|byte| if byte == b' ' { b'\t' } else { byte }),
        );
        text.push(b'\n');
    }
    assert!(text.len() <= TEXT_BYTES);
    text
}

fn lines(source: &str) -> Vec<String> {
    source.lines().map(str::to_string).collect()
}

const HELD: &str = "requires ne this null acc this n acc this p";
const BACK: &str = "ensures acc this n acc this p";

/// Methods that each do some lines and call the next twice: runs without end in
/// sight.
pub fn calls(depth: usize, requires: &str, ensures: &str, body: &[&str]) -> Vec<u8> {
    let mut all = lines("class S\nfield S p\nfield int n");
    for at in 0..depth {
        all.push(format!("method int m{at} int w"));
        all.extend(lines(&format!(
            "{requires}\n{ensures}\nvar int a\nvar int b\nvar S s"
        )));
        all.extend(body.iter().map(|line| line.to_string()));
        if at + 1 < depth {
            all.push(format!("call a this m{} w", at + 1));
            all.push(format!("call b this m{} w", at + 1));
        }
        all.push("end".to_string());
    }
    all.extend(lines(
        "main\nvar S s\nvar int a\nvar int b\nnew s S\ncall a s m0 b\nend",
    ));
    text(&all)
}

/// Seven objects of eight fields, 56 permissions and 63 facts, then as many
/// lines of one kind as fit.
pub fn full_state(more: &[&str]) -> Vec<u8> {
    full_state_of(7, 240, more)
}

/// So many objects of eight fields, then so many lines.
pub fn full_state_of(objects: usize, count: usize, more: &[&str]) -> Vec<u8> {
    let mut all = lines("class S");
    all.extend((0..CLASS_FIELDS).map(|at| format!("field S f{at}")));
    all.push("method S m S w".to_string());
    let fields: String = (0..CLASS_FIELDS)
        .map(|at| format!(" acc this f{at}"))
        .collect();
    all.extend([
        format!("requires{fields}"),
        format!("ensures{fields}"),
        "end".to_string(),
    ]);
    all.push("main".to_string());
    all.extend((0..LOCALS).map(|at| format!("var S x{at}")));
    all.extend((0..objects).map(|at| format!("new x{at} S")));
    let more = more.iter().cycle().take(count);
    all.extend(more.map(|line| line.to_string()));
    all.push("end".to_string());
    text(&all)
}

/// As many declarations as the limits allow, with long names.
fn declarations() -> Vec<u8> {
    let mut all = Vec::new();
    let names = "abcdefghij";
    for class in 0..CLASSES {
        all.push(format!("class {names}{class:02}"));
        for field in 0..CLASS_FIELDS {
            all.push(format!(
                "field {names}{:02} {names}{field:02}",
                CLASSES - 1 - class
            ));
        }
        for method in 0..METHODS / CLASSES {
            all.push(format!("method int {names}{method:02} int {names}ww"));
            all.extend(lines("requires\nensures"));
            all.extend(
                (0..LOCALS).map(|at| format!("var {names}{:02} {names}{at:02}", CLASSES - 1)),
            );
            all.push("end".to_string());
        }
    }
    all.extend(lines("main\nend"));
    text(&all)
}

/// Asserts of eight atoms, each of them this one, up to the longest text.
fn asserts(atom: impl Fn(usize) -> String) -> Vec<u8> {
    let mut all = lines("class longclass\nfield int longfieldone\nmain\nvar longclass longvariable\nnew longvariable longclass");
    let mut bytes = all.iter().map(|line| line.len() + 1).sum::<usize>();
    for at in 0..STATEMENTS - 2 {
        let atoms: Vec<String> = (0..8).map(|atom_at| atom(8 * at + atom_at)).collect();
        let line = format!("assert {}", atoms.join(" "));
        bytes += line.len() + 1;
        if bytes + 4 > TEXT_BYTES {
            break;
        }
        all.push(line);
    }
    all.push("end".to_string());
    text(&all)
}

pub fn all() -> Vec<Workload> {
    let plain = "requires ne this null";
    let set_let = [
        "let a w",
        "set this n a",
        "let b this.n",
        "let b 5",
        "set this n b",
        "let a b",
        "let b this.n",
    ];
    let formula = [
        "set this n w",
        "assert acc this n acc this p eq this.n w eq w w ne this null",
        "assert eq this.n w eq w this.n ne this null eq 5 5 ne 4 5",
    ];
    let branches = [
        "if eq w 0",
        "let a 1",
        "else",
        "let a 2",
        "join acc this n acc this p ne this null",
        "if ne this.p null",
        "let s this.p",
        "else",
        "let b 3",
        "join acc this n acc this p ne this null",
    ];
    let mixed = [
        "set this n w",
        "let a this.n",
        "add b a w",
        "assert acc this n ne this null eq this.n a",
        "if eq a b",
        "let s this.p",
        "else",
        "sub b b a",
        "join acc this n acc this p ne this null",
        "set this p s",
        "assert acc this p eq this.p s",
    ];
    let workload = |name, text, steps| Workload { name, text, steps };
    let examples = [
        workload(
            "worked script",
            include_bytes!("../../../../examples/worked.txt").to_vec(),
            Some(1_000),
        ),
        workload(
            "station script",
            include_bytes!("../../../../examples/station.script").to_vec(),
            Some(1_000),
        ),
    ];
    let runs = [
        workload(
            "run: set, let",
            calls(23, HELD, BACK, &set_let),
            Some(1_000_000),
        ),
        workload(
            "run: bare calls",
            calls(60, plain, "ensures", &[]),
            Some(1_000_000),
        ),
        workload(
            "run: calls with fields",
            calls(60, HELD, BACK, &[]),
            Some(1_000_000),
        ),
        workload(
            "run: asserts",
            calls(40, HELD, BACK, &formula),
            Some(1_000_000),
        ),
        workload(
            "run: branches",
            calls(19, HELD, BACK, &branches),
            Some(1_000_000),
        ),
        workload("run: mixed", calls(17, HELD, BACK, &mixed), Some(1_000_000)),
        workload(
            "run: a large catalogue",
            include_bytes!("../../../../examples/catalogue.script").to_vec(),
            Some(1_000_000),
        ),
    ];
    let ne: String = (0..8)
        .map(|at| format!(" ne x{} x{}", at % 6, at % 6 + 1))
        .collect();
    let ne_paths: String = (0..8)
        .map(|at| format!(" ne x{}.f7 x{}", at % 6, at % 6 + 1))
        .collect();
    let eq_paths: String = (0..8)
        .map(|at| format!(" eq x{}.f{at} x6.f7", at % 6))
        .collect();
    let acc: String = (0..8).map(|at| format!(" acc x6 f{at}")).collect();
    let [ne, ne_paths, eq_paths, acc] =
        [ne, ne_paths, eq_paths, acc].map(|atoms| format!("assert{atoms}"));
    let news: Vec<String> = (0..7).map(|at| format!("new x{at} S")).collect();
    let news: Vec<&str> = news.iter().map(String::as_str).collect();
    let nested = [
        "if eq x0 x7",
        "if eq x1 x7",
        "if eq x2 x7",
        "if eq x3 x7",
        "else",
        "join",
        "else",
        "join",
        "else",
        "join",
        "else",
        "join",
    ];
    let checks = [
        workload("check: ne, pairs", full_state(&[&ne]), None),
        workload("check: ne of paths", full_state(&[&ne_paths]), None),
        workload("check: eq of paths", full_state(&[&eq_paths]), None),
        workload("check: acc", full_state(&[&acc]), None),
        workload("check: new", full_state(&news), None),
        workload(
            "check: let",
            full_state(&["let x11 x6.f7", "let x11 x5.f7"]),
            None,
        ),
        workload(
            "check: set",
            full_state(&["set x6 f7 x5", "set x5 f7 x6"]),
            None,
        ),
        workload("check: call", full_state(&["call x11 x6 m x5"]), None),
        workload("check: branches", full_state_of(6, 228, &nested), None),
    ];
    let mut late = asserts(|_| "eq 1000000001 1000000001".to_string());
    let last = late
        .windows(7)
        .rposition(|word| word == b"\nassert")
        .unwrap_or(0);
    late.splice(last + 1.., *b"assert\teq\tnone\t5\nend\n");
    let reads = [
        workload("read: declarations", declarations(), None),
        workload(
            "read: long numbers",
            asserts(|_| "eq 2147483647 2147483647".to_string()),
            None,
        ),
        workload(
            "read: different numbers",
            asserts(|at| format!("eq {at} {at}")),
            None,
        ),
        workload(
            "read: long paths",
            asserts(|_| "eq longvariable.longfieldone 0".to_string()),
            None,
        ),
        workload("read: undeclared at the end", late, None),
        workload(
            "read: one line",
            vec![b'a'; TEXT_BYTES - 1]
                .into_iter()
                .chain([b'\n'])
                .collect(),
            None,
        ),
    ];
    let mut all = Vec::new();
    all.extend(examples);
    all.extend(runs);
    all.extend(checks);
    all.extend(reads);
    all.extend(fills());
    all
}

/// A method with a `requires *`, whose class and whose parameter's have eight fields
/// each: some lines that ask for nothing, then lines that write these fields of the
/// parameter.
fn starred(before: usize, written: std::ops::Range<usize>) -> Vec<u8> {
    let mut all = lines("class S");
    all.extend((0..CLASS_FIELDS).map(|at| format!("field int f{at}")));
    all.extend(lines("method int m S w\nrequires *\nensures\nvar int a"));
    let asserted = format!("assert{}", " ne 1 2".repeat(8));
    all.extend(std::iter::repeat_n(asserted, before));
    all.extend(written.map(|at| format!("set w f{at} a")));
    all.extend(lines("end\nmain\nend"));
    text(&all)
}

/// Texts to be filled in: the worked script, the last set of all, and none after many
/// lines.
fn fills() -> Vec<Workload> {
    let worked = include_str!("../../../../examples/worked.txt");
    let worked = worked.replace("requires\tacc\tthis\tn\n", "requires\t*\n");
    let workload = |name, text| Workload {
        name,
        text,
        steps: None,
    };
    vec![
        workload("fill: the worked script", worked.into_bytes()),
        workload("fill: the last of 2,517 sets", starred(0, 4..8)),
        workload("fill: the last set after 100 lines", starred(100, 4..8)),
        workload("fill: no set after 100 lines", starred(100, 3..8)),
    ]
}

/// Texts that differ in one thing each, to see how cost grows with it.
pub fn growth() -> Vec<Workload> {
    let mut all = Vec::new();
    let mut add = |name, text, steps| all.push(Workload { name, text, steps });
    let asserted = ["assert acc x0 f0 ne x0 null eq x0.f0 null"];
    add("statements: 60", full_state_of(4, 60, &asserted), None);
    add("statements: 120", full_state_of(4, 120, &asserted), None);
    add("statements: 240", full_state_of(4, 240, &asserted), None);
    let lets = ["let x11 x0.f0", "let x11 x0.f1"];
    add("assert: 9 facts", full_state_of(1, 240, &asserted), None);
    add("assert: 27 facts", full_state_of(3, 240, &asserted), None);
    add("assert: 63 facts", full_state_of(7, 240, &asserted), None);
    add("let: 9 facts", full_state_of(1, 240, &lets), None);
    add("let: 27 facts", full_state_of(3, 240, &lets), None);
    add("let: 63 facts", full_state_of(7, 240, &lets), None);
    let steps = Some(1_000_000);
    add("steps: calls 19 deep", calls(19, HELD, BACK, &[]), steps);
    add("steps: calls 60 deep", calls(60, HELD, BACK, &[]), steps);
    add(
        "steps: 19 KB more text",
        padded(calls(19, HELD, BACK, &[])),
        steps,
    );
    add(
        "steps: 180 objects more",
        crowded(calls(19, HELD, BACK, &[])),
        steps,
    );
    all
}

/// The text with a method before main that is never called.
fn padded(text: Vec<u8>) -> Vec<u8> {
    let mut method = String::from("method int pad int w\nrequires\nensures\n");
    for _ in 0..150 {
        method.push_str("assert eq 1000000001 1000000001 eq 1000000001 1000000001 eq 1000000001 1000000001 eq 100000001 100000001 eq 10000001 10000001\n");
    }
    method.push_str("end\n");
    with_lines(text, "main\n", &method)
}

/// The text with objects made before main's first statement.
fn crowded(text: Vec<u8>) -> Vec<u8> {
    with_lines(text, "new\ts\tS\n", &"new s S\n".repeat(180))
}

/// The text with lines before the last place where others stand.
fn with_lines(text: Vec<u8>, before: &str, lines: &str) -> Vec<u8> {
    let text = String::from_utf8(text).expect("ASCII");
    let at = text.rfind(before).expect("such lines");
    let lines = lines.replace(' ', "\t");
    let text = [&text[..at], &lines, &text[at..]].concat().into_bytes();
    assert!(text.len() <= TEXT_BYTES);
    text
}
