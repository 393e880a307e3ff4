//! `station bound`: what it says of a bound, of where it comes from, and of texts
//! that have none.

mod common;

use common::{folder, said};
use explain::json::{parse, Json};

/// A script whose methods are of a class S, each with a variable r and these lines;
/// main makes an s and does its own lines.
fn script(methods: &[(String, String)], main: &str) -> String {
    let mut text = "class S\n".to_string();
    for (name, lines) in methods {
        text.push_str(&format!(
            "method int {name} int w\nrequires ne this null\nensures\nvar int r\n{lines}end\n"
        ));
    }
    text.push_str(&format!(
        "main\nvar S s\nvar int a\nvar int b\nnew s S\n{main}end\n"
    ));
    text.replace(' ', "\t")
}

/// Methods by their names, each with the methods that it calls.
fn calls(methods: &[(&str, &[&str])]) -> Vec<(String, String)> {
    let lines = |names: &[&str]| -> String {
        let lines = names.iter().map(|name| format!("call r this {name} w\n"));
        lines.collect()
    };
    let methods = methods.iter();
    methods
        .map(|(name, names)| (name.to_string(), lines(names)))
        .collect()
}

/// So many methods, each of which calls the one before so many times, and a main
/// that calls the last.
fn chain(count: usize, times: usize) -> String {
    let lines = |at: usize| match at {
        0 => String::new(),
        _ => format!("call r this m{} w\n", at - 1).repeat(times),
    };
    let methods: Vec<(String, String)> =
        (0..count).map(|at| (format!("m{at}"), lines(at))).collect();
    script(&methods, &format!("call a s m{} b\n", count - 1))
}

fn bound(text: &str) -> (String, i32) {
    let (out, error, status) = said(&["bound", "--why", "-"], text.as_bytes());
    assert_eq!(error, "");
    (out, status)
}

#[test]
fn a_bound_and_its_route() {
    let (out, _, status) = said(&["bound", "examples/worked.txt"], b"");
    let at_most = "examples/worked.txt: at most 9 steps, 2 frames\n";
    assert_eq!((out.as_str(), status), (at_most, 0));
    let (out, status) = bound("main\nend\n");
    let alone = "-: at most 1 step, 1 frame\n  route: main takes 1: 1 line\n";
    assert_eq!((out.as_str(), status), (alone, 0));
    // The most expensive call of each block, and the first of two alike.
    let methods = calls(&[("a", &[]), ("b", &["a", "a"]), ("c", &["a", "b"])]);
    let main = "call a s a b\ncall a s c b\ncall a s c b\n";
    let (out, _) = bound(&script(&methods, main));
    let route = "-: at most 24 steps, 4 frames\n\
                 \x20 route: main takes 24: 5 lines, 3 of them calls\n\
                 \x20 route: line 27: `call a s c b` adds 9: 3 lines, 2 of them calls\n\
                 \x20 route: line 19: `call r this b w` adds 5: 3 lines, 2 of them calls\n\
                 \x20 route: line 11: `call r this a w` adds 1: 1 line\n";
    assert_eq!(out, route);
}

/// More frames than a run has are given, with a word on it.
#[test]
fn more_frames_than_a_run_has() {
    for (count, noted) in [(63, false), (64, true)] {
        let text = chain(count, 1);
        let (out, error, status) = said(&["bound", "-"], text.as_bytes());
        assert_eq!((error.as_str(), status), ("", 0));
        assert!(out.contains(&format!("{} frames", count + 1)), "{out}");
        assert_eq!(out.contains("note: a run has 64 frames"), noted, "{out}");
    }
}

/// What check refuses is told as check tells it, and has its status.
#[test]
fn refused_texts() {
    for number in 3..=14 {
        let file = format!("examples/refused-{number:02}.script");
        let checked = said(&["check", &file], b"");
        assert_eq!(said(&["bound", "--why", &file], b""), checked);
        assert_eq!(checked.2, 1);
    }
}

#[test]
fn loops_and_rings() {
    let no_bound = ": no bound, number 15: ";
    let methods = calls(&[("a", &["b"]), ("b", &["c"]), ("c", &["c", "a"])]);
    let ring = [
        "this call leads back to `a` of class S\n",
        "   note: `a` calls `b` at line 6\n",
        "   note: `b` calls `c` at line 12\n12 | call r this c w\n   | ---------------\n",
        "   note: `c` calls `a` at line 19\n19 | call r this a w\n",
        "   note: no bound for line 18 either, which leads back to `c` of class S\n",
        "   help: run it with as many steps as it may take",
    ];
    let itself = calls(&[("a", &["b"]), ("b", &["b"])]);
    let never = "\x20  note: no call of main leads to `b` of class S\n\
                 \x20  help: leave the method out, if nothing is to call it\n";
    let itself_said = ["number 15: here `b` of class S calls itself\n", never];
    let looped = [
        "number 15: how often the loop goes round shows in a run alone\n",
        "   note: its rounds end at line 9\n9 | again\n",
    ];
    for (methods, main, line, parts) in [
        (&methods[..], "call a s b b\n", 6, &ring[..]),
        (&itself, "", 12, &itself_said),
        (&[], "loop ne a 3\nlet a 3\nagain\n", 7, &looped),
    ] {
        let (out, status) = bound(&script(methods, main));
        assert!(out.starts_with(&format!("-:{line}{no_bound}")), "{out}");
        assert_eq!(status, 1);
        for part in parts {
            assert!(out.contains(part), "{part} in {out}");
        }
        assert!(!out.contains("route:"), "{out}");
    }
}

/// A bound of any size is told, with the method that has most of it.
#[test]
fn bounds_that_are_too_high() {
    let (out, _, status) = said(&["bound", "examples/refused-16.script"], b"");
    assert_eq!(status, 1);
    let start = "examples/refused-16.script: no bound, number 16: main's lines and calls ";
    assert!(out.starts_with(start), "{out}");
    for part in [
        "main's lines and calls come to 1,466,668 steps, and 1,000,000 are",
        "   note: `one` of class Tray has the most of them: 6 lines, done 200,000 times\n",
    ] {
        assert!(out.contains(part), "{out}");
    }
    let (out, _) = bound(&chain(62, 3));
    let most = "`m1` of class S has the most of them: 4 lines, done \
                42,391,158,275,216,203,514,294,433,201 times";
    let words: Vec<&str> = out.split_whitespace().collect();
    assert!(words.join(" ").contains(most), "{out}");
}

fn list<'j>(object: &'j Json, name: &str) -> &'j [Json] {
    match object.get(name) {
        Some(Json::List(items)) => items,
        _ => &[],
    }
}

/// Texts of every kind: the answers are the model's, each text without a bound has
/// a cause, and a route begins with the whole bound.
#[test]
fn random_texts() {
    let folder = folder("bounds");
    let texts = (0..600).map(|seed| generator::text(0x7000_0000 + seed));
    let texts: Vec<Vec<u8>> = texts.collect();
    for (at, text) in texts.iter().enumerate() {
        std::fs::write(folder.join(format!("{at:04}.script")), text).expect("written");
    }
    let name = folder.to_str().expect("a name");
    let (out, error, _) = said(&["bound", "--why", "--json", name], b"");
    assert_eq!((error.as_str(), out.lines().count()), ("", texts.len()));
    let mut seen = [0; 17];
    for (text, line) in texts.iter().zip(out.lines()) {
        let object = parse(line).unwrap_or_else(|| panic!("no JSON: {line}"));
        let int = |name: &str| object.get(name).and_then(Json::int);
        let found = model::bound(text);
        let answer = (int("number"), int("line"));
        let wanted = (found.number, found.line);
        assert_eq!(answer, (Some(wanted.0.into()), Some(wanted.1.into())));
        seen[found.number as usize] += 1;
        let given = found.number == 0;
        assert_eq!(int("bound"), given.then_some(found.bound.into()));
        assert_eq!(int("frames"), given.then_some(found.frames.into()));
        assert_eq!(object.get("cause").is_none(), given, "{line}");
        let accepted = matches!(found.number, 0 | 15 | 16);
        assert_eq!(object.get("accepted"), Some(&Json::Bool(accepted)));
        let route = list(&object, "route");
        let adds = route.first().and_then(|main| main.get("adds")?.int());
        match found.number {
            0 => assert_eq!(adds, int("bound")),
            16 => assert!(adds > Some(1_000_000)),
            _ => assert_eq!(adds, None),
        }
    }
    assert!(seen[0] > 50 && seen[15] > 20 && seen[16] > 2, "{seen:?}");
}
