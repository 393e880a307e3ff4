//! `station report --json`: every figure that a call gives is the call's, for the
//! examples and for texts of every kind.

use super::{examples, int, list, object, objects, said, sha256sum, text};
use crate::common::{folder, root};
use explain::json::Json;
use std::path::Path;

/// What the library says of a text is what its report says.
fn same_as_the_library(report: &Json, script: &[u8]) -> u32 {
    let check = report.get("check").expect("check's answer");
    let (number, line) = match nuyardi::check(script) {
        Ok(_) => (0, 0),
        Err(refusal) => (refusal.number(), refusal.line()),
    };
    assert_eq!(
        (int(check, "number"), int(check, "line")),
        (number.into(), line.into())
    );
    assert_eq!(check.get("accepted"), Some(&Json::Bool(number == 0)));
    let bound = nuyardi::bound(script);
    let steps = bound.ok().map(|bound| i64::from(bound.steps));
    assert_eq!(report.get("bound").and_then(Json::int), steps);
    let frames = bound.ok().map(|bound| i64::from(bound.frames));
    assert_eq!(report.get("frames").and_then(Json::int), frames);
    let adds = list(report, "route").first().map(|main| int(main, "adds"));
    if let Some(steps) = steps {
        assert_eq!(adds, Some(steps));
    }
    let first = list(report, "reasons")
        .first()
        .map(|first| int(first, "line"));
    match bound {
        Err(nuyardi::NoBound::Accepted { line, .. }) => {
            let excess = report.get("excess").expect("why there is no bound");
            assert_eq!(int(excess, "line"), line.into());
            assert_eq!(first, (line > 0).then_some(line.into()));
        }
        _ => assert_eq!((report.get("excess"), first), (None, None)),
    }
    run_is_the_library_s(report, script);
    number
}

fn run_is_the_library_s(report: &Json, script: &[u8]) {
    let bound = nuyardi::bound(script);
    let steps = bound.map_or(1_000, |bound| bound.steps);
    let Ok(outcome) = nuyardi::run(script, steps) else {
        assert_eq!(report.get("run"), None);
        return;
    };
    let run = report.get("run").expect("the run");
    for (name, value) in [
        ("number", outcome.number()),
        ("line", outcome.line()),
        ("steps", outcome.steps()),
        ("allowed", steps),
    ] {
        assert_eq!(int(run, name), value.into(), "{name}");
    }
    let variables = list(run, "variables");
    assert_eq!(variables.len(), outcome.variables().count());
    let stops = list(report, "stops");
    let came = stops.iter().filter(|stop| text(stop, "verdict") == "comes");
    let came: Vec<i64> = came.map(|stop| int(stop, "number")).collect();
    let stopped = Some(i64::from(outcome.number())).filter(|number| *number != 0);
    assert_eq!(came.first().copied(), stopped, "{came:?}");
}

#[test]
fn the_examples() {
    let mut seen = [0; 15];
    for file in examples() {
        let report = object(&["report", "--json", "--no-time", &file]);
        assert_eq!(text(&report, "file"), file);
        let script = std::fs::read(root().join(&file)).expect("a script");
        assert_eq!(int(&report, "bytes"), script.len() as i64);
        assert_eq!(text(&report, "sha256"), sha256sum(&root().join(&file)));
        let stops = list(&report, "stops").iter();
        let numbers: Vec<i64> = stops.map(|stop| int(stop, "number")).collect();
        assert_eq!(numbers, [21, 22, 23, 24, 25, 26, 27]);
        assert_eq!(list(&report, "assumed").len(), 5);
        seen[same_as_the_library(&report, &script) as usize] += 1;
    }
    assert!(
        seen[0] > 20 && seen[3..].iter().all(|count| *count > 0),
        "{seen:?}"
    );
}

/// So many texts of the generator, each in a file of the folder.
fn texts(folder: &Path, count: u64) {
    for seed in 0..count {
        let text = generator::text(0x5e50_0000 + seed);
        std::fs::write(folder.join(format!("{seed:04}.script")), text).expect("a text");
    }
}

#[test]
fn texts_of_every_kind() {
    let folder = folder("reports");
    texts(&folder, 300);
    let name = folder.to_str().expect("a name");
    let reports = objects(&["report", "--json", "--no-time", name]);
    assert_eq!(reports.len(), 300);
    let mut accepted = 0;
    for (seed, report) in reports.iter().enumerate() {
        let file = folder.join(format!("{seed:04}.script"));
        assert_eq!(text(report, "file"), file.to_str().expect("a name"));
        let script = std::fs::read(&file).expect("a text");
        accepted += usize::from(same_as_the_library(report, &script) == 0);
    }
    assert!((60..240).contains(&accepted), "{accepted}");
}

/// A report says which library it asked: the one that is linked, made of the
/// libstation.a of this build.
#[test]
fn the_library_is_the_one_that_is_linked() {
    let report = object(&["report", "--json", "examples/tag.script"]);
    let made = std::env::var_os("STATION_LIB").map(std::path::PathBuf::from);
    let made = made.unwrap_or_else(|| root().join("target/staticlib/libstation.a"));
    let library = folder("report-library").join("libnuyardi.a");
    let done = std::process::Command::new(root().join("tools/c-library"))
        .args([&made, &library])
        .status();
    assert!(done.expect("tools/c-library").success());
    assert_eq!(text(&report, "library"), sha256sum(&library));
    assert_eq!(text(&report, "version"), env!("CARGO_PKG_VERSION"));
    assert!(text(&report, "time").ends_with(" UTC"));
    let said = std::process::Command::new("rt").arg("version").output();
    let logic = text(&report, "logic");
    match said {
        Ok(said) => {
            let said = String::from_utf8_lossy(&said.stdout).into_owned();
            assert!(said.trim().ends_with(&format!("logic {logic}")), "{said}");
        }
        Err(_) => assert_eq!(logic, "not known"),
    }
}

/// What a method is handed, writes, only reads and does not give back.
#[test]
fn the_table_of_methods() {
    let report = object(&["report", "--json", "examples/two.script"]);
    let [copy, main] = list(&report, "methods") else {
        panic!("two rows: {report}");
    };
    assert_eq!(text(copy, "method"), "copy");
    assert_eq!(main.get("method"), Some(&Json::Null));
    let handed = list(copy, "handed").iter();
    let handed: Vec<(&str, &str, Option<&Json>, Option<&Json>)> = handed
        .map(|one| {
            (
                text(one, "path"),
                text(one, "share"),
                one.get("written"),
                one.get("back"),
            )
        })
        .collect();
    let (yes, no) = (Some(&Json::Bool(true)), Some(&Json::Bool(false)));
    assert_eq!(
        handed,
        [
            ("this.tag", "whole", yes, yes),
            ("from.tag", "whole", no, yes)
        ]
    );
    let places = |row: &Json, name: &str| -> Vec<i64> {
        list(row, name).iter().map(|one| int(one, "line")).collect()
    };
    assert_eq!(places(copy, "writes"), [8]);
    assert_eq!(places(copy, "callers"), [20]);
    assert_eq!(
        (places(main, "writes"), places(main, "makes")),
        (vec![19, 20], vec![16, 17])
    );
}

/// A field that `ensures` does not give back.
#[test]
fn what_is_not_given_back() {
    let report = object(&["report", "--json", "examples/lost.script"]);
    let handed = list(&list(&report, "methods")[0], "handed").iter();
    let kept = handed.filter(|one| one.get("back") == Some(&Json::Bool(false)));
    assert_eq!(
        kept.map(|one| text(one, "path")).collect::<Vec<_>>(),
        ["this.tag"]
    );
}

/// Cards handed over for reading: one of which the method has a half, and two
/// names that may be of one card.
#[test]
fn what_is_for_reading() {
    let folder = folder("report-reading");
    let file = folder.join("read.script");
    let script = "class S\nfield int n\nmethod int look int k\nrequires read this n\nensures read this n\n\
                  var int r\nlet r this.n\nreturn r\nend\nmethod int both S p\nrequires read this n read p n\n\
                  ensures read this n\nvar int k\nreturn k\nend\nmain\nend\n";
    std::fs::write(&file, script.replace(' ', "\t")).expect("a script");
    let report = object(&["report", "--json", file.to_str().expect("a name")]);
    let told: Vec<String> = list(&report, "methods")
        .iter()
        .flat_map(|method| list(method, "handed"))
        .map(Json::to_string)
        .collect();
    let wanted = [
        r#"{"path":"this.n","share":"half","written":false,"back":true}"#,
        r#"{"path":"this.n","share":"half","other":"p.n","written":false,"back":true}"#,
        r#"{"path":"p.n","share":"half","other":"this.n","written":false,"back":false}"#,
    ];
    assert_eq!(told, wanted);
    let (out, _, _) = said(&["report", file.to_str().expect("a name")], b"");
    let out = out.split_whitespace().collect::<Vec<_>>().join(" ");
    for words in [
        "handed over: nothing for reading: `this.n` written: nothing",
        "handed over: `this.n` (if `p.n` is the same), `p.n` (if `this.n` is the same)",
        "for reading: `this.n` (if `p.n` is another), `p.n` (if `this.n` is another)",
        "not given back: `p.n`",
    ] {
        assert!(out.contains(words), "{words}: {out}");
    }
}
