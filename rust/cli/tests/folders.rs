//! Folders and several files for every command that takes a script, with a summary.

mod common;

use common::{folder, said};
use explain::json::{parse, Json};

const GOOD: &str = "main\nvar\tint\ta\nlet\ta\t7\nend\n";
const REFUSED: &str = "main\nvar\tint\ta\nassert\teq\ta\t7\nend\n";
const STAR: &str = "class\tS\nfield\tint\tn\nmethod\tint\tm\tint\tk\nrequires\t*\nensures\n\
                    set\tthis\tn\tk\nreturn\tk\nend\nmain\nend\n";

/// A folder with one script that is accepted and one that is refused, in a folder in it.
fn scripts(test: &str) -> String {
    let folder = folder(test);
    std::fs::create_dir(folder.join("in")).expect("a folder");
    std::fs::write(folder.join("a.script"), GOOD).expect("a file");
    std::fs::write(folder.join("in/b.script"), REFUSED).expect("a file");
    std::fs::write(folder.join("c.txt"), "no script").expect("a file");
    folder.to_str().expect("a name").to_string()
}

/// Each command's last line, and its status.
#[test]
fn summaries() {
    let folder = scripts("folders");
    for (word, summary, expected) in [
        ("check", "1 accepted, 1 refused\n", 1),
        ("run", "1 finished, 1 not finished\n", 1),
        ("trial", "1 finished, 1 not finished\n", 1),
        ("trace", "1 finished, 1 not finished\n", 1),
        ("known", "1 accepted, 1 refused\n", 1),
        ("bound", "1 bounded, 1 without a bound\n", 1),
        ("fill", "0 filled in, 2 not filled in\n", 1),
    ] {
        let (out, error, status) = said(&[word, &folder], b"");
        assert_eq!(status, expected, "{word}");
        assert!(out.ends_with(summary), "{word}: {out}");
        assert!(
            out.contains("/a.script") || word == "trace" || word == "known",
            "{out}"
        );
        assert_eq!(error, "", "{word}");
        // One file that is named has no summary.
        let file = format!("{folder}/a.script");
        let (out, _, _) = said(&[word, &file], b"");
        assert!(
            !out.ends_with(summary) && !out.contains(" 0 "),
            "{word}: {out}"
        );
    }
    let (out, _, status) = said(&["report", &folder], b"");
    assert!(
        status == 1 && out.contains("a.script") && out.contains("b.script"),
        "{out}"
    );
}

/// A summary beside a text or a picture goes to standard error.
#[test]
fn summaries_aside() {
    let folder = scripts("folders-aside");
    let (out, error, status) = said(&["fmt", &folder], b"");
    assert_eq!((out.as_str(), status), (&*format!("{GOOD}{REFUSED}"), 0));
    assert_eq!(error, "station: 2 formatted, 0 not formatted\n");
    let (_, error, status) = said(&["fix", &folder], b"");
    assert!(
        status == 0 && error.ends_with("station: 2 accepted, 0 still refused\n"),
        "{error}"
    );
    let (out, _, _) = said(&["fix", "--check", &folder], b"");
    assert!(out.ends_with("1 need no fix, 1 need one\n"), "{out}");
    let (out, error, status) = said(&["draw", "--trial", &folder], b"");
    assert_eq!(status, 0);
    assert!(
        error.ends_with("station: 2 drawn, 0 not drawn\n"),
        "{error}"
    );
    assert!(
        out.starts_with("<svg ") && out.ends_with("</svg>\n</svg>\n"),
        "{out}"
    );
    assert_eq!(
        (out.matches("<svg ").count(), out.matches("</svg>").count()),
        (3, 3)
    );
    let (out, error, status) = said(&["draw", &folder], b"");
    assert_eq!(status, 1);
    assert_eq!(
        (out.matches("<svg ").count(), out.matches("</svg>").count()),
        (2, 2)
    );
    assert!(
        error.contains("refused, number 13") && error.contains("1 drawn, 1 not drawn"),
        "{error}"
    );
}

/// JSON has an object for each file and no summary.
#[test]
fn json_has_no_summary() {
    let folder = scripts("folders-json");
    for word in [
        "check", "run", "trial", "trace", "known", "bound", "draw", "fmt", "fix", "fill",
    ] {
        let (out, _, _) = said(&[word, "--json", &folder], b"");
        assert_eq!(out.lines().count(), 2, "{word}: {out}");
        for line in out.lines() {
            let object = parse(line).expect("JSON");
            assert!(object.get("file").and_then(Json::text).is_some(), "{line}");
        }
    }
}

/// A folder without scripts, and one that is not there, are told; the others are done.
#[test]
fn folders_without_scripts() {
    let folder = scripts("folders-empty");
    let empty = format!("{folder}/none");
    std::fs::create_dir(&empty).expect("a folder");
    for word in [
        "check", "run", "trial", "trace", "known", "bound", "draw", "fmt", "fix", "fill", "test",
        "count",
    ] {
        let (_, error, status) = said(&[word, &empty], b"");
        assert_eq!(status, 2, "{word}");
        let said = "a folder with no file that ends in .script";
        assert!(error.contains(said), "{word}: {error}");
    }
    let (out, _, status) = said(&["run", &empty, &format!("{folder}/a.script")], b"");
    assert_eq!(status, 2);
    assert!(
        out.ends_with("1 finished, 0 not finished, 1 failed\n"),
        "{out}"
    );
}

/// A count of a folder's scripts; more than four are refused.
#[test]
fn count_of_a_folder() {
    let folder = scripts("folders-count");
    let (out, _, status) = said(&["count", &folder], b"");
    assert!(status == 1 && out.starts_with("2 scripts, "), "{out}");
    let (out, _, _) = said(&["count", "--shares=1,2", &folder], b"");
    assert!(
        out.starts_with("2 scripts, 1,000 rounds: shares of 1 and 2 objects"),
        "{out}"
    );
    let (_, error, status) = said(&["count", "--shares=1", &folder], b"");
    assert!(
        status == 2 && error.contains("scripts 2, shares 1"),
        "{error}"
    );
    let (_, error, status) = said(&["count", "examples"], b"");
    assert!(
        status == 2 && error.starts_with("station: count takes at most 4 scripts, and "),
        "{error}"
    );
}

/// A line is asked of one file, and fill writes each.
#[test]
fn lines_and_stars() {
    let folder = scripts("folders-lines");
    let file = format!("{folder}/a.script:3");
    let (out, _, status) = said(&["known", &file, &folder], b"");
    assert!(
        status == 1 && out.contains("a.script:3: let a 7\n"),
        "{out}"
    );
    let (_, error, status) = said(&["known", &format!("{folder}:3")], b"");
    assert!(
        status == 2 && error.contains("is a folder; a line is one of a file"),
        "{error}"
    );
    std::fs::write(format!("{folder}/in/b.script"), STAR).expect("a file");
    std::fs::write(format!("{folder}/a.script"), STAR).expect("a file");
    let (out, _, status) = said(&["fill", "--write", &folder], b"");
    assert!(
        status == 0 && out.ends_with("2 filled in, 0 not filled in\n"),
        "{out}"
    );
    let (out, _, status) = said(&["check", &folder], b"");
    assert!(
        status == 0 && out.ends_with("2 accepted, 0 refused\n"),
        "{out}"
    );
}

/// A sheet of pictures is one document, whatever the files are called.
#[test]
fn names_on_a_sheet() {
    let folder = folder("folders-names");
    for name in ["<a&b>.script", "\"c\".script"] {
        std::fs::write(folder.join(name), GOOD).expect("a file");
    }
    let (out, _, status) = said(&["draw", folder.to_str().expect("a name")], b"");
    assert_eq!(status, 0);
    assert!(out.contains("&lt;a&amp;b&gt;.script</text>"), "{out}");
    assert!(out.contains("&quot;c&quot;.script</text>"), "{out}");
    assert!(!out.contains("<a&b>"), "{out}");
}
