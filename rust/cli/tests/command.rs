//! The command as people and programs use it.

mod common;

use common::{command, folder, root, said, station, status};

#[test]
fn statuses() {
    for (words, expected) in [
        (&["check", "examples/tag.script"][..], 0),
        (&["check", "examples/refused-12.script"], 1),
        (&["check", "no-such-file"], 2),
        (&["check", "examples"], 1),
        (&["run", "examples/tag.script"], 0),
        (&["run", "examples/stopped-23.script"], 1),
        (&["run", "examples/refused-06.script"], 1),
        (&["run", "examples/sum.script"], 1),
        (&["trial", "examples/sum.script"], 0),
        (&["trial", "examples/tag.script"], 0),
        (&["trial", "examples/stopped-24.script"], 1),
        (&["trial", "examples/refused-06.script"], 1),
        (&["run", "--steps", "6", "examples/tag.script"], 1),
        (&["run", "--steps=7", "examples/tag.script"], 0),
        (&["bound", "examples/tag.script"], 0),
        (&["bound", "examples/refused-12.script"], 1),
        (&["bound", "examples/refused-15.script"], 1),
        (&["bound", "examples/refused-16.script"], 1),
        (&["bound", "examples/tag.script", "no-such-file"], 2),
        (&["bound", "--why", "examples"], 1),
        (&["trace", "examples/tag.script"], 0),
        (&["trace", "examples/stopped-26.script"], 1),
        (&["trace", "--trial", "examples/stopped-26.script"], 1),
        (&["trace", "--trial", "examples/sum.script"], 0),
        (&["known", "examples/tag.script"], 0),
        (&["known", "examples/refused-12.script"], 1),
        (&["known", "examples/refused-10.script"], 1),
        (&["known", "examples/tag.script:99"], 2),
        (&["draw", "examples/tag.script"], 0),
        (&["draw", "examples/refused-04.script"], 1),
        (&["draw", "examples/lost.script"], 1),
        (&["draw", "--trial", "examples/lost.script"], 0),
        (&["count", "examples/tag.script"], 0),
        (&["count", "examples/tag.script", "examples/lost.script"], 1),
        (&["count", "examples/tag.script", "no-such-file"], 2),
        (&["count", "--shares", "257", "examples/tag.script"], 1),
        (&["count", "--shares=1,1", "examples/tag.script"], 2),
        (&["count", "examples"], 2),
        (&["count", "--rounds=-1", "examples/tag.script"], 2),
        (&["fill", "examples/fill.script"], 0),
        (&["fill", "examples/refused-17.script"], 1),
        (&["fill", "examples/tag.script"], 1),
        (&["fill", "no-such-file"], 2),
        (&["fill", "examples/fill.script", "examples/tag.script"], 1),
        (&["new"], 2),
        (&["new", "examples/tag.script"], 2),
        (&["new", "-"], 0),
        (&["test", "-"], 2),
        (&["test", "examples/tag.script"], 0),
        (&["test", "examples/first.script"], 2),
        (&["explain", "12"], 0),
        (&["fmt", "-"], 0),
        (&["tabs", "-"], 0),
        (&["fmt", "--check", "examples/refused-03.script"], 1),
        (&["fmt", "--check", "examples/tag.script"], 0),
        (&["help"], 0),
        (&["man"], 0),
        (&["completions", "bash"], 0),
        (&["completions", "csh"], 2),
        (&["--version"], 0),
    ] {
        assert_eq!(status(words, b"a b"), expected, "{words:?}");
    }
}

#[test]
fn wrong_use() {
    let wrong: [&[&str]; 18] = [
        &[],
        &["check"],
        &["run"],
        &["fmt"],
        &["explain"],
        &["explain", "20"],
        &["explain", "many"],
        &["new", "a", "b"],
        &["count", "a", "b", "c", "d", "e"],
        &["trial"],
        &["run", "--trial", "a"],
        &["run", "--steps", "-1", "a"],
        &["run", "--steps", "4294967296", "a"],
        &["run", "a", "--steps"],
        &["check", "--steps", "5", "examples/tag.script"],
        &["check", "--yes", "examples/tag.script"],
        &["chek", "examples/tag.script"],
        &["lsp", "now"],
    ];
    for words in wrong {
        let (out, error, status) = said(words, b"");
        assert_eq!((out.as_str(), status), ("", 2), "{words:?}");
        assert!(error.starts_with("station: "), "{error}");
        assert!(error.lines().count() <= 2, "{error}");
    }
    let (_, error, _) = said(&["chek", "a"], b"");
    assert!(error.contains("did you mean `check`?"), "{error}");
}

/// A file that can't be read doesn't keep the others from being done.
#[test]
fn the_other_files_are_done() {
    let words = [
        "check",
        "examples/refused-12.script",
        "no-such-file",
        "examples/tag.script",
    ];
    let (out, error, status) = said(&words, b"");
    assert_eq!(status, 2);
    assert!(out.starts_with("examples/refused-12.script:6: refused, number 12: "));
    let end = "examples/tag.script: accepted\n1 accepted, 1 refused, 1 failed\n";
    assert!(out.ends_with(end), "{out}");
    assert!(error.starts_with("station: no-such-file: "), "{error}");
}

/// A folder stands for its scripts, in order.
#[test]
fn folders_and_quiet() {
    let (out, _, status) = said(&["check", "--quiet", "examples"], b"");
    assert_eq!(status, 1);
    assert!(!out.contains(": accepted"), "{out}");
    let (out, _, _) = said(&["check", "--short", "examples"], b"");
    let starts = |line: &str| {
        let mut parts = line.split(':').skip(1);
        parts
            .by_ref()
            .take(2)
            .all(|part| part.parse::<u32>().is_ok())
            && parts
                .next()
                .is_some_and(|part| part.starts_with(" number "))
    };
    assert!(out.lines().count() > 12 && out.lines().all(starts), "{out}");
}

/// A stop names the values that it was about.
#[test]
fn causes_of_stops() {
    let method = "class\tS\nmethod\tint\tm\tint\tk\nrequires\nensures\teq\tresult\t8\n\
                  return\tk\nend\nmain\nvar\tS\ts\nvar\tint\ta\nvar\tint\tb\nnew\ts\tS\n\
                  let\ta\t7\ncall\tb\ts\tm\ta\nend\n";
    let below = "main\nvar\tint\tn\nvar\tint\tone\nlet\tn\t-2147483648\nlet\tone\t1\n\
                 sub\tn\tn\tone\nend\n";
    for (text, stop, cause) in [
        (
            method,
            "-:5: stopped after 3 steps, number 26: ",
            "number 26: `eq result 8` of `ensures` (line 4) is false: `result` is 7\n",
        ),
        (
            below,
            "-:6: stopped after 2 steps, number 27: ",
            "number 27: -2147483648 (`n`) less 1 (`one`) is -2147483649, and -2147483648 is the least\n",
        ),
    ] {
        let (out, _, status) = said(&["trial", "-"], text.as_bytes());
        assert_eq!(status, 1);
        assert!(out.contains(stop) && out.contains(cause), "{out}");
    }
}

/// A script with a card `s`, whose int field is n, and counters i and one, which
/// is 1; its main goes on with these lines, blanks for tabs.
fn with_loop(lines: &str) -> Vec<u8> {
    let start = "class S|field int n|main|var S s|var int i|var int one|let one 1|";
    let text = format!("{start}{lines}|end|");
    text.replace(' ', "\t").replace('|', "\n").into_bytes()
}

/// A stop at a `loop` tells its invariant from its condition, and the first
/// arrival from a later one.
#[test]
fn causes_of_stops_at_loops() {
    for (lines, stop, cause) in [
        (
            "new s S|loop ne i 3 acc s n eq s.n 0|add i i one|set s n i|again",
            "-:9: stopped after 6 steps, number 26: ",
            "number 26: `eq s.n 0` of the invariant after a round is false: `s.n` is 1\n",
        ),
        (
            "loop ne i 3 acc s n|again",
            "-:8: stopped after 1 step, number 25: ",
            "number 25: `acc s n` of the invariant before the first round: `s` is null\n",
        ),
        (
            "new s S|release acc s n|loop ne i 3 acc s n|again",
            "-:10: stopped after 3 steps, number 24: ",
            "number 24: `acc s n` of the invariant before the first round: main does not hold the field\n",
        ),
        (
            "loop ne s.n 3|again",
            "8 | loop ne s.n 3\n  |      ^^^^^^^^\n",
            "number 25: `s.n` follows `s`, which is null\n",
        ),
        (
            "new s S|release acc s n|loop ne s.n 3|again",
            "-:10: stopped after 3 steps, number 24: ",
            "number 24: main does not hold `s.n`\n",
        ),
    ] {
        let (out, _, status) = said(&["trial", "-"], &with_loop(lines));
        assert_eq!(status, 1);
        assert!(out.contains(stop) && out.contains(cause), "{out}");
    }
}

/// Where the allowed steps are taken in a loop, its line is told; that it never
/// ends only where everything is as it was.
#[test]
fn loops_without_end() {
    for (lines, cause) in [
        (
            "loop ne i 3|again",
            "   note: no line of the body changes `i`, which the condition reads\n   note: in its last round `i` stayed 0\n8 | loop ne i 3\n  | -----------\n   help: let the body change what `ne i 3` reads\n",
        ),
        (
            "loop ne i -1|add i i one|again",
            "number 21: the loop of line 8 has done 333 rounds, and `ne i -1` is not false yet\n",
        ),
        // The inner loop ends each time, the outer one does not.
        (
            "loop ne one 0|let i 0|loop ne i 2|add i i one|again|again",
            "number 21: the loop of line 8 has done 99 rounds, and it never ends: a round changes nothing\n",
        ),
    ] {
        let (out, _, status) = said(&["run", "-"], &with_loop(lines));
        assert_eq!(status, 1);
        assert!(out.contains(": stopped after 1000 steps, number 21: ") && out.contains(cause), "{out}");
    }
    // Too few rounds to tell.
    let text = with_loop("loop ne i 3|again");
    let (out, _, _) = said(&["run", "--steps", "4", "-"], &text);
    assert!(
        out.contains("   what: ") && !out.contains("  cause: "),
        "{out}"
    );
}

/// At `loop` stands what the body starts from, at `again` what is known after it;
/// a trace has the rounds.
#[test]
fn inside_loops() {
    let text = with_loop("new s S|loop ne i 2 acc s n|add i i one|again|assert eq i 2");
    let (out, _, _) = said(&["known", "-"], &text);
    let body = "   9 loop ne i 2 acc s n\n     - eq one 1, ne s null, eq s.n 0\n     + ne i 2\n";
    let after = "  11 again\n     + eq i 2\n";
    assert!(out.contains(body) && out.contains(after), "{out}");
    let (out, _, status) = said(&["trace", "-"], &text);
    assert_eq!(status, 0);
    for row in ["round 1", "round 2", "left after 2 rounds"] {
        assert!(
            out.contains(&format!("loop ne i 2 acc s n               {row}\n")),
            "{out}"
        );
    }
    // A `return` last in the body: what follows `again` is known all the same.
    let text = b"class\tS\nmethod\tint\tm\tint\tk\nrequires\nensures\nloop\tne\tk\t0\nreturn\tk\n\
                 again\nassert\teq\tk\t0\nend\nmain\nend\n";
    let (out, _, _) = said(&["known", "-"], text);
    assert!(out.contains("   7 again\n     + eq k 0\n"), "{out}");
}

/// A run of a refused text says what check says; a trial says at its head that
/// check refuses the text, and of an accepted one the same as a run.
#[test]
fn run_checks_first() {
    for name in [
        "examples/lost.script",
        "examples/refused-10.script",
        "examples/refused-06.script",
    ] {
        let checked = said(&["check", name], b"");
        assert_eq!(checked.2, 1);
        for word in ["run", "trace", "draw"] {
            assert_eq!(said(&[word, name], b""), checked, "{word} {name}");
        }
    }
    let head =
        "examples/lost.script:15: check refuses it, number 12: `lose`, called at line 14, did not give the permission to `c.tag` back\n";
    let stop =
        "examples/lost.script:15: stopped after 3 steps, number 24: main does not hold `c.tag`\n";
    let (out, _, _) = said(&["trial", "examples/lost.script"], b"");
    assert!(out.starts_with(&format!("{head}{stop}")), "{out}");
    let (out, _, _) = said(&["trace", "--trial", "examples/lost.script"], b"");
    assert!(
        out.starts_with(&format!("{head}     1   13  new c Card ")) && out.contains(stop),
        "{out}"
    );
    let (out, error, _) = said(&["draw", "--trial", "examples/lost.script"], b"");
    assert!(out.starts_with("<svg ") && error == head, "{error}");
    for name in ["examples/tag.script", "examples/stopped-23.script"] {
        assert_eq!(said(&["trial", name], b""), said(&["run", name], b""));
        assert_eq!(
            said(&["trace", "--trial", name], b""),
            said(&["trace", name], b"")
        );
    }
}

/// No run comes to the line after a `return` from there; what a `join` says is
/// known after it all the same.
#[test]
fn known_after_a_return() {
    let (out, _, _) = said(&["known", "examples/tag.script:9"], b"");
    let nothing = "  before: nothing: no run comes here from the line before, which returns\n";
    assert_eq!(out, format!("examples/tag.script:9: end\n{nothing}"));
    let (out, _, _) = said(&["known", "examples/early.script"], b"");
    assert!(out.contains("  24 join acc this prev\n     + acc this prev\n  25 end\n"));
}

/// A permission passes to another name of its card, and a fact to what is equal.
#[test]
fn what_gives_way() {
    let (out, _, _) = said(&["known", "examples/kept.script:13"], b"");
    let turns = "  drops:  eq a s.tag\n  turns:  eq s.tag b into eq a b\n  adds:   eq s.tag c\n";
    assert!(out.contains(turns), "{out}");
    let text = b"class\tS\nfield\tint\tn\nmain\nvar\tS\ts\nvar\tS\tt\nnew\tt\tS\nlet\ts\tt\n\
                 let\tt\tnull\nend\n";
    let (out, _, _) = said(&["known", "-"], text);
    let renamed = "     - eq s t\n     ~ acc t n into acc s n, ne t null into ne s null, \
                   eq t.n 0 into eq s.n 0\n     + eq t null\n";
    assert!(out.contains(renamed), "{out}");
}

#[test]
fn standard_input() {
    assert_eq!(said(&["check", "-"], b"main\nend\n").0, "-: accepted\n");
    let (out, _, status) = said(&["run", "-"], b"main\nvar\tint\ta\nlet\ta\t-7\nend\n");
    assert_eq!(
        (out.as_str(), status),
        ("-:4: finished after 2 steps\n  a = -7\n", 0)
    );
}

/// At most one byte more than a text may have is read: more than a pipe holds
/// may follow.
#[test]
fn long_input() {
    let (out, _, status) = said(&["check", "-"], &vec![b'\n'; 1 << 20]);
    assert_eq!(status, 1);
    assert!(
        out.starts_with("-: refused, number 2: the text has more than 32768 bytes"),
        "{out}"
    );
    let (out, error, status) = said(&["fmt", "-"], &vec![b'a'; 32_769]);
    assert_eq!((out.as_str(), status), ("", 1));
    assert!(error.contains("32768 bytes"), "{error}");
    assert_eq!(said(&["fmt", "-"], &vec![b'a'; 32_768]).0.len(), 32_769);
}

/// The line is shown and the byte pointed at; what could confuse a terminal is
/// escaped.
#[test]
fn escapes() {
    let (out, _, _) = said(&["check", "-"], b"main\nvar\tint\t\x1b[31m\xe9\nend\n");
    let lines: Vec<&str> = out.lines().collect();
    assert_eq!(
        lines[2..4],
        ["2 | var int \\x1b[31m\\xe9", "  |         ^^^^"]
    );
    for words in [
        &["check", "-"][..],
        &["check", "--json", "-"],
        &["check", "--short", "-"],
        &["run", "-"],
        &["trial", "-"],
        &["known", "-"],
        &["trace", "-"],
        &["draw", "-"],
        &["bound", "--why", "-"],
    ] {
        let text = b"main\nvar\tint\t\x1b[31m\xe9\xe2\x80\xae\"\nend\n";
        let (out, error, _) = said(words, text);
        let plain = |byte: u8| byte == b'\n' || (32..127).contains(&byte);
        assert!(out.bytes().all(plain), "{words:?}: {out}");
        assert!(error.bytes().all(plain), "{words:?}: {error}");
    }
}

/// A long line is cut around what is pointed at.
#[test]
fn long_lines() {
    let mut text = vec![b'x'; 20_000];
    text[15_000] = b' ';
    text.push(b'\n');
    let (out, _, _) = said(&["check", "-"], &text);
    let lines: Vec<&str> = out.lines().collect();
    assert!(lines[..4].iter().all(|line| line.len() < 120), "{out}");
    let column = lines[3].find('^').expect("a mark");
    assert_eq!(&lines[2][column..column + 4], "\\x20");
}

/// Without a terminal there is no colour but where it is asked for.
#[test]
fn colour() {
    for words in [
        &["check", "examples/refused-12.script"][..],
        &["explain", "4"],
    ] {
        assert!(!said(words, b"").0.contains('\x1b'));
        let asked = [words, &["--color=always"]].concat();
        assert!(said(&asked, b"").0.contains('\x1b'));
        let never = [words, &["--color", "never"]].concat();
        assert!(!said(&never, b"").0.contains('\x1b'));
    }
}

/// Each explanation's example gets the number that it explains.
#[test]
fn examples_of_explanations() {
    for known in nuyardi::EXPLANATIONS {
        let Some(example) = known.example else {
            assert!(matches!(known.number, 0..3 | 19));
            continue;
        };
        let example = example.as_bytes();
        let steps = if known.number == 21 { 1 } else { 1_000 };
        let number = match known.number {
            15 | 16 => nuyardi::bound(example).map_or_else(|none| none.number(), |_| 0),
            17 | 18 => nuyardi::fill(example).map_or_else(|none| none.number(), |_| 0),
            24..=26 => nuyardi::trial(example, steps).number(),
            _ => match nuyardi::run(example, steps) {
                Ok(outcome) => outcome.number(),
                Err(refusal) => refusal.number(),
            },
        };
        assert_eq!(number, known.number);
    }
}

/// `fmt` fixes what it says: the scripts with blanks for tabs and CR for good
/// measure come out as they were, and `tabs` is the same.
#[test]
fn fmt_mends() {
    for entry in std::fs::read_dir(root().join("examples")).expect("examples") {
        let script = std::fs::read(entry.expect("an entry").path()).expect("a script");
        let text = String::from_utf8(script).expect("ASCII").replace(' ', "\t");
        let typed = text.replace('\t', "  ").replace('\n', " \r\n");
        let typed = typed.strip_suffix("\r\n").expect("an end");
        for word in ["fmt", "tabs"] {
            let output = station(&[word, "-"], typed.as_bytes());
            assert_eq!(output.stdout, text.as_bytes());
        }
    }
}

/// `fmt --write` changes only files that are not in their form, and leaves
/// nothing beside them.
#[test]
fn fmt_writes() {
    let folder = folder("fmt");
    let (good, bad) = (folder.join("good.script"), folder.join("bad.script"));
    std::fs::write(&good, "main\nend\n").expect("written");
    std::fs::write(
        &bad,
        "\u{feff}main\r\n var int\u{a0}a\r\n\r\nlet a \u{2212}5\r\n \t\nend",
    )
    .expect("written");
    let before = std::fs::metadata(&good)
        .and_then(|data| data.modified())
        .expect("a time");
    let path = folder.to_str().expect("a name");
    let (out, _, status_of_check) = said(&["fmt", "--check", path], b"");
    let changes = "not in its form: 4 lines to change, 2 empty lines to drop";
    let expected = format!("{path}/bad.script: {changes}\n1 in form, 1 not in form\n");
    assert_eq!((out, status_of_check), (expected, 1));
    let (out, _, status_of_write) = said(&["fmt", "--write", path], b"");
    let changes = "written: 4 lines changed, 2 empty lines dropped";
    let kept = format!("{path}/good.script: not changed");
    let expected = format!("{path}/bad.script: {changes}\n{kept}\n2 formatted, 0 not formatted\n");
    assert_eq!((out, status_of_write), (expected, 0));
    assert_eq!(status(&["fmt", "--check", path], b""), 0);
    let fixed = std::fs::read_to_string(&bad).expect("the file");
    assert_eq!(fixed, "main\nvar\tint\ta\nlet\ta\t-5\nend\n");
    let after = std::fs::metadata(&good)
        .and_then(|data| data.modified())
        .expect("a time");
    assert_eq!(before, after);
    assert_eq!(std::fs::read_dir(&folder).expect("the folder").count(), 2);
    assert_eq!(status(&["check", path], b""), 0);
}

/// `fmt --write` follows a link and keeps the file's permissions; what can't be
/// written is told.
#[cfg(unix)]
#[test]
fn fmt_keeps_links_and_permissions() {
    use std::os::unix::fs::{symlink, PermissionsExt};
    let folder = folder("fmt-kept");
    let (file, link) = (folder.join("a.script"), folder.join("link.script"));
    std::fs::write(&file, "main \nend\n").expect("written");
    let mode = std::fs::Permissions::from_mode(0o640);
    std::fs::set_permissions(&file, mode).expect("a mode");
    symlink(&file, &link).expect("a link");
    let name = link.to_str().expect("a name");
    assert_eq!(status(&["fmt", "--write", name], b""), 0);
    assert_eq!(std::fs::read(&file).expect("the file"), b"main\nend\n");
    assert!(std::fs::symlink_metadata(&link)
        .expect("the link")
        .is_symlink());
    let mode = std::fs::metadata(&file).expect("the file").permissions();
    assert_eq!(mode.mode() & 0o777, 0o640);
    assert_eq!(status(&["fmt", "--write", "no-such-file"], b""), 2);
    let empty = folder.join("empty");
    std::fs::create_dir(&empty).expect("a folder");
    let name = empty.to_str().expect("a name");
    assert_eq!(status(&["check", name], b""), 2);
}

/// A reader that goes away changes neither what is said nor the status.
#[test]
fn a_closed_pipe() {
    for (words, expected) in [
        (&["explain", "4"][..], 0),
        (&["check", "examples/refused-12.script"], 1),
    ] {
        let mut child = command(words).spawn().expect("station starts");
        drop(child.stdin.take());
        drop(child.stdout.take());
        let output = child.wait_with_output().expect("station ends");
        assert_eq!(String::from_utf8_lossy(&output.stderr), "");
        assert_eq!(output.status.code(), Some(expected));
    }
}
