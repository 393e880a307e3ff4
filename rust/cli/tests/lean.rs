//! `station run --lean`: what `station run` says, word for word; JSON names the
//! machine, and nothing else in it differs.

mod common;

use common::{root, said};
use explain::json::{parse, Json};

/// Every example, accepted, stopped and refused with each number, and texts that
/// are no script.
fn texts() -> Vec<Vec<u8>> {
    let entries = std::fs::read_dir(root().join("examples")).expect("the examples");
    let mut names: Vec<_> = entries.map(|entry| entry.expect("one").path()).collect();
    names.sort();
    let read = |name: &std::path::PathBuf| std::fs::read(name).expect("an example");
    let mut texts: Vec<Vec<u8>> = names.iter().map(read).collect();
    assert!(texts.len() > 20, "only {} examples", texts.len());
    texts.extend((0..30).map(|seed| generator::text(0x5c00_0000 + seed)));
    texts.extend([Vec::new(), b"\xff\0\n".to_vec(), vec![b'\n'; 40_000]]);
    texts
}

#[test]
fn words_and_status_of_run() {
    let mut statuses = [0; 3];
    for text in texts() {
        for steps in ["--steps=0", "--steps=5", "--steps=2000"] {
            let run = said(&["run", steps, "-"], &text);
            assert_eq!(said(&["run", "--lean", steps, "-"], &text), run);
            statuses[run.2 as usize] += 1;
        }
    }
    assert!(statuses[0] > 10 && statuses[1] > 10, "{statuses:?}");
    assert_eq!(statuses[2], 0);
}

fn object(words: &[&str], text: &[u8]) -> String {
    let (out, error, _) = said(words, text);
    assert_eq!(error, "");
    out
}

#[test]
fn json_says_which_machine() {
    for text in texts() {
        let full = object(&["run", "--json", "-"], &text);
        let lean = object(&["run", "--json", "--lean", "-"], &text);
        let machine = |said: &str| parse(said)?.get("machine").cloned();
        assert_eq!(machine(&full), Some(Json::Text("full".to_string())));
        assert_eq!(machine(&lean), Some(Json::Text("lean".to_string())));
        let named = |name: &str| format!("\"machine\":\"{name}\"");
        assert_eq!(lean.replace(&named("lean"), &named("full")), full);
    }
}

#[test]
fn cards_of_a_lean_run() {
    let words = ["run", "--cards", "examples/turn.script"];
    let lean = ["run", "--cards", "--lean", "examples/turn.script"];
    assert_eq!(said(&lean, b""), said(&words, b""));
}

/// The help, the man page and the completions offer it with `run`, and with no other
/// command.
#[test]
fn offered_with_run() {
    let printed = |words: &[&str]| {
        let (out, _, status) = said(words, b"");
        assert_eq!(status, 0, "{words:?}");
        out
    };
    for command in ["run", "trial", "trace", "draw", "check", "report"] {
        let offered = printed(&["help", command]).contains("--lean");
        assert_eq!(offered, command == "run", "{command}");
    }
    assert!(printed(&["man"]).contains(".B \\-\\-lean\n"));
    for (shell, start) in [
        ("bash", "    run) case $word in -*) "),
        ("zsh", "  run) _arguments"),
        (
            "fish",
            "complete -c station -n '__fish_seen_subcommand_from run' -l lean",
        ),
    ] {
        let completions = printed(&["completions", shell]);
        let lines: Vec<&str> = completions
            .lines()
            .filter(|line| line.contains("lean"))
            .collect();
        assert_eq!(lines.len(), 1, "{shell}: {lines:?}");
        assert!(lines[0].starts_with(start), "{shell}: {lines:?}");
    }
}

/// Where it makes no sense the message says why, and what does.
#[test]
fn elsewhere() {
    for (words, why) in [
        (
            &["trial", "--lean", "a"][..],
            "`station run --lean` runs a script that check accepts",
        ),
        (&["trace", "--lean", "a"], "leave --lean out"),
        (&["draw", "--trial", "--lean", "a"], "leave --lean out"),
        (
            &["check", "--lean", "a"],
            "--lean goes with run, not with check",
        ),
        (
            &["report", "--lean", "a"],
            "--lean goes with run, not with report",
        ),
        (&["run", "--lean=1", "a"], "--lean takes no value"),
        (&["run", "--leen", "a"], "did you mean `--lean`?"),
        (&["lean", "a"], "no command lean"),
    ] {
        let (out, error, status) = said(words, b"");
        assert_eq!((out.as_str(), status), ("", 2), "{words:?}");
        assert!(error.contains(why), "{words:?}: {error}");
    }
}
