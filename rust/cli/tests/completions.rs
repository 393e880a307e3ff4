//! The shells' completions: the shells take them, and bash offers what it should.

mod common;

use common::{folder, said};
use std::io::Write;
use std::process::{Command, Stdio};

/// The shells take the completions that are made for them, where they are here.
#[test]
fn completions_are_scripts() {
    for shell in ["bash", "zsh", "fish"] {
        let (text, _, _) = said(&["completions", shell], b"");
        assert!(text.contains("check") && text.contains("steps"), "{text}");
        let mut tried = Command::new(shell);
        tried.arg("-n").stdin(Stdio::piped());
        let Ok(mut child) = tried.spawn() else {
            println!("no {shell} here");
            continue;
        };
        let input = child.stdin.take().expect("its input");
        let _ = { input }.write_all(text.as_bytes());
        assert!(child.wait().expect("it ends").success(), "{shell}");
    }
}

/// Every number of the table for explain, and the ends of scripts for what takes them.
#[test]
fn numbers_and_scripts() {
    let all = nuyardi::EXPLANATIONS.iter().map(|known| known.number);
    let all: Vec<String> = all.map(|number| number.to_string()).collect();
    let (bash, _, _) = said(&["completions", "bash"], b"");
    assert!(bash.contains(&format!("*) _station_words \"{}\" ;;", all.join(" "))));
    let (zsh, _, _) = said(&["completions", "zsh"], b"");
    assert!(zsh.contains(&format!("'*:number:({})' ;;", all.join(" "))));
    let (fish, _, _) = said(&["completions", "fish"], b"");
    for number in &all {
        let line = format!("'__fish_seen_subcommand_from explain' -f -a {number} -d '");
        assert!(fish.contains(&line), "{line}");
    }
    for command in ["check", "run", "trial", "count", "fmt", "test"] {
        let line = format!("    {command}) case $word in -*) ");
        let line = bash.lines().find(|found| found.starts_with(&line));
        assert!(line
            .expect(command)
            .ends_with("*) _station_scripts ;; esac ;;"));
        let line = format!("  {command}) _arguments ");
        let line = zsh.lines().find(|found| found.starts_with(&line));
        assert!(line.expect(command).contains(":_files -g \"*.script\"' ;;"));
        let line = format!(
            "'__fish_seen_subcommand_from {command}' -f -a '(__fish_complete_suffix .script)'"
        );
        assert!(fish.contains(&line), "{line}");
    }
}

/// What bash offers for the last of some words, in a folder with scripts.
#[test]
fn offered_by_bash() {
    if Command::new("bash").arg("--version").output().is_err() {
        println!("no bash here");
        return;
    }
    let folder = folder("completions");
    for name in ["a.script", "b c.script", "notes.txt"] {
        std::fs::write(folder.join(name), "").expect("a file");
    }
    std::fs::create_dir(folder.join("more")).expect("a folder");
    let (text, _, _) = said(&["completions", "bash"], b"");
    std::fs::write(folder.join("station.bash"), text).expect("a file");
    let ask = "source ./station.bash; COMP_WORDS=(\"$@\"); COMP_CWORD=$((${#COMP_WORDS[@]} - 1)); \
               _station; printf '%s\\n' \"${COMPREPLY[@]}\" | sort";
    for (words, expected) in [
        (&["station", "expl"][..], &["explain"][..]),
        (
            &["station", "explain", "2"],
            &["2", "21", "22", "23", "24", "25", "26", "27"],
        ),
        (&["station", "run", ""], &["a.script", "b c.script", "more"]),
        (&["station", "run", "b"], &["b c.script"]),
        (&["station", "run", "n"], &[""]),
        (&["station", "new", "n"], &["notes.txt"]),
        (&["station", "run", "--le"], &["--lean"]),
        (&["station", "check", "--le"], &[""]),
        (&["station", "check", "--color", "a"], &["always", "auto"]),
        (&["station", "check", "--color", "=", "n"], &["never"]),
        (&["station", "run", "--steps", ""], &[""]),
        (&["station", "completions", ""], &["bash", "fish", "zsh"]),
        (&["station", "help", "te"], &["test"]),
        (&["station", "lsp", ""], &[""]),
    ] {
        let output = Command::new("bash")
            .args(["--norc", "-c", ask, "bash"])
            .args(words)
            .env("LC_ALL", "C")
            .current_dir(&folder)
            .output()
            .expect("bash");
        let found = String::from_utf8_lossy(&output.stdout).into_owned();
        let found: Vec<&str> = found.lines().collect();
        assert_eq!(found, expected, "{words:?}");
    }
}
