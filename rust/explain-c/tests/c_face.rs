//! The header, and a C program that uses it: what it is told is what the command
//! prints, byte by byte.

use explain::{cards, draw, objects, trace, Asked, Report};
use nuyardi::{limits, Station};
use std::path::{Path, PathBuf};
use std::process::Command;

const STEPS: u32 = 200;

fn root() -> PathBuf {
    Path::new(env!("CARGO_MANIFEST_DIR")).join("../..")
}

fn header() -> PathBuf {
    root().join("include/nuyardi_explain.h")
}

/// A library that the build of these tests made beside them.
fn made(name: &str) -> PathBuf {
    let test = std::env::current_exe().expect("the test's own path");
    test.with_file_name(name)
}

/// Compiles a program of `tests/c` with a library.
fn compiled(library: &str) -> PathBuf {
    let own = Path::new(env!("CARGO_MANIFEST_DIR"));
    let program = Path::new(env!("CARGO_TARGET_TMPDIR")).join(library.replace('.', "-"));
    let library = made(library);
    let output = Command::new("gcc")
        .args(["-std=c11", "-O2", "-Wall", "-Wextra", "-Werror", "-I"])
        .arg(root().join("include"))
        .arg(own.join("tests/c/explain.c"))
        .arg(&library)
        .args(["-lpthread", "-ldl", "-lm"])
        .arg(format!(
            "-Wl,-rpath,{}",
            library.parent().expect("a folder").display()
        ))
        .arg("-o")
        .arg(&program)
        .output()
        .expect("gcc");
    let said = String::from_utf8_lossy(&output.stderr);
    assert!(output.status.success(), "{said}");
    program
}

/// Accepted, refused with every number, stopped, empty and too long.
fn texts() -> Vec<Vec<u8>> {
    let entries = std::fs::read_dir(root().join("examples")).expect("the examples");
    let mut names: Vec<PathBuf> = entries.map(|entry| entry.expect("one").path()).collect();
    names.sort();
    let read = |name: &PathBuf| std::fs::read(name).expect("an example");
    let mut texts: Vec<Vec<u8>> = names.iter().map(read).collect();
    assert!(texts.len() > 20, "only {} examples", texts.len());
    texts.push(Vec::new());
    texts.push(vec![b'x'; limits::TEXT_BYTES + 1]);
    texts.push(vec![b'x'; limits::TEXT_BYTES + 100]);
    texts.push(b"main\n\xff\0\nend\n".to_vec());
    texts
}

/// What the program prints of a text: the answers of all functions.
fn expected(text: &[u8]) -> String {
    let text = &text[..text.len().min(limits::TEXT_BYTES + 1)];
    let mut station = Station::new();
    let checked = Report::of(&mut station, "-", text, Asked::Check).warned(&mut Station::new());
    let ran = Report::of(&mut station, "-", text, Asked::Run(STEPS));
    let (check, run) = (objects::report(&checked), objects::report(&ran));
    let made = ran.ran.as_ref();
    let made = made.and_then(|ran| cards::after(text, ran.outcome.steps()));
    let made = objects::report(&ran).with_some("cards", made.map(|cards| cards.json()));
    let (steps, picture) = (trace::json_lines(&ran), draw::picture(&ran));
    let picture = picture.unwrap_or_default();
    format!("{check}\n{run}\n{made}\n{steps}\n{picture}\n")
}

/// How far the model takes the steps again, as the header and the packages say.
#[test]
fn steps_for_cards() {
    let most = explain::show::grouped(explain::cause::AGAIN.into());
    let said = format!("after more than {most} steps");
    for (name, times) in [
        ("include/nuyardi_explain.h", 2),
        ("python/nuyardi/_explain.py", 2),
        ("R/nuyardi/man/station_explain.Rd", 1),
        ("R/nuyardi/man/station_cards.Rd", 1),
    ] {
        let text = std::fs::read_to_string(root().join(name)).expect(name);
        let words: Vec<&str> = text
            .split_whitespace()
            .filter(|word| *word != "*")
            .collect();
        assert_eq!(
            words.join(" ").matches(&said).count(),
            times,
            "{said} in {name}"
        );
    }
}

fn called_from_c(library: &str) {
    let folder = Path::new(env!("CARGO_TARGET_TMPDIR")).join(format!("{library}-texts"));
    std::fs::create_dir_all(&folder).expect("a folder");
    let texts = texts();
    let names: Vec<PathBuf> = (0..texts.len())
        .map(|at| folder.join(at.to_string()))
        .collect();
    for (name, text) in names.iter().zip(&texts) {
        std::fs::write(name, text).expect("a text");
    }
    let mut program = Command::new(compiled(library));
    // The library that was built with this test, and none that an earlier build left.
    program.env_remove("LD_LIBRARY_PATH");
    let output = program.arg(STEPS.to_string()).args(&names).output();
    let output = output.expect("the program");
    let errors = String::from_utf8_lossy(&output.stderr);
    assert_eq!((output.status.code(), errors.as_ref()), (Some(0), ""));
    let mut rest = std::str::from_utf8(&output.stdout).expect("UTF-8");
    for (text, name) in texts.iter().zip(&names) {
        let expected = expected(text);
        let printed = rest.get(..expected.len());
        assert_eq!(printed, Some(expected.as_str()), "{}", name.display());
        rest = &rest[expected.len()..];
    }
    assert_eq!(rest, "");
}

#[test]
fn static_library() {
    called_from_c("libnuyardi_explain.a");
}

#[test]
fn shared_library() {
    called_from_c("libnuyardi_explain.so");
}

/// The shared library exports the header's functions and nothing else.
#[test]
fn exported_names() {
    let output = Command::new("nm")
        .args(["--dynamic", "--extern-only", "--defined-only"])
        .arg(made("libnuyardi_explain.so"))
        .output()
        .expect("nm");
    let printed = String::from_utf8_lossy(&output.stdout);
    let mut names: Vec<&str> = printed
        .lines()
        .filter_map(|line| line.split_once(" T "))
        .map(|(_, name)| name)
        .collect();
    names.sort();
    let header = std::fs::read_to_string(header()).expect("the header");
    let mut declared: Vec<&str> = header
        .lines()
        .filter_map(|line| line.strip_prefix("size_t ")?.split_once('('))
        .map(|(name, _)| name)
        .collect();
    declared.sort();
    assert!(declared.len() > 3, "{declared:?}");
    assert_eq!(names, declared);
}

/// The header alone, by the strictest words: C99, and C++ where there is a compiler of it.
#[test]
fn header_by_itself() {
    for (compiler, words) in [
        ("gcc", ["-std=c99", "-xc"]),
        ("g++", ["-std=c++11", "-xc++"]),
    ] {
        let output = Command::new(compiler)
            .args(["-pedantic", "-Wall", "-Wextra", "-Werror", "-fsyntax-only"])
            .args(words)
            .arg(header())
            .output();
        match output {
            Ok(output) => assert!(
                output.status.success(),
                "{compiler}: {}",
                String::from_utf8_lossy(&output.stderr)
            ),
            Err(error) => assert_ne!(compiler, "gcc", "{error}"),
        }
    }
}
