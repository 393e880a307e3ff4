//! The library as C programs link it: shared and static, by pkg-config and by
//! CMake, from a folder into which `make` installs it.

use std::collections::BTreeSet;
use std::path::{Path, PathBuf};
use std::process::{Command, Output};

fn root() -> PathBuf {
    Path::new(env!("CARGO_MANIFEST_DIR")).join("../..")
}

fn text(name: &str) -> String {
    std::fs::read_to_string(root().join(name)).unwrap_or_else(|error| panic!("{name}: {error}"))
}

/// An empty folder.
fn folder(name: &str) -> PathBuf {
    let folder = Path::new(env!("CARGO_TARGET_TMPDIR")).join(name);
    let _ = std::fs::remove_dir_all(&folder);
    std::fs::create_dir_all(&folder).expect("a folder");
    folder
}

fn done(output: Output) -> String {
    let text = |bytes| String::from_utf8_lossy(bytes).into_owned();
    let said = format!("{}{}", text(&output.stdout), text(&output.stderr));
    assert!(output.status.success(), "{}\n{said}", output.status);
    text(&output.stdout)
}

/// What a program prints, if there is such a program.
fn asked(program: &str, words: &[&str]) -> Option<String> {
    match Command::new(program).args(words).output() {
        Ok(output) => Some(done(output)),
        Err(_) => {
            println!("there is no {program} here");
            None
        }
    }
}

/// The shared library of the static one that this test is linked with.
fn shared_library(folder: &Path) -> PathBuf {
    let shared = folder.join("libnuyardi.so");
    let mut command = Command::new(root().join("tools/shared-library"));
    command
        .arg(concat!(env!("OUT_DIR"), "/libnuyardi.a"))
        .arg(&shared);
    done(command.output().expect("tools/shared-library"));
    shared
}

/// The library of explanations, which the build of the workspace's tests may have made beside this one.
fn explanations() -> PathBuf {
    let test = std::env::current_exe().expect("this test");
    test.with_file_name("libnuyardi_explain.so")
}

/// The folder into which both libraries are installed, with all that a C program needs.
fn installed(name: &str) -> Option<PathBuf> {
    asked("make", &["--version"])?;
    let top = folder(name);
    let prefix = top.join("prefix");
    let mut command = Command::new("make");
    command
        .args(["--no-print-directory", "install-shared", "install-dev"])
        .arg(concat!("LIBRARY=", env!("OUT_DIR"), "/libnuyardi.a"))
        .arg(format!("SHARED={}", shared_library(&top).display()))
        .arg(format!("EXPLAIN={}", explanations().display()))
        .arg(format!("PREFIX={}", prefix.display()))
        .env_remove("MAKEFLAGS")
        .env_remove("DESTDIR")
        .current_dir(root());
    done(command.output().expect("make"));
    Some(prefix)
}

/// The names of a library's dynamic symbols.
fn names(library: &Path, which: &str) -> BTreeSet<String> {
    let mut command = Command::new("nm");
    command.args(["-D", "--format=posix", which]).arg(library);
    let printed = done(command.output().expect("nm"));
    let first = |line: &str| line.split([' ', '@']).next().map(str::to_string);
    printed.lines().filter_map(first).collect()
}

/// The functions that the header declares.
fn declared() -> BTreeSet<String> {
    let header = text("include/station.h");
    let declaring = header.lines().filter(|line| line.starts_with("uint32_t "));
    let name = |line: &str| Some(line.split_once(' ')?.1.split_once('(')?.0.to_string());
    declaring.filter_map(name).collect()
}

#[test]
fn shared_library_exports_the_header() {
    let shared = shared_library(&folder("exports"));
    assert_eq!(declared().len(), 7);
    assert_eq!(names(&shared, "--defined-only"), declared());
    let memory = ["memset", "memcpy", "memmove", "memcmp", "bcmp"];
    let taken = names(&shared, "--undefined-only");
    assert!(
        taken.iter().all(|name| memory.contains(&name.as_str())),
        "{taken:?}"
    );
    let mut command = Command::new("readelf");
    let described = done(command.arg("-d").arg(&shared).output().expect("readelf"));
    let version = text("VERSION");
    let major = version.split('.').next().expect("a number");
    let soname = format!("[libnuyardi.so.{major}]");
    let told: Vec<&str> = described
        .lines()
        .filter(|line| line.contains("(SONAME)"))
        .collect();
    assert!(told.len() == 1 && told[0].ends_with(&soname), "{described}");
    assert!(!described.contains("TEXTREL"), "{described}");
}

/// Does the file hold the machine code of the static library?
fn same_code(file: &Path) -> bool {
    let mut command = Command::new(root().join("tools/same-code"));
    command
        .arg(concat!(env!("OUT_DIR"), "/libnuyardi.a"))
        .arg(file);
    command.output().expect("tools/same-code").status.success()
}

/// The shared library is the static one's machine code, linked; with another byte in it, it is not.
#[test]
fn same_machine_code() {
    if asked("python3", &["--version"]).is_none() {
        return;
    }
    let own = folder("same-code");
    let shared = shared_library(&own);
    assert!(same_code(&shared));
    let mut bytes = std::fs::read(&shared).expect("the library");
    // The middle of the library is in a function.
    let middle = bytes.len() / 2;
    bytes[middle] ^= 1;
    let other = own.join("other.so");
    std::fs::write(&other, bytes).expect("a library");
    assert!(!same_code(&other));
}

/// What the program prints of the worked script, with a folder in which the loader looks for libraries.
fn runs_the_worked_script(program: &Path, libraries: &str) {
    let mut command = Command::new(program);
    command
        .arg(root().join("examples/worked.txt"))
        .env("LD_LIBRARY_PATH", libraries);
    assert_eq!(
        done(command.output().expect("the program")),
        "number 0 at line 19 after 8 steps: 1 7 7 0 0 0 0 0 0 0 0 0\n"
    );
}

/// The program for boats: the worked script by its bound, the large catalogue with
/// the steps that are given, and words that it does not take.
fn runs_the_catalogue(program: &Path, libraries: &str) {
    let said = |words: &[&str]| {
        let mut command = Command::new(program);
        let command = command.args(words).env("LD_LIBRARY_PATH", libraries);
        let output = command.current_dir(root()).output().expect("the program");
        let text = |bytes: &[u8]| String::from_utf8_lossy(bytes).into_owned();
        (
            text(&output.stdout),
            text(&output.stderr),
            output.status.code(),
        )
    };
    let (worked, catalogue) = ("examples/worked.txt", "examples/catalogue.script");
    let done = "number 0 at line 19 after 8 steps: 1 7 7 0 0 0 0 0 0 0 0 0\n";
    assert_eq!(said(&[worked]), (done.to_string(), String::new(), Some(0)));
    let done = "number 0 at line 45 after 178205 steps: 250 250 250 1 100 0 0 0 0 0 0 0\n";
    let ended = said(&[catalogue, "1000000"]);
    assert_eq!(ended, (done.to_string(), String::new(), Some(0)));
    let (out, _, status) = said(&[catalogue, "99"]);
    assert!(
        out.starts_with("number 21 at line ") && status == Some(1),
        "{out}"
    );
    let (out, _, status) = said(&["examples/lost.script"]);
    assert_eq!(
        (out.as_str(), status),
        ("refused: number 12 at line 15\n", Some(1))
    );
    let (_, error, status) = said(&[catalogue]);
    assert!(
        error.contains("(number 15 at line 12)") && status == Some(2),
        "{error}"
    );
    let no_steps = ["", "-1", "1x", " 1", "4294967296", "99999999999999999999"];
    for words in no_steps.map(|steps| [worked, steps]) {
        let (out, error, status) = said(&words);
        assert_eq!((out.as_str(), status), ("", Some(2)), "{words:?}");
        assert!(error.contains("0 to 4294967295"), "{error}");
    }
}

/// The same of the program that explains.
fn explains_the_worked_script(program: &Path, libraries: &str) {
    let mut command = Command::new(program);
    command
        .arg(root().join("examples/worked.txt"))
        .env("LD_LIBRARY_PATH", libraries);
    let said = done(command.output().expect("the program"));
    assert!(said.contains("\"accepted\":true"), "{said}");
}

/// Does the program take the shared library?
fn is_shared(program: &Path) -> bool {
    let mut command = Command::new("readelf");
    let described = done(command.arg("-d").arg(program).output().expect("readelf"));
    described.contains("[libnuyardi.so.")
}

/// A program of the folder `hosts/c`, compiled by the words that pkg-config gives for a name.
fn by_pkg_config(prefix: &Path, name: &str, source: &str) -> Option<PathBuf> {
    let described = prefix.join(format!("lib/pkgconfig/{name}.pc"));
    let described = described.to_str().expect("a plain name");
    let words = asked("pkg-config", &["--cflags", "--libs", described])?;
    let told = asked("pkg-config", &["--modversion", described])?;
    assert_eq!(told.trim(), text("VERSION").trim());
    let program = prefix.join(format!("{name}-{source}").replace('.', "-"));
    let mut command = Command::new("gcc");
    command
        .args(["-std=c11", "-Wall", "-Wextra", "-Werror", "-o"])
        .arg(&program)
        .arg(prefix.join("share/nuyardi/hosts/c").join(source))
        .args(words.split_whitespace());
    done(command.output().expect("gcc"));
    Some(program)
}

#[test]
fn linked_by_pkg_config() {
    let Some(prefix) = installed("pkg-config") else {
        return;
    };
    let libraries = prefix.join("lib");
    let libraries = libraries.to_str().expect("a plain name");
    for (name, shared) in [("nuyardi", true), ("nuyardi-static", false)] {
        let Some(program) = by_pkg_config(&prefix, name, "license.c") else {
            return;
        };
        assert_eq!(is_shared(&program), shared, "{name}");
        runs_the_worked_script(&program, if shared { libraries } else { "" });
        let boat = by_pkg_config(&prefix, name, "boat.c").expect("pkg-config");
        runs_the_catalogue(&boat, if shared { libraries } else { "" });
    }
    if explanations().exists() {
        let program = by_pkg_config(&prefix, "nuyardi-explain", "explain.c");
        explains_the_worked_script(&program.expect("pkg-config"), libraries);
    }
}

/// `cmake` on the sources of a folder, with what is installed in another.
fn configured(source: &Path, build: &Path, prefix: &Path) -> Output {
    let mut command = Command::new("cmake");
    command.arg("-S").arg(source).arg("-B").arg(build);
    command.arg(format!("-DCMAKE_PREFIX_PATH={}", prefix.display()));
    command.output().expect("cmake")
}

/// A folder with what is installed, where there is a `cmake`.
fn installed_for_cmake(name: &str) -> Option<PathBuf> {
    asked("cmake", &["--version"])?;
    installed(name)
}

#[test]
fn linked_by_cmake() {
    let Some(prefix) = installed_for_cmake("cmake") else {
        return;
    };
    let build = prefix.join("build");
    let source = prefix.join("share/nuyardi/hosts/c");
    done(configured(&source, &build, &prefix));
    let mut command = Command::new("cmake");
    done(command.arg("--build").arg(&build).output().expect("cmake"));
    for (name, shared) in [("license", true), ("license_static", false)] {
        let program = build.join(name);
        assert_eq!(is_shared(&program), shared, "{name}");
        runs_the_worked_script(&program, "");
    }
    runs_the_catalogue(&build.join("boat"), "");
    if explanations().exists() {
        explains_the_worked_script(&build.join("explain"), "");
    }
}

/// Older versions with the same first number are served, newer ones are not.
#[test]
fn versions_for_cmake() {
    let Some(prefix) = installed_for_cmake("cmake-versions") else {
        return;
    };
    let version = text("VERSION");
    let exact = format!("{} EXACT", version.trim());
    let major = version.split('.').next().expect("a number");
    for (asked_for, serves) in [(exact.as_str(), true), (major, true), ("99", false)] {
        let own = folder("cmake-asks");
        let page = format!("cmake_minimum_required(VERSION 3.13)\nproject(asks C)\nfind_package(nuyardi {asked_for} REQUIRED)\n");
        std::fs::write(own.join("CMakeLists.txt"), page).expect("a file");
        let output = configured(&own, &own.join("build"), &prefix);
        assert_eq!(output.status.success(), serves, "{asked_for}");
    }
}
