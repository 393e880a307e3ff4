//! What `make install` puts there, and programs that use it as theirs would: from
//! a folder of their own, by what is installed alone.

mod common;

use common::root;
use std::path::{Path, PathBuf};
use std::process::{Command, Output};

/// A folder outside the repository, so that nothing there is found by chance; it
/// goes with the test.
struct Outside(PathBuf);

impl Outside {
    fn new(name: &str) -> Outside {
        let folder = format!("nuyardi-{name}-{}", std::process::id());
        let folder = std::env::temp_dir().join(folder);
        std::fs::create_dir_all(&folder).expect("a folder");
        Outside(folder)
    }
}

impl Drop for Outside {
    fn drop(&mut self) {
        let _ = std::fs::remove_dir_all(&self.0);
    }
}

fn done(output: Output) -> String {
    let text = |bytes| String::from_utf8_lossy(bytes).into_owned();
    let said = format!("{}{}", text(&output.stdout), text(&output.stderr));
    assert!(output.status.success(), "{}\n{said}", output.status);
    text(&output.stdout)
}

/// The library that this command is linked with.
fn station_lib() -> PathBuf {
    match std::env::var_os("STATION_LIB") {
        Some(named) => named.into(),
        None => root().join("target/staticlib/libstation.a"),
    }
}

/// Is there a `make` here? If not, nothing is installed.
fn can_make() -> bool {
    let found = Command::new("make").arg("--version").output().is_ok();
    if !found {
        println!("there is no make here");
    }
    found
}

/// `make` with a target, for the command and library that are built.
fn make(target: &str, library: &Path, words: &[String]) {
    let mut command = Command::new("make");
    command
        .arg("--no-print-directory")
        .arg(target)
        .arg(format!("COMMAND={}", env!("CARGO_BIN_EXE_station")))
        .arg(format!("LIBRARY={}", library.display()))
        .arg(format!("SHARED={}", shared(library).display()))
        .args(words)
        .env_remove("MAKEFLAGS")
        .current_dir(root());
    done(command.output().expect("make"));
}

/// The shared library beside a static one.
fn shared(library: &Path) -> PathBuf {
    library.with_extension("so")
}

/// A program of the folder `tools` that makes one file of another.
fn tool(name: &str, from: &Path, to: &Path) {
    let mut command = Command::new(root().join("tools").join(name));
    done(command.arg(from).arg(to).output().expect(name));
}

/// The libraries for C, made in the folder: the static one, and the shared one beside it.
fn c_library(folder: &Path) -> PathBuf {
    let library = folder.join("libnuyardi.a");
    tool("c-library", &station_lib(), &library);
    tool("shared-library", &library, &shared(&library));
    library
}

/// Every file below a folder, by its path there.
fn files(top: &Path) -> Vec<String> {
    let mut found = Vec::new();
    let mut folders = vec![top.to_path_buf()];
    while let Some(folder) = folders.pop() {
        for entry in std::fs::read_dir(&folder).expect("a folder") {
            let path = entry.expect("an entry").path();
            if path.is_dir() {
                folders.push(path);
            } else {
                let inner = path.strip_prefix(top).expect("below the folder");
                found.push(inner.display().to_string());
            }
        }
    }
    found.sort();
    found
}

/// The C program of the folder hosts with the static library, by the words that pkg-config gives.
fn c_program(prefix: &Path, own: &Path) -> PathBuf {
    std::fs::copy(
        prefix.join("share/nuyardi/hosts/c/license.c"),
        own.join("license.c"),
    )
    .expect("the program");
    let described =
        std::fs::read_to_string(prefix.join("lib/pkgconfig/nuyardi-static.pc")).expect("its file");
    let value = |name: &str| -> String {
        let line = described.lines().find_map(|line| line.strip_prefix(name));
        line.expect(name).trim().to_string()
    };
    // What pkg-config does, which may not be there.
    let expanded = |words: String| {
        words
            .replace("${includedir}", &value("includedir="))
            .replace("${libdir}", &value("libdir="))
    };
    let flags = format!(
        "{} {}",
        expanded(value("Cflags:")),
        expanded(value("Libs:"))
    );
    let asked = Command::new("pkg-config")
        .args(["--cflags", "--libs", "nuyardi-static"])
        .env("PKG_CONFIG_PATH", prefix.join("lib/pkgconfig"))
        .output();
    if let Ok(asked) = asked {
        assert_eq!(
            done(asked).split_whitespace().collect::<Vec<_>>(),
            flags.split_whitespace().collect::<Vec<_>>()
        );
    }
    let mut command = Command::new("gcc");
    command
        .args([
            "-std=c11",
            "-Wall",
            "-Wextra",
            "-Werror",
            "-o",
            "license",
            "license.c",
        ])
        .args(flags.split_whitespace())
        .current_dir(own);
    done(command.output().expect("gcc"));
    own.join("license")
}

/// The Rust program of the folder hosts, over the installed crate.
fn rust_program(prefix: &Path, own: &Path) -> PathBuf {
    let from = prefix.join("share/nuyardi/hosts/rust");
    std::fs::create_dir_all(own.join("src")).expect("a folder");
    std::fs::copy(from.join("src/main.rs"), own.join("src/main.rs")).expect("the program");
    let manifest = std::fs::read_to_string(from.join("Cargo.toml")).expect("its manifest");
    let here = manifest.replace("/usr/local", &prefix.display().to_string());
    assert_ne!(here, manifest);
    std::fs::write(own.join("Cargo.toml"), here).expect("its manifest");
    let mut command = Command::new(std::env::var_os("CARGO").unwrap_or("cargo".into()));
    command
        .args(["build", "--offline", "--quiet"])
        .env("CARGO_TARGET_DIR", own.join("target"))
        .env_remove("STATION_LIB")
        .current_dir(own);
    done(command.output().expect("cargo"));
    own.join("target/debug/license")
}

fn ran(program: &Path, script: &Path) -> (String, Option<i32>) {
    let output = Command::new(program)
        .arg(script)
        .output()
        .expect("the program");
    let said = [output.stdout, output.stderr].concat();
    (
        String::from_utf8_lossy(&said).into_owned(),
        output.status.code(),
    )
}

#[test]
fn installed_and_used() {
    if !can_make() {
        return;
    }
    let outside = Outside::new("installed");
    let top = &outside.0;
    let prefix = top.join("prefix");
    let library = c_library(top);
    make(
        "install-files",
        &library,
        &[format!("PREFIX={}", prefix.display())],
    );
    let version = std::fs::read_to_string(root().join("VERSION")).expect("VERSION");

    let examples = prefix.join("share/nuyardi/examples");
    let (worked, refused) = (
        examples.join("worked.txt"),
        examples.join("refused-12.script"),
    );

    let own = top.join("c");
    std::fs::create_dir_all(&own).expect("a folder");
    let program = c_program(&prefix, &own);
    assert_eq!(
        ran(&program, &worked),
        (
            "number 0 at line 19 after 8 steps: 1 7 7 0 0 0 0 0 0 0 0 0\n".into(),
            Some(0)
        )
    );
    assert_eq!(
        ran(&program, &refused),
        ("refused: number 12 at line 6\n".into(), Some(1))
    );

    let program = rust_program(&prefix, &top.join("rust"));
    assert_eq!(
        ran(&program, &worked),
        (
            "finished at line 19 after 8 steps\ns = object 1\na = 7\nb = 7\n".into(),
            Some(0)
        )
    );
    let (said, status) = ran(&program, &refused);
    let words = "refused-12.script: line 6: a permission that is not shown (number 12); ";
    assert!(said.contains(words) && status == Some(1), "{said}");

    let (said, _) = ran(&prefix.join("bin/station"), Path::new("--version"));
    assert_eq!(said, format!("station {version}"));
    let man =
        std::fs::read_to_string(prefix.join("share/man/man1/station.1")).expect("the man page");
    assert!(
        man.starts_with(".TH STATION 1") && man.contains(version.trim()),
        "{man}"
    );
}

#[test]
fn staged_and_uninstalled() {
    if !can_make() {
        return;
    }
    let outside = Outside::new("staged");
    let top = &outside.0;
    let library = c_library(top);
    let place = |name: &str| {
        vec![
            format!("DESTDIR={}", top.join(name).display()),
            "PREFIX=/opt/nuyardi".into(),
        ]
    };
    make("install-files", &library, &place("stage"));
    let stage = top.join("stage");
    let installed = files(&stage);
    for name in [
        "bin/station",
        "lib/cmake/nuyardi/nuyardi-config.cmake",
        "lib/libnuyardi.a",
        "lib/libnuyardi.so",
        "lib/pkgconfig/nuyardi-static.pc",
        "lib/pkgconfig/nuyardi.pc",
        "include/station.h",
        "share/bash-completion/completions/station",
        "share/doc/nuyardi/ASSURANCE.md",
        "share/doc/nuyardi/papers/01-scope.md",
        "share/fish/vendor_completions.d/station.fish",
        "share/man/man1/station.1",
        "share/nuyardi/editors/vim/syntax/station.vim",
        "share/nuyardi/rust/host/Cargo.toml",
        "share/zsh/site-functions/_station",
    ] {
        let name = format!("opt/nuyardi/{name}");
        assert!(installed.contains(&name), "{name} in {installed:?}");
    }
    let described = std::fs::read_to_string(stage.join("opt/nuyardi/lib/pkgconfig/nuyardi.pc"))
        .expect("nuyardi.pc");
    assert!(
        described.starts_with("prefix=/opt/nuyardi\n"),
        "{described}"
    );
    make("uninstall", &library, &place("stage"));
    assert_eq!(files(&stage), Vec::<String>::new());
}

/// A relative STATION_LIB is one from the folder of the Makefile, also for the builds
/// that run in another folder. In the place of cargo a program looks for the file.
#[cfg(unix)]
#[test]
fn a_relative_library() {
    use std::os::unix::fs::PermissionsExt;
    if !can_make() {
        return;
    }
    let outside = Outside::new("relative");
    let top = &outside.0;
    let library = top.join("a blank/libstation.a");
    std::fs::create_dir(top.join("a blank")).expect("a folder");
    std::fs::copy(station_lib(), &library).expect("the library");
    let cargo = top.join("cargo");
    std::fs::write(
        &cargo,
        "#!/bin/sh\ntest -f \"$STATION_LIB\" && pwd >\"$SEEN\"\n",
    )
    .expect("a file");
    let mode = std::fs::Permissions::from_mode(0o755);
    std::fs::set_permissions(&cargo, mode).expect("a mode");
    let here = std::fs::canonicalize(root()).expect("the repository");
    let up = "../".repeat(here.components().count() - 1);
    let relative = library.strip_prefix("/").expect("an absolute path");
    let words = [
        format!("STATION_LIB={up}{}", relative.display()),
        format!(
            "CARGO=SEEN='{}' '{}'",
            top.join("seen").display(),
            cargo.display()
        ),
    ];
    make("command", &top.join("libnuyardi.a"), &words);
    let folder = std::fs::read_to_string(top.join("seen")).expect("cargo was called");
    assert_eq!(folder.trim_end(), here.join("rust").display().to_string());
}
