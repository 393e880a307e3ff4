//! The crate as a package: one version everywhere, documents without warnings,
//! and builds that allocate nothing, or link nothing.

use std::path::{Path, PathBuf};
use std::process::Command;

fn root() -> PathBuf {
    Path::new(env!("CARGO_MANIFEST_DIR")).join("../..")
}

fn text(name: &str) -> String {
    std::fs::read_to_string(root().join(name)).unwrap_or_else(|error| panic!("{name}: {error}"))
}

/// VERSION is the version of the crates, the header and the editor's extension.
#[test]
fn one_version() {
    let version = text("VERSION");
    let version = version.trim();
    assert_eq!(env!("CARGO_PKG_VERSION"), version);
    for (name, line) in [
        (
            "include/station.h",
            format!("#define STATION_VERSION \"{version}\""),
        ),
        (
            "editors/vscode/package.json",
            format!("\"version\": \"{version}\","),
        ),
    ] {
        let text = text(name);
        assert!(
            text.lines().any(|found| found.trim() == line),
            "{line} in {name}"
        );
    }
}

/// A program of the toolchain that builds this test, on the crate's sources.
fn on_the_crate(program: &str, words: &[&str]) {
    let cargo = std::env::var_os("CARGO").unwrap_or("cargo".into());
    let program = Path::new(&cargo).with_file_name(program);
    let out = Path::new(env!("CARGO_TARGET_TMPDIR")).join("package");
    std::fs::create_dir_all(&out).expect("a folder");
    let output = Command::new(&program)
        .args([
            "--edition=2021",
            "--crate-name=nuyardi",
            "--crate-type=lib",
            "-Dwarnings",
        ])
        .args(words)
        .arg(Path::new(env!("CARGO_MANIFEST_DIR")).join("src/lib.rs"))
        .arg("--out-dir")
        .arg(&out)
        .env("OUT_DIR", env!("OUT_DIR"))
        .output()
        .unwrap_or_else(|error| panic!("{}: {error}", program.display()));
    let said = String::from_utf8_lossy(&output.stderr);
    assert!(output.status.success(), "{}: {said}", program.display());
}

const ALLOC: &str = "--cfg=feature=\"alloc\"";
const LIBRARY: &str = "--cfg=feature=\"library\"";

/// `cargo doc` has nothing to say.
#[test]
fn documents() {
    on_the_crate("rustdoc", &[ALLOC, LIBRARY]);
}

/// Each feature may be left out.
#[test]
fn without_features() {
    for features in [&[][..], &[ALLOC], &[LIBRARY], &[ALLOC, LIBRARY]] {
        let words = [&["--emit=metadata"], features].concat();
        on_the_crate("rustc", &words);
    }
}
