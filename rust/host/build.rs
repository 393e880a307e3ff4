//! Finds or makes the static library, and takes the limits from its source.
//!
//! In the repository, `tools/prove-library` proves and makes libstation.a, if it
//! was not made from the same sources before, and `tools/c-library` makes
//! libnuyardi.a of it, whose names clash with no others. The environment
//! variable STATION_LIB names another libstation.a to take instead. Without the
//! feature `library` none is made or linked.
//!
//! Where the crate is installed, both libnuyardi.a and the limits are there.

use std::fs;
use std::path::{Path, PathBuf};
use std::process::{exit, Command};

fn fail(message: String) -> ! {
    eprintln!("{message}");
    exit(1)
}

/// What a program of the repository's folder `tools` prints.
fn tool(root: &Path, name: &str, words: &[&Path]) -> Vec<u8> {
    let path = root.join("tools").join(name);
    println!("cargo:rerun-if-changed={}", path.display());
    match Command::new(&path).args(words).output() {
        Ok(output) if output.status.success() => output.stdout,
        Ok(output) => fail(format!(
            "{name}: {}\n{}{}",
            output.status,
            String::from_utf8_lossy(&output.stdout),
            String::from_utf8_lossy(&output.stderr)
        )),
        Err(error) => fail(format!("{}: {error}", path.display())),
    }
}

/// The proved library of the repository.
fn proved_library(root: &Path) -> PathBuf {
    for source in ["crates", "crates.txt"] {
        println!("cargo:rerun-if-changed={}", root.join(source).display());
    }
    // Cargo shows nothing of what a build says while it lasts, and a proof takes minutes: a terminal is told directly.
    let terminal = fs::OpenOptions::new().write(true).open("/dev/tty");
    if let Ok(terminal) = terminal {
        let _ = Command::new(root.join("tools/prove-library"))
            .stdout(terminal)
            .status();
    }
    tool(root, "prove-library", &[]);
    root.join("target/staticlib/libstation.a")
}

/// Links libnuyardi.a of a folder; builds of crates over this one get its path
/// as DEP_NUYARDI_LIBRARY.
fn linked(folder: &Path) {
    println!("cargo:rustc-link-search=native={}", folder.display());
    println!("cargo:library={}", folder.join("libnuyardi.a").display());
}

/// Makes libnuyardi.a in the build's folder.
fn made_library(root: &Path, out: &Path) {
    println!("cargo:rerun-if-env-changed=STATION_LIB");
    let named = std::env::var_os("STATION_LIB").map(PathBuf::from);
    let library = named.unwrap_or_else(|| proved_library(root));
    println!("cargo:rerun-if-changed={}", library.display());
    let header = root.join("include/station.h");
    println!("cargo:rerun-if-changed={}", header.display());
    tool(root, "c-library", &[&library, &out.join("libnuyardi.a")]);
    linked(out);
}

/// Makes both, from the repository.
fn in_repository(root: &Path, out: &Path, linked: bool) -> Vec<u8> {
    if linked {
        made_library(root, out);
    }
    let source = root.join("crates/rules/src/lib.rt");
    println!("cargo:rerun-if-changed={}", source.display());
    tool(root, "limits", &[])
}

/// Takes both from where `make install` put them: PREFIX/share/nuyardi/rust/host
/// is this crate, PREFIX/lib has the library.
fn installed(host: &Path) -> Vec<u8> {
    let libraries = host.join("../../../../lib");
    linked(&libraries);
    let limits = host.join("limits.rs");
    println!("cargo:rerun-if-changed={}", limits.display());
    fs::read(&limits).unwrap_or_else(|error| fail(format!("{}: {error}", limits.display())))
}

fn main() {
    let variable = |name: &str| std::env::var_os(name).map(PathBuf::from);
    let (Some(host), Some(out)) = (variable("CARGO_MANIFEST_DIR"), variable("OUT_DIR")) else {
        fail("cargo sets CARGO_MANIFEST_DIR and OUT_DIR".to_string());
    };
    println!("cargo:rerun-if-changed=build.rs");
    let root = host.join("../..");
    let linked = variable("CARGO_FEATURE_LIBRARY").is_some();
    let limits = match root.join("crates.txt").exists() {
        true => in_repository(&root, &out, linked),
        false => installed(&host),
    };
    if let Err(error) = fs::write(out.join("limits.rs"), limits) {
        fail(format!("{}: {error}", out.display()));
    }
    if linked {
        println!("cargo:rustc-link-lib=static=nuyardi");
    }
}
