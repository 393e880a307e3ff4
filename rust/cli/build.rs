//! What a report says of the build: the sha256 of the library that is linked, and
//! the logic sum of the prover on this machine.

#[path = "src/authority/sha256.rs"]
#[allow(dead_code)]
mod sha256;

use std::process::{exit, Command};

/// The sha256 of the library; `rust/host`, whose build makes it, says where it is.
fn library_sum() -> String {
    let Some(library) = std::env::var_os("DEP_NUYARDI_LIBRARY") else {
        eprintln!("the build of the crate nuyardi does not say where its library is");
        exit(1)
    };
    let path = std::path::Path::new(&library);
    println!("cargo:rerun-if-changed={}", path.display());
    match std::fs::read(path) {
        Ok(bytes) => sha256::hex(&bytes),
        Err(error) => {
            eprintln!("{}: {error}", path.display());
            exit(1)
        }
    }
}

/// The sum that `rt version` prints after the word `logic`.
fn logic_sum() -> Option<String> {
    let output = Command::new("rt").arg("version").output().ok()?;
    let said = String::from_utf8(output.stdout).ok()?;
    let mut words = said
        .split_whitespace()
        .skip_while(|word| *word != "logic")
        .skip(1);
    words.next().map(str::to_string)
}

fn main() {
    println!("cargo:rerun-if-changed=build.rs");
    println!("cargo:rerun-if-changed=src/authority/sha256.rs");
    println!("cargo:rerun-if-env-changed=PATH");
    println!("cargo:rustc-env=LIBRARY_SHA256={}", library_sum());
    let logic = logic_sum().unwrap_or_else(|| "not known".to_string());
    println!("cargo:rustc-env=LOGIC_SUM={logic}");
}
