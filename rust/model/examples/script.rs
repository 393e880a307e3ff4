//! Document 01's program over the model: reads a text from standard input and
//! writes what it prints.

use std::io::{Read, Write};

fn main() {
    let mut text = Vec::new();
    if let Err(error) = std::io::stdin().read_to_end(&mut text) {
        eprintln!("script: standard input cannot be read: {error}");
        std::process::exit(1);
    }
    if let Err(error) = std::io::stdout().write_all(&model::printed(&text)) {
        eprintln!("script: standard output cannot be written: {error}");
        std::process::exit(1);
    }
}
