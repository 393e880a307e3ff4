//! Writes the text of a seed: `show 5` any text, `show accepted 5` an accepted one,
//! `show starred 5` one for fill.

use std::io::Write;

fn main() {
    let words: Vec<String> = std::env::args().skip(1).collect();
    let seed = |word: Option<&String>| word.and_then(|word| word.parse().ok()).unwrap_or(0);
    let text = match words.first().map(String::as_str) {
        Some("accepted") => generator::accepted(seed(words.get(1))),
        Some("starred") => generator::starred(seed(words.get(1))),
        _ => generator::text(seed(words.first())),
    };
    std::io::stdout().write_all(&text).expect("standard output");
}
