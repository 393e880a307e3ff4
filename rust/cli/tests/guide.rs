//! The guide and the README can't go stale: their scripts are the files of
//! `examples/`, their answers are what the command prints, and the fixes work.
//!
//! `UPDATE_GUIDE=1 cargo test -p cli --test guide` writes the blocks again.

use std::collections::BTreeSet;
use std::path::{Path, PathBuf};
use std::process::Command;

fn root() -> PathBuf {
    Path::new(env!("CARGO_MANIFEST_DIR")).join("../..")
}

fn guide() -> String {
    std::fs::read_to_string(root().join("docs/LANGUAGE.md")).expect("the guide")
}

/// What the command prints, both streams, run in the repository's root.
fn printed(line: &str) -> String {
    let mut words = line.split(' ');
    assert_eq!(words.next(), Some("station"), "{line}");
    let output = Command::new(env!("CARGO_BIN_EXE_station"))
        .args(words)
        .current_dir(root())
        .output()
        .expect("station");
    let bytes = [output.stdout, output.stderr].concat();
    without_sums(String::from_utf8(bytes).expect("UTF-8"))
}

/// A report without the sums of this build, which change with the library and the
/// prover.
fn without_sums(printed: String) -> String {
    let logic = format!("logic:    {}\n", env!("LOGIC_SUM"));
    printed
        .replace(env!("LIBRARY_SHA256"), "(of the library that is linked)")
        .replace(&logic, "logic:    (of the prover)\n")
}

fn script(name: &str) -> String {
    std::fs::read_to_string(root().join(name)).unwrap_or_else(|error| panic!("{name}: {error}"))
}

/// A fenced block: its heading and its lines.
struct Block<'a> {
    heading: &'a str,
    lines: Vec<&'a str>,
}

/// The guide with each block as `filled` gives it.
fn with_blocks(guide: &str, mut filled: impl FnMut(&Block) -> String) -> String {
    let mut out = String::new();
    let mut lines = guide.lines();
    while let Some(line) = lines.next() {
        out.push_str(line);
        out.push('\n');
        if let Some(heading) = line.strip_prefix("```") {
            let block = Block {
                heading,
                lines: lines.by_ref().take_while(|line| *line != "```").collect(),
            };
            out.push_str(&filled(&block));
            out.push_str("```\n");
        }
    }
    out
}

/// The lines of a list, those of one length together.
fn by_length(list: &str) -> String {
    let most = list.lines().map(str::len).max().unwrap_or(0);
    let rows = (0..=most).map(|length| {
        let lines: Vec<&str> = list.lines().filter(|line| line.len() == length).collect();
        let shown = if length == 0 {
            "an empty line".to_string()
        } else {
            lines.join(" ")
        };
        format!("{length} ({}): {shown}\n", lines.len())
    });
    rows.collect()
}

fn fresh(block: &Block) -> String {
    let file = block.heading.strip_prefix("script ");
    if let Some(name) = file.or(block.heading.strip_prefix("file ")) {
        return script(name).replace('\t', " ");
    }
    if let Some(name) = block.heading.strip_prefix("list ") {
        return by_length(&script(name));
    }
    if block.heading == "console" {
        let commands = block
            .lines
            .iter()
            .filter_map(|line| line.strip_prefix("$ "));
        let shown = commands.map(|command| format!("$ {command}\n{}", printed(command)));
        return shown.collect();
    }
    block.lines.iter().map(|line| format!("{line}\n")).collect()
}

/// The pages whose blocks are tried.
const PAGES: [&str; 2] = ["docs/LANGUAGE.md", "README.md"];

#[test]
fn scripts_and_answers() {
    for page in PAGES {
        let path = root().join(page);
        let text = std::fs::read_to_string(&path).expect("the page");
        let fresh = with_blocks(&text, fresh);
        if std::env::var_os("UPDATE_GUIDE").is_some() {
            std::fs::write(path, fresh).expect("the page is written");
            continue;
        }
        for (at, (have, want)) in text.lines().zip(fresh.lines()).enumerate() {
            assert_eq!(have, want, "line {} of {page}", at + 1);
        }
        assert_eq!(text, fresh);
    }
}

/// Signs that look like others do not stand in the guide, and its contents lead
/// to every chapter.
#[test]
fn plain_signs_and_contents() {
    let guide = guide();
    for sign in ['\u{2212}', '\u{a0}', '\u{2013}'] {
        assert!(!guide.contains(sign), "{sign:?}");
    }
    for line in guide.lines().filter_map(|line| line.strip_prefix("## ")) {
        let letters = line
            .chars()
            .filter(|letter| letter.is_alphanumeric() || *letter == ' ');
        let name: String = letters.collect::<String>().to_lowercase().replace(' ', "-");
        assert!(
            guide.contains(&format!("(#{name})")),
            "{name} is not in the contents"
        );
    }
}

/// Every example stands in the guide, and has an answer there.
#[test]
fn every_example() {
    let guide = guide();
    let (mut shown, mut answered) = (BTreeSet::new(), BTreeSet::new());
    with_blocks(&guide, |block| {
        if let Some(name) = block.heading.strip_prefix("script ") {
            assert!(shown.insert(name.to_string()), "{name} is shown twice");
        }
        for line in block.lines.iter().filter(|line| line.starts_with("$ ")) {
            answered.extend(line.split(' ').map(str::to_string));
        }
        String::new()
    });
    let mut files = BTreeSet::new();
    for entry in std::fs::read_dir(root().join("examples")).expect("examples") {
        let name = entry
            .expect("an entry")
            .file_name()
            .into_string()
            .expect("a name");
        if name.ends_with(".script") {
            files.insert(format!("examples/{name}"));
        }
    }
    assert!(files.len() >= 24, "{files:?}");
    assert_eq!(shown, files);
    assert!(
        answered.is_superset(&files),
        "without an answer: {:?}",
        &files - &answered
    );
}

/// A script with each line that is crossed out replaced by those that follow.
fn fixed(script: &str, lines: &[&str]) -> String {
    let mut all: Vec<String> = script.lines().map(str::to_string).collect();
    let mut at = 0;
    for line in lines {
        let (sign, line) = line.split_at(2);
        let line = line.replace(' ', "\t");
        match sign {
            "- " => {
                let found = all[at..]
                    .iter()
                    .position(|old| old.replace(' ', "\t") == line);
                at += found.unwrap_or_else(|| panic!("not in the script: {line}"));
                all.remove(at);
            }
            "+ " => {
                all.insert(at, line);
                at += 1;
            }
            "  " => {
                let found = all[at..].iter().position(|old| *old == line);
                at += 1 + found.unwrap_or_else(|| panic!("not in the script: {line}"));
            }
            _ => panic!("no change: {sign}{line}"),
        }
    }
    all.join("\n") + "\n"
}

/// Each fix makes its script accepted, and its run finish.
#[test]
fn fixes() {
    let guide = guide();
    let mut fixes = BTreeSet::new();
    with_blocks(&guide, |block| {
        if let Some(name) = block.heading.strip_prefix("diff ") {
            fixes.insert(name.to_string());
            let text = fixed(&script(name), &block.lines);
            match nuyardi::run(text.as_bytes(), 1_000) {
                Ok(outcome) => assert!(outcome.finished(), "{name}: {outcome}"),
                Err(refusal) => panic!("{name}: {refusal}\n{text}"),
            }
            if name.contains("refused-15") || name.contains("refused-16") {
                assert!(nuyardi::bound(text.as_bytes()).is_ok(), "{name}");
            }
        }
        String::new()
    });
    for number in 3..=18 {
        assert!(
            fixes.contains(&format!("examples/refused-{number:02}.script")),
            "{number}"
        );
    }
    for number in 22..=27 {
        assert!(
            fixes.contains(&format!("examples/stopped-{number}.script")),
            "{number}"
        );
    }
}

/// The statements of the last chapter, in the order of their places.
fn small_statements() -> Vec<String> {
    let guide = guide();
    let (_, chapter) = guide
        .split_once("## Exercises: all small scripts\n")
        .expect("the last chapter");
    let rows = chapter.lines().filter(|line| line.ends_with("` |"));
    let statements = rows.filter_map(|row| row.split('`').nth(1));
    statements.map(|line| line.replace(' ', "\t")).collect()
}

/// The mains of so many statements that the library accepts, by their places, in order.
fn accepted_mains(length: u32) -> Vec<String> {
    let statements = small_statements();
    let many = statements.len();
    let mut accepted = Vec::new();
    for number in 0..many.pow(length) {
        let places = (0..length).rev().map(|i| number / many.pow(i) % many);
        let (mut name, mut body) = (String::new(), String::new());
        for place in places {
            name.push_str(&(place + 1).to_string());
            body.push_str(&format!("{}\n", statements[place]));
        }
        let text = format!("class\tS\nfield\tint\tn\nmain\nvar\tS\ts\nvar\tint\ta\n{body}end\n");
        if nuyardi::check(text.as_bytes()).is_ok() {
            accepted.push(name);
        }
    }
    accepted
}

/// The list of small scripts is what the library accepts, and the counts of the exercises are so.
#[test]
fn small_scripts() {
    let list: String = (0..=3)
        .flat_map(accepted_mains)
        .map(|name| format!("{name}\n"))
        .collect();
    assert_eq!(list, script("crates/small/stdout"));
    let counts: Vec<usize> = (0..=4).map(|length| accepted_mains(length).len()).collect();
    assert_eq!(counts, [1, 2, 7, 29, 124]);
    assert!(guide().contains("22 * 5 + 7 * 2 = 124"));
}

/// The names of all JSON fields are listed.
#[test]
fn json_fields() {
    let guide = guide();
    let commands = [
        "station check --json examples/refused-03.script",
        "station check --json examples/lost.script",
        "station trial --json examples/stopped-24.script",
        "station run --json --cards examples/ring.script",
        "station bound --json --why examples/tag.script",
        "station bound --json examples/refused-15.script",
        "station report --json examples/tag.script",
        "station report --json examples/refused-15-calls.script",
        "station trace --json examples/tag.script",
        "station known --json examples/tag.script",
        "station draw --json examples/tag.script",
        "station fmt --json examples/tag.script",
        "station fix --json examples/lost.script",
        "station count --json examples/north.script examples/lost.script",
        "station count --json --shares 0 examples/north.script",
        "station fill --json examples/fill.script",
        "station fill --json examples/refused-17.script",
        "station test --json examples/tag.script",
        "station explain --json 12",
        "station check --json no-such-file",
    ];
    let mut names = BTreeSet::new();
    for command in commands {
        let printed = printed(command);
        let parts: Vec<&str> = printed.split('"').collect();
        for (at, part) in parts.iter().enumerate() {
            let name = part.len() < 12 && part.bytes().all(|byte| byte.is_ascii_lowercase());
            if name
                && !part.is_empty()
                && parts.get(at + 1).is_some_and(|next| next.starts_with(':'))
            {
                names.insert(part.to_string());
            }
        }
    }
    assert!(names.len() >= 40, "{names:?}");
    for name in names {
        assert!(
            guide.contains(&format!("`{name}`")),
            "the guide does not list {name}"
        );
    }
}

/// The table of limits has those of the machine, in this order.
#[test]
fn limits() {
    use nuyardi::limits::*;
    let guide = guide();
    let (_, table) = guide.split_once("## Limits\n").expect("the section");
    let (table, _) = table.split_once("\n## ").expect("the last chapter");
    let numbers: Vec<usize> = table
        .replace(',', "")
        .split(|letter: char| !letter.is_ascii_digit())
        .filter_map(|digits| digits.parse().ok())
        .collect();
    let limits = [
        TEXT_BYTES,
        CLASSES,
        CLASS_FIELDS,
        METHODS,
        LOCALS,
        STATEMENTS,
        BRANCHES,
        ATOMS,
        NAME_BYTES,
        PERMISSIONS,
        FACTS,
        OBJECTS,
        FIELDS,
        FRAMES,
        BOUND,
        FILLED,
        SCRIPTS,
        FIELDS_EACH,
    ];
    assert_eq!(numbers, limits);
    for (said, size) in [
        ("32,769 bytes", TEXT_BYTES + 1),
        ("room for 63 below", FRAMES - 1),
    ] {
        assert!(guide.contains(said) && said.replace(',', "").contains(&size.to_string()));
    }
}
