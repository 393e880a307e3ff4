//! `station report`: its page is whole, and every number in it is the one that
//! check, bound, run, trace and draw give.

mod common;
#[path = "report/errors.rs"]
mod errors;
#[path = "report/figures.rs"]
mod figures;
#[path = "report/objects.rs"]
mod objects_of_reports;
#[path = "report/page.rs"]
mod page;

use common::{folder, root, said, status};
use explain::json::{parse, Json};
use page::Element;
use std::path::Path;

/// The scripts of the repository.
fn examples() -> Vec<String> {
    let entries = std::fs::read_dir(root().join("examples")).expect("examples");
    let names = entries.map(|entry| entry.expect("an entry").file_name());
    let mut names: Vec<String> = names
        .map(|name| format!("examples/{}", name.to_str().expect("a name")))
        .collect();
    names.sort();
    assert!(names.len() > 40, "{names:?}");
    names
}

fn objects(words: &[&str]) -> Vec<Json> {
    let (out, _, _) = said(words, b"");
    let lines = out.lines();
    lines
        .map(|line| parse(line).unwrap_or_else(|| panic!("no JSON: {line}")))
        .collect()
}

fn object(words: &[&str]) -> Json {
    let mut all = objects(words);
    assert_eq!(all.len(), 1, "{words:?}");
    all.remove(0)
}

fn list<'j>(object: &'j Json, name: &str) -> &'j [Json] {
    match object.get(name) {
        Some(Json::List(items)) => items,
        other => panic!("{name}: {other:?}"),
    }
}

fn int(object: &Json, name: &str) -> i64 {
    let value = object.get(name).and_then(Json::int);
    value.unwrap_or_else(|| panic!("no {name}: {object}"))
}

fn text<'j>(object: &'j Json, name: &str) -> &'j str {
    let value = object.get(name).and_then(Json::text);
    value.unwrap_or_else(|| panic!("no {name}: {object}"))
}

/// What other commands say of a script.
struct Said {
    check: Json,
    bound: Json,
    run: Json,
    trace: Json,
    drawn: Json,
}

fn others(file: &str) -> Said {
    let bound = object(&["bound", "--json", "--why", file]);
    let steps = bound.get("bound").and_then(Json::int).unwrap_or(1_000);
    let steps = steps.to_string();
    let with = |command| object(&[command, "--json", "--steps", &steps, file]);
    Said {
        check: object(&["check", "--json", file]),
        bound,
        run: with("run"),
        trace: with("trace"),
        drawn: with("draw"),
    }
}

/// The page of one file.
fn page_of(file: &str) -> (String, Element) {
    let (out, error, _) = said(&["report", "--no-time", "--html", "-", file], b"");
    assert_eq!(error, "", "{file}");
    let page = page::read(&out);
    (out, page)
}

/// `1,000` as 1000.
fn number(words: &str) -> i64 {
    let digits: String = words.chars().filter(char::is_ascii_digit).collect();
    digits.parse().unwrap_or_else(|_| panic!("{words}"))
}

/// Every id stands once, every link leads to one, and nothing is fetched.
fn is_whole(page: &Element) {
    let mut ids: Vec<&str> = page
        .all()
        .iter()
        .filter_map(|one| one.attribute("id"))
        .collect();
    ids.retain(|id| *id != "arrow");
    let count = ids.len();
    ids.sort_unstable();
    ids.dedup();
    assert_eq!(ids.len(), count, "an id stands twice");
    for link in page.named("a") {
        let to = link.attribute("href").expect("a link");
        match to.strip_prefix('#') {
            Some(id) => assert!(ids.binary_search(&id).is_ok(), "{to} leads nowhere"),
            None => assert!(to.starts_with("docs/ASSURANCE.md#assumed-"), "{to}"),
        }
    }
    for element in page.all() {
        assert_eq!(element.attribute("src"), None);
        let known = "html head meta title style body main nav article section h1 h2 h3 p a strong span code pre dl dt \
                     dd ol li table thead tbody tr th td div template details summary button input script svg defs \
                     marker path rect circle text";
        assert!(
            known.split(' ').any(|name| name == element.name.as_str()),
            "{}",
            element.name
        );
    }
    assert_eq!(page.named("script").len(), 1);
}

#[test]
fn pages_of_the_examples() {
    for file in examples() {
        let said = others(&file);
        let (written, page) = page_of(&file);
        is_whole(&page);
        figures::answers_are(&page, &file, &said);
        figures::route_is(&page, &said);
        figures::steps_are(&page, &said);
        figures::pictures_are(&written, &page, &said);
        figures::lines_are(&page, &file);
        let report = object(&["report", "--json", "--no-time", &file]);
        figures::tables_are(&page, &report, &said);
        assert!(page.find("index").is_none());
    }
}

/// What `sha256sum` says of a file.
fn sha256sum(file: &Path) -> String {
    let output = std::process::Command::new("sha256sum").arg(file).output();
    let output = output.expect("sha256sum").stdout;
    let output = String::from_utf8_lossy(&output).into_owned();
    output
        .trim_start_matches('\\')
        .split(' ')
        .next()
        .unwrap_or("")
        .to_string()
}
