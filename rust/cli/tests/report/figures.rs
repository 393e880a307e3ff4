//! The figures of a page, compared with what check, bound, run, trace and draw
//! say.

use super::page::Element;
use super::{int, list, number, sha256sum, text, Said};
use crate::common::root;
use explain::json::Json;
use std::collections::BTreeSet;

/// The page's identity, decision, bound and run are those of the calls.
pub fn answers_are(page: &Element, file: &str, said: &Said) {
    let bytes = std::fs::read(root().join(file)).expect("a script");
    assert_eq!(page.text_of("s1-script"), file);
    assert_eq!(number(&page.text_of("s1-bytes")), bytes.len() as i64);
    assert_eq!(page.text_of("s1-sha256"), sha256sum(&root().join(file)));
    let refused = int(&said.check, "number") != 0;
    let verdict = if refused { "refused" } else { "accepted" };
    assert_eq!(page.text_of("s1-verdict"), verdict);
    let learns = if refused { "No, it does not run" } else { "No" };
    assert_eq!(page.text_of("s1-learns"), learns);
    if refused {
        let decision = page.text_of("s1-decision");
        assert!(decision.contains(&place(&said.check)), "{decision}");
        assert!(page.find("s1-run").is_none());
        return;
    }
    bound_is(page, &said.bound);
    run_is(page, &said.run);
    variables_are(page, &said.run);
}

/// How a page names a number and its line.
fn place(answer: &Json) -> String {
    match (int(answer, "number"), int(answer, "line")) {
        (number, 0) => format!("number {number}: "),
        (number, line) => format!("number {number} at line {line}: "),
    }
}

fn bound_is(page: &Element, bound: &Json) {
    let told = page.text_of("s1-bound");
    let Some(steps) = bound.get("bound").and_then(Json::int) else {
        assert_eq!(told, "No bound");
        let question = page.text_of("s1-question-2");
        assert!(question.contains(&place(bound)), "{question}");
        return;
    };
    let (told, frames) = told.split_once(", ").expect("steps and frames");
    assert_eq!(number(told), steps);
    assert_eq!(number(frames), int(bound, "frames"));
}

fn run_is(page: &Element, run: &Json) {
    let told = page.text_of("s1-run");
    let (line, steps) = told.split_once(" after ").expect("line and steps");
    let (steps, stop) = steps.split_once(", number ").unwrap_or((steps, "0:"));
    let (stop, _) = stop.split_once(':').expect("a number and its words");
    assert_eq!(line.starts_with("finished"), int(run, "number") == 0);
    assert_eq!(number(line), int(run, "line"));
    assert_eq!(number(steps), int(run, "steps"));
    assert_eq!(number(stop), int(run, "number"));
    assert_eq!(number(&page.text_of("s1-allowed")), int(run, "allowed"));
}

fn variables_are(page: &Element, run: &Json) {
    let value = |variable: &Json| match (text(variable, "type"), variable.get("value")) {
        ("int", Some(Json::Int(value))) => value.to_string(),
        (_, Some(Json::Int(value))) => format!("object {value}"),
        _ => "null".to_string(),
    };
    let variables: Vec<String> = list(run, "variables")
        .iter()
        .map(|variable| format!("{} = {}", text(variable, "name"), value(variable)))
        .collect();
    let told = page.find("s1-variables").map(Element::text);
    assert_eq!(told.unwrap_or_default(), variables.join(", "));
}

fn cells(row: &Element) -> Vec<String> {
    row.named("td").iter().map(|cell| cell.text()).collect()
}

/// The route is that of bound.
pub fn route_is(page: &Element, said: &Said) {
    let legs = match said.bound.get("route") {
        Some(_) => list(&said.bound, "route"),
        None => &[],
    };
    for (at, leg) in legs.iter().enumerate() {
        let row = page.find(&format!("s1-route-{}", at + 1)).expect("a leg");
        let cells = cells(row);
        let own = cells[3].split(' ').next().unwrap_or("");
        assert_eq!(number(&cells[0]), int(leg, "line"));
        assert_eq!(number(&cells[2]), int(leg, "adds"));
        assert_eq!(number(own), int(leg, "own"));
    }
    let after = format!("s1-route-{}", legs.len() + 1);
    assert!(page.find(&after).is_none(), "{after}");
}

/// The rows of steps, from that before the first on.
fn step_rows(page: &Element) -> Vec<&Element> {
    let table = page.with_class("steps");
    let rows = table.first().map(|table| table.named("tr"));
    rows.unwrap_or_default().into_iter().skip(1).collect()
}

/// The steps are those of trace.
pub fn steps_are(page: &Element, said: &Said) {
    let rows = step_rows(page);
    if rows.is_empty() {
        assert_ne!(int(&said.check, "number"), 0, "a run has its steps");
        return;
    }
    let (trace, film) = (list(&said.trace, "trace"), page.text_of("s1-film"));
    let mut last = rows[0].number("data-step");
    assert_eq!(last, 0);
    for row in &rows[1..] {
        let step = row.number("data-step");
        let traced = &trace[step as usize - 1];
        assert_eq!(step, int(traced, "step"));
        assert_eq!(row.number("data-line"), int(traced, "line"));
        let cells = cells(row);
        assert_eq!(number(&cells[0]), step);
        assert_eq!(cells[2], text(traced, "text"));
        let changes = list(traced, "changes").iter().filter_map(Json::text);
        let changes = changes.collect::<Vec<_>>().join(", ");
        // Of a long run the last step is shown, without what it changed.
        let skipped = step - last - 1;
        let wanted = if skipped > 0 { "" } else { &changes };
        assert_eq!(cells[3], wanted);
        let told = film.contains(&format!("Not shown: {skipped} step"));
        assert_eq!(skipped > 0, told);
        last = step;
    }
    assert_eq!(last, int(&said.run, "steps"));
    assert_eq!(page.named("input")[0].number("max"), rows.len() as i64 - 1);
}

/// The drawing after the run is that of draw, and each step has its picture.
pub fn pictures_are(written: &str, page: &Element, said: &Said) {
    let rows = step_rows(page);
    let Some(end) = rows.last() else {
        return;
    };
    let stage = page.with_class("stage")[0];
    let shown = stage.attribute("data-picture");
    assert_eq!(shown, end.attribute("data-picture"));
    let picture = text(&said.drawn, "picture");
    assert_eq!(
        written.matches(picture).count(),
        1,
        "the drawing after the run"
    );
    let templates = page.named("template");
    assert!(templates.iter().all(|one| one.named("svg").len() == 1));
    let pictures = templates.iter().map(|one| one.number("data-picture"));
    let mut pictures: Vec<i64> = pictures.chain([stage.number("data-picture")]).collect();
    pictures.sort_unstable();
    assert!(pictures.iter().copied().eq(0..pictures.len() as i64));
    assert!(rows
        .iter()
        .all(|row| pictures.contains(&row.number("data-picture"))));
}

/// The lines that a row leads to, each once.
fn lines_of(row: &Element) -> BTreeSet<i64> {
    row.named("a")
        .iter()
        .map(|link| number(&link.text()))
        .collect()
}

/// The row of a table.
fn row<'p>(page: &'p Element, table: &str, number: usize) -> &'p Element {
    let id = format!("s1-{table}-{number}");
    page.find(&id).unwrap_or_else(|| panic!("no {id}"))
}

/// The tables of methods, reasons and stops are those of the JSON object.
pub fn tables_are(page: &Element, report: &Json, said: &Said) {
    for (at, method) in list(report, "methods").iter().enumerate() {
        method_is(row(page, "method", at + 1), method);
    }
    for (at, reason) in list(report, "reasons").iter().enumerate() {
        reason_is(
            row(page, "reason", at + 1),
            reason,
            list(&said.trace, "trace"),
        );
    }
    for stop in list(report, "stops") {
        stop_is(row(page, "stop", int(stop, "number") as usize), stop);
    }
}

fn method_is(row: &Element, method: &Json) {
    let parts = ["writes", "makes", "callers"].map(|name| list(method, name));
    let parts = parts.concat();
    let lines = parts.iter().chain([method]).map(|one| int(one, "line"));
    assert_eq!(lines_of(row), lines.collect());
    let cells = cells(row);
    assert_eq!(cells[0], handed(method, &["half"], "the same"));
    assert_eq!(cells[1], handed(method, &["whole", "chain"], "another"));
}

/// The paths that a method is handed but for those of some shares; those of which
/// another path may have the other half are of either.
fn handed(method: &Json, but: &[&str], is: &str) -> String {
    let paths = list(method, "handed").iter().filter_map(|one| {
        let other = one.get("other").and_then(Json::text);
        match (text(one, "path"), other) {
            (path, Some(other)) => Some(format!("{path} (if {other} is {is})")),
            (path, None) => (!but.contains(&text(one, "share"))).then(|| path.to_string()),
        }
    });
    let paths: Vec<String> = paths.collect();
    match paths.is_empty() {
        true => "nothing".to_string(),
        false => paths.join(", "),
    }
}

fn reason_is(row: &Element, reason: &Json, trace: &[Json]) {
    let (line, cells) = (int(reason, "line"), cells(row));
    assert_eq!(number(&cells[0]), line);
    let times = trace.iter().filter(|step| int(step, "line") == line);
    let times = times.count() as i64;
    assert_eq!(int(reason, "times"), times);
    let start = match reason.get("called") {
        Some(Json::Bool(true)) => format!("done {} time", grouped(times)),
        _ => "never: ".to_string(),
    };
    assert!(cells[3].starts_with(&start), "{}", cells[3]);
}

fn stop_is(row: &Element, stop: &Json) {
    let lines = list(stop, "lines").iter().filter_map(Json::int);
    assert_eq!(lines_of(row), lines.collect());
    let start = match text(stop, "verdict") {
        "bounded" => format!("not with {} step", grouped(int(stop, "steps"))),
        "comes" => "it comes: line ".to_string(),
        verdict => verdict.to_string(),
    };
    let cells = cells(row);
    assert!(cells[1].starts_with(&start), "{start}: {}", cells[1]);
    assert!(cells[2].starts_with(text(stop, "basis")), "{}", cells[2]);
}

/// 1000 as `1,000`.
fn grouped(number: i64) -> String {
    let digits = number.to_string();
    let signs = digits.chars().enumerate();
    let comma = |at: usize| at > 0 && (digits.len() - at).is_multiple_of(3);
    signs
        .flat_map(|(at, digit)| comma(at).then_some(',').into_iter().chain([digit]))
        .collect()
}

/// The lines of the script stand on the page as the trace shows them.
pub fn lines_are(page: &Element, file: &str) {
    let script = std::fs::read(root().join(file)).expect("a script");
    let lines = script.split_inclusive(|&byte| byte == b'\n');
    let shown = page.with_class("source")[0].named("li");
    assert_eq!(shown.len(), lines.clone().count());
    for (at, (line, shown)) in lines.zip(shown).enumerate() {
        let id = format!("s1-L{}", at + 1);
        assert_eq!(shown.attribute("id"), Some(id.as_str()));
        let line = line.strip_suffix(b"\n").unwrap_or(line);
        if line
            .iter()
            .all(|byte| byte.is_ascii_graphic() && *byte != b'\\' || *byte == b'\t')
        {
            let line = String::from_utf8_lossy(line).replace('\t', " ");
            assert_eq!(shown.named("code")[0].text(), line);
        }
    }
}
