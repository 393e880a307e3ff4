//! The page: one HTML file with everything in it, for one script or for many.

use super::film::{Film, PICTURE_BYTES};
use super::findings::Findings;
use super::html::{base64, cell, escaped, table};
use super::index::{total, Entry};
use super::said::html;
use super::{sections, sha256, slides, source};

const STYLE: &str = include_str!("page.css");
const SCRIPT: &str = include_str!("page.js");

/// The prefix of the ids of a script, by its place on the page.
fn prefix(at: usize) -> String {
    format!("s{}-", at + 1)
}

/// The report on one script.
fn article(findings: &Findings, at: usize, bytes: usize) -> String {
    let prefix = &prefix(at);
    let cards = match Film::of(findings, bytes) {
        Some(film) => slides::section(&film, prefix),
        None if findings.outcome().is_some() => slides::none(prefix),
        None => String::new(),
    };
    let source = format!(
        "<section id=\"{prefix}source\">\n<h2>The script</h2>\n{}</section>\n",
        source::source(findings, prefix)
    );
    let parts = [
        sections::identity(findings, prefix),
        sections::decision(findings, prefix),
        sections::alters(findings, prefix),
        sections::finishes(findings, prefix),
        sections::learns(findings, prefix),
        sections::stops(findings, prefix),
        source,
        cards,
        sections::assumed(prefix),
    ];
    let name = escaped(&findings.identity.file);
    format!(
        "<article id=\"s{}\">\n<h1>Report: {name}</h1>\n{}</article>\n",
        at + 1,
        parts.concat()
    )
}

/// A row for each script, with a link to its report.
fn index(entries: &[Entry]) -> String {
    let headings = ["script", "decision", "most steps", "the run"];
    let rows = entries.iter().enumerate().map(|(at, entry)| {
        let (prefix, name) = (prefix(at), escaped(entry.file()));
        let name = match entry {
            Entry::Found(_) => format!("<a href=\"#s{}\">{name}</a>", at + 1),
            Entry::Unread { .. } => name,
        };
        let said = [Some(entry.decision()), entry.bound(), entry.run()];
        let said = said.map(|said| html(&said.unwrap_or_default(), &prefix));
        let cells = headings.iter().zip([name].into_iter().chain(said));
        let cells: String = cells
            .map(|(heading, inner)| cell(heading, &inner))
            .collect();
        format!("<tr id=\"{prefix}row\">{cells}</tr>\n")
    });
    let rows: String = rows.collect();
    format!(
        "<nav id=\"index\">\n<h1>Reports</h1>\n<p id=\"total\">{}</p>\n{}</nav>\n",
        total(entries),
        table("stacked", &headings.map(str::to_string), &rows)
    )
}

/// Only the page's own script runs, and nothing is fetched.
fn policy() -> String {
    let sum: Vec<u8> = sha256::sum(SCRIPT.as_bytes())
        .iter()
        .flat_map(|word| word.to_be_bytes())
        .collect();
    let sum = base64(&sum);
    format!("default-src 'none'; style-src 'unsafe-inline'; script-src 'sha256-{sum}'")
}

/// The whole page; with an index if it is on many scripts, or on a folder.
pub fn page(entries: &[Entry], indexed: bool) -> String {
    let bytes = PICTURE_BYTES / entries.len().max(1);
    let articles = entries
        .iter()
        .enumerate()
        .filter_map(|(at, entry)| match entry {
            Entry::Found(findings) => Some(article(findings, at, bytes)),
            Entry::Unread { .. } => None,
        });
    let articles: String = articles.collect();
    let (title, index) = match indexed {
        true => ("Reports".to_string(), index(entries)),
        false => (
            format!("Report: {}", entries.first().map_or("", Entry::file)),
            String::new(),
        ),
    };
    format!(
        "<!DOCTYPE html>\n<html lang=\"en\">\n<head>\n<meta charset=\"utf-8\">\n\
         <meta http-equiv=\"Content-Security-Policy\" content=\"{}\">\n\
         <meta name=\"viewport\" content=\"width=device-width, initial-scale=1\">\n\
         <title>{}</title>\n<style>\n{STYLE}</style>\n</head>\n<body>\n<main>\n{index}{articles}</main>\n\
         <script>{SCRIPT}</script>\n</body>\n</html>\n",
        policy(),
        escaped(&title)
    )
}
