//! `station report` over names and texts that are meant ill, and where it can't
//! write: an error that says what to do, and no page that is half there.

use super::{folder, is_whole, page, said, status};
use std::path::Path;

fn name(path: &Path) -> &str {
    path.to_str().expect("a name")
}

/// No file of a folder but these.
fn only(folder: &Path, names: &[&str]) {
    let entries = std::fs::read_dir(folder).expect("a folder");
    let mut there: Vec<String> = entries
        .map(|entry| {
            entry
                .expect("an entry")
                .file_name()
                .into_string()
                .expect("a name")
        })
        .collect();
    there.sort();
    assert_eq!(there, names);
}

#[test]
fn hostile_names_and_texts() {
    let folder = folder("report-hostile");
    let texts: [(&str, &[u8]); 7] = [
        ("<img src=x onerror=alert(1)>.script", b"main\nend\n"),
        (
            "\"'&amp;\u{202e}.script",
            b"main\nlet\t<script>\t\"&'\nend\n",
        ),
        (
            "bytes.script",
            b"\xff\xfe\x00</code><b>\n\xc3\x28\n--><!--\nmain",
        ),
        ("empty.script", b""),
        ("line.script", b"\n"),
        ("long.script", &[b'a'; 40_000]),
        ("wide.script", &[b'<'; 32_768]),
    ];
    for (file, text) in texts {
        std::fs::write(folder.join(file), text).expect("a text");
    }
    let page = folder.join("page.html");
    let (out, error, status) = said(&["report", "--html", name(&page), name(&folder)], b"");
    assert_eq!((error.as_str(), status), ("", 1));
    assert!(out.ends_with("page.html: 1 accepted, 6 refused\n"), "{out}");
    let written = std::fs::read_to_string(&page).expect("a page of UTF-8");
    let read = page::read(&written);
    is_whole(&read);
    let rows = read.find("index").expect("an index").named("tr");
    assert_eq!(rows.len(), 1 + texts.len());
    assert_eq!(read.named("article").len(), texts.len());
    assert!(!written.contains('\u{202e}'));
    let sums: Vec<String> = (1..=texts.len())
        .map(|at| read.text_of(&format!("s{at}-sha256")))
        .collect();
    assert_eq!(
        sums.iter().filter(|sum| sum.len() == 64).count(),
        texts.len() - 1
    );
    assert!(sums.contains(&"not all is read".to_string()), "{sums:?}");
}

/// Standard input is a script without a name.
#[test]
fn standard_input() {
    let (out, error, status) = said(&["report", "--no-time", "-"], b"main\nend\n");
    assert_eq!((error.as_str(), status), ("", 0));
    assert!(out.starts_with("report: -\n  bytes:    9\n"), "{out}");
    let (out, _, status) = said(&["report", "--no-time", "-"], b"main\n");
    assert!(
        out.contains("  decision: refused: number 8 at line 1: "),
        "{out}"
    );
    assert_eq!(status, 1);
}

#[test]
fn what_can_not_be_read() {
    let folder = folder("report-unread");
    let page = folder.join("page.html");
    let (out, error, status) = said(&["report", name(&folder)], b"");
    assert_eq!(status, 2);
    assert!(
        error.contains("a folder with no file that ends in .script"),
        "{error}"
    );
    assert!(
        out.ends_with("0 accepted, 0 refused, 1 not read\n"),
        "{out}"
    );
    let (out, error, status) = said(&["report", "--html", name(&page), name(&folder)], b"");
    assert_eq!((out.as_str(), status), ("", 2));
    assert!(
        error.ends_with("no script was read, and no page is written\n"),
        "{error}"
    );
    only(&folder, &[]);
}

/// What can be read is reported on, and the page says what could not.
#[test]
fn the_others_are_done() {
    let folder = folder("report-others");
    let page = folder.join("page.html");
    let words = [
        "report",
        "--html",
        name(&page),
        "no-such-file",
        "examples/tag.script",
    ];
    let (out, error, status) = said(&words, b"");
    assert!(error.starts_with("station: no-such-file: "), "{error}");
    assert!(
        out.ends_with("page.html: 1 accepted, 0 refused, 1 not read\n"),
        "{out}"
    );
    assert_eq!(status, 2);
    let read = page::read(&std::fs::read_to_string(&page).expect("a page"));
    is_whole(&read);
    assert!(read.text_of("s1-row").contains("can't be read: "));
    let (out, _, status) = said(&["report", "--json", "no-such-file"], b"");
    assert!(
        out.starts_with("{\"file\":\"no-such-file\",\"error\":"),
        "{out}"
    );
    assert_eq!(status, 2);
}

/// A page that can't be written leaves what was there, and nothing half done.
#[test]
fn where_a_page_can_not_be_written() {
    let folder = folder("report-unwritten");
    let script = folder.join("a.script");
    std::fs::write(&script, "main\nend\n").expect("a text");
    let below = folder.join("no/page.html");
    for (page, told) in [
        (name(&folder), "a folder; name a file; no page is written"),
        (name(&below), "make it first; no page is written"),
        ("/dev/full", "no page is written"),
        (
            name(&script),
            "a.script is one of the scripts; name another file for the page",
        ),
    ] {
        let (out, error, status) = said(&["report", "--html", page, name(&script)], b"");
        assert_eq!((out.as_str(), status), ("", 2), "{page}");
        assert!(error.ends_with(&format!("{told}\n")), "{error}");
        assert!(
            error.starts_with("station: ") && error.lines().count() == 1,
            "{error}"
        );
    }
    only(&folder, &["a.script"]);
    assert_eq!(std::fs::read(&script).expect("the script"), b"main\nend\n");
    for words in [
        &["report"][..],
        &["report", "--html", "x"],
        &["report", "a", "--html="],
        &["check", "--html", "x", "a"],
        &["run", "--no-time", "a"],
        &["report", "--json", "--html", "-", "examples/tag.script"],
    ] {
        assert_eq!(status(words, b""), 2, "{words:?}");
    }
}

/// The same bytes each time but for the time; an older page is replaced, also one
/// that is a link.
#[test]
fn the_same_bytes() {
    let folder = folder("report-same");
    let (page, link) = (folder.join("page.html"), folder.join("link.html"));
    std::fs::write(&page, "old").expect("a file");
    std::os::unix::fs::symlink(&page, &link).expect("a link");
    let words = ["report", "--no-time", "--html", name(&link), "examples"];
    assert_eq!(status(&words, b""), 1);
    let first = std::fs::read(&page).expect("a page");
    assert!(std::fs::symlink_metadata(&link)
        .expect("a link")
        .is_symlink());
    only(&folder, &["link.html", "page.html"]);
    assert_eq!(status(&words, b""), 1);
    assert_eq!(std::fs::read(&page).expect("a page"), first);
    for form in [
        &["report", "examples"][..],
        &["report", "--json", "examples"],
    ] {
        let timed = said(form, b"").0;
        let without = said(&[form, &["--no-time"]].concat(), b"").0;
        let again = said(&[form, &["--no-time"]].concat(), b"").0;
        assert_eq!(without, again);
        assert!(timed.contains(" UTC") && !without.contains(" UTC"));
    }
    let text = said(&["report", "--no-time", "examples/tag.script"], b"").0;
    assert!(
        text.lines().all(|line| line.chars().count() <= 78),
        "{text}"
    );
}
