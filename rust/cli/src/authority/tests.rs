//! What is read off the text holds in every run, and no verdict on a stop is one
//! that the library contradicts.

mod methods;

use super::findings::Findings;
use super::stops::{self, Verdict};
use crate::library::Library;
use nuyardi::Stop;

/// The generator's texts that check accepts, and the examples.
fn accepted() -> Vec<Vec<u8>> {
    let root = std::path::Path::new(env!("CARGO_MANIFEST_DIR")).join("../..");
    let entries = std::fs::read_dir(root.join("examples")).expect("examples");
    let examples = entries.map(|entry| std::fs::read(entry.expect("an entry").path()));
    let examples = examples.map(|text| text.expect("a text"));
    let made = (0..1_200).map(|seed| generator::text(0x7a00_0000 + seed));
    let all = examples.chain(made);
    all.filter(|text| nuyardi::check(text).is_ok()).collect()
}

/// A run that ends with a number and a line agrees with the row of its stop.
fn agrees(findings: &Findings, number: u32, line: u32, steps: u32) {
    let rows = stops::rows(findings);
    let row = rows.iter().find(|row| row.stop.number() == number);
    match &row.expect("a row for each stop").verdict {
        Verdict::Never => panic!("{number} at line {line} comes"),
        Verdict::NotWith(most) => assert!(steps < *most, "{number} with {steps} steps"),
        Verdict::Comes { line: told, .. } => {
            assert!(*told == line || number == Stop::OutOfSteps.number());
        }
        Verdict::Possible(lines) => {
            assert!(
                lines.is_empty() || lines.contains(&line),
                "{number} at line {line}"
            );
        }
    }
}

/// Whatever steps the report's own run was allowed, no run contradicts it.
#[test]
fn stops_that_come_are_told() {
    let mut seen = [0; 28];
    for text in accepted() {
        for told in [None, Some(5)] {
            let findings = Findings::of(&mut Library::default(), "a", &text, told, None);
            for steps in [0, 1, 7, 60, 1_000, 20_000] {
                let outcome = nuyardi::run(&text, steps).expect("an accepted text");
                seen[outcome.number() as usize] += 1;
                if !outcome.finished() {
                    agrees(&findings, outcome.number(), outcome.line(), steps);
                }
            }
        }
    }
    for number in [0, 21, 22, 23, 27] {
        assert!(seen[number] > 0, "{number}: {seen:?}");
    }
}

/// A script whose methods call each other in a row, so many frames with main's.
fn row_of_calls(frames: usize) -> Vec<u8> {
    let mut text = String::from("class\tS\n");
    for number in 1..frames {
        let next = match number + 1 < frames {
            true => format!("var\tint\ta\ncall\ta\tthis\tm{}\tk\n", number + 1),
            false => String::new(),
        };
        text += &format!(
            "method\tint\tm{number}\tint\tk\nrequires\tne\tthis\tnull\nensures\n{next}end\n"
        );
    }
    text += "main\nvar\tS\ts\nvar\tint\ta\nvar\tint\tb\nnew\ts\tS\ncall\tb\ts\tm1\ta\nend\n";
    text.into_bytes()
}

/// 23 is ruled out by the bound up to all frames that there are, and comes with one more.
#[test]
fn frames_up_to_the_last() {
    for (frames, comes) in [(63, false), (64, false), (65, true)] {
        let text = row_of_calls(frames);
        let bound = nuyardi::bound(&text).expect("a bound");
        assert_eq!(bound.frames as usize, frames);
        let ended = nuyardi::run(&text, bound.steps).expect("an accepted text");
        assert_eq!(ended.number(), if comes { 23 } else { 0 });
        // With five steps the run of the report does not come so far.
        let findings = Findings::of(&mut Library::default(), "a", &text, Some(5), None);
        let rows = stops::rows(&findings);
        let row = rows.iter().find(|row| row.stop == Stop::FramesFull);
        let row = row.expect("a row for each stop");
        let expected = match comes {
            true => (Verdict::Possible(vec![ended.line()]), "count"),
            false => (Verdict::Never, "theorem"),
        };
        assert_eq!((row.verdict.clone(), row.basis.word()), expected);
    }
}

/// A text that is refused, or in no form, gives a report of every kind.
#[test]
fn texts_of_every_kind() {
    for seed in 0..400 {
        let text = generator::text(0x7b00_0000 + seed);
        let findings = Findings::of(&mut Library::default(), "a", &text, None, None);
        let refused = nuyardi::check(&text).is_err();
        assert_eq!(findings.refusal().is_some(), refused);
        let printed = super::text::report(&findings);
        assert!(printed.contains("\nWhat is assumed\n"), "{printed}");
        let object = super::object::report(&findings).to_string();
        assert!(explain::json::parse(&object).is_some(), "{object}");
        let entries = [super::index::Entry::Found(Box::new(findings))];
        let page = super::page::page(&entries, seed % 2 == 0);
        assert!(page.ends_with("</html>\n"));
    }
}
