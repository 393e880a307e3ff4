//! Texts of every kind through everything that looks into a text: nothing
//! panics, marks stand in their lines, and pictures are whole.

use crate::cards;
use crate::draw;
use crate::known;
use crate::objects;
use crate::report::{Asked, Report};
use crate::script::{line, Script};
use crate::show::{self, Paint};
use crate::trace;
use crate::{Answers, Model};
use model::machine::Room;

/// A trial and a run: the same, but of a text that check refuses. On the lean
/// machine a person reads the same.
fn looked_into(text: &[u8], steps: u32) {
    let (tried, ran) = (
        looked_at(text, Asked::Trial(steps)),
        looked_at(text, Asked::Run(steps)),
    );
    assert_eq!(ran, if Model.check(text).is_ok() { tried } else { 0 });
    assert_eq!(looked_at(text, Asked::Lean(steps)), ran);
    let said = |asked| show::report(&Report::of(&mut Model, "a", text, asked), Paint(false));
    assert_eq!(said(Asked::Lean(steps)), said(Asked::Run(steps)));
}

/// The steps taken.
fn looked_at(text: &[u8], asked: Asked) -> u32 {
    let report = Report::of(&mut Model, "a", text, asked);
    let ran = report.ran.as_ref();
    let lines = [
        (report.refusal.map(|refusal| refusal.line()), &report.cause),
        (
            ran.map(|ran| ran.outcome.line()),
            ran.map_or(&None, |ran| &ran.cause),
        ),
    ];
    for (number, cause) in lines {
        let Some(mark) = cause.as_ref().and_then(|cause| cause.mark.clone()) else {
            continue;
        };
        let line = number.and_then(|number| line(text, number));
        let length = line.map_or(0, <[u8]>::len);
        assert!(mark.start <= mark.end && mark.end <= length, "{mark:?}");
    }
    let printed = show::report(&report, Paint(true)) + &show::short(&report);
    assert!(!printed.is_empty());
    let object = objects::report(&report).to_string();
    assert!(crate::json::parse(&object).is_some(), "{object}");
    if let Some(script) = Script::of(text) {
        for known in known::all(&script) {
            known::full(&script, &known);
        }
    }
    let ran = ran.map_or(0, |ran| ran.outcome.steps());
    if let Some(script) = Script::of(text) {
        let mut last = 0;
        trace::each(&script, ran, |row| {
            last += 1;
            trace::shown_row(row).ends_with('\n')
        });
        assert_eq!(last, ran);
    }
    if let Some(cards) = cards::after(text, ran) {
        let picture = draw::svg(&cards, "a");
        assert!(picture.ends_with("</svg>\n"));
        assert_eq!(
            picture.matches("<text").count(),
            picture.matches("</text>").count()
        );
        cards.table();
    }
    ran
}

/// The warnings stand in lines of the text, and are shown whole.
fn warned(text: &[u8]) {
    let report = Report::of(&mut Model, "a", text, Asked::Check).warned(&mut Model);
    for warning in report.warnings.iter().flatten() {
        let length = line(text, warning.line).map(<[u8]>::len);
        let mark = warning.mark.clone().unwrap_or_default();
        assert!(
            length.is_some_and(|length| mark.end <= length),
            "{warning:?}"
        );
        assert!(show::short(&report).contains(&warning.text));
    }
    let object = objects::report(&report).to_string();
    assert!(crate::json::parse(&object).is_some(), "{object}");
}

#[test]
fn texts_of_every_kind() {
    for seed in 0..300 {
        warned(&generator::text(0x6100_0000 + seed));
    }
    for seed in 0..1_500 {
        let steps = [0, 1, 7, 100, 1_000][seed as usize % 5];
        looked_into(&generator::text(0x6000_0000 + seed), steps);
    }
    for text in [
        &b""[..],
        b"\n",
        b"\t",
        b"\xff\xfe\n",
        b"main",
        b"end\n",
        b"main\nend\n\n",
        b"if\teq\t0\t0\n",
    ] {
        looked_into(text, 10);
        warned(text);
    }
}

/// Every number that check or run gives is explained by its own cause where the
/// generator makes it.
#[test]
fn near_misses_have_causes() {
    let mut rng = generator::rng::Rng::new(7);
    for number in 2..=14 {
        for _ in 0..20 {
            let text = generator::text_of(&mut rng, generator::Kind::Miss(number));
            let report = Report::of(&mut Model, "a", &text, Asked::Check);
            assert_eq!(report.refusal.is_some(), report.cause.is_some());
        }
    }
}

/// Where the model answers otherwise than the library, no cause is given.
#[test]
fn no_cause_of_another_answer() {
    let refusal = |text: &[u8]| Model.check(text).err();
    let (one, other) = (&b"main\nlet\ta\t7\nend\n"[..], &b"main\nlet\ta\nend\n"[..]);
    let found = refusal(one).expect("it is refused");
    assert!(crate::cause::cause(one, found).is_some());
    assert_eq!(crate::cause::cause(other, found), None);
    assert_eq!(crate::cause::cause(b"main\nend\n", found), None);
    assert_eq!(
        crate::cause::stop_cause(b"main\nend\n", Room::WHOLE, 0, 26),
        None
    );
}
