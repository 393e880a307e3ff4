//! What is called a limit of the language is one: no atom of a contract gets past it, and
//! the guide has the page that the message points to.

mod common;

use common::refused;
use explain::cause::limits::PAGE;
use explain::script::Script;
use explain::{Asked, Model, Report};
use std::path::Path;

/// The atoms that a `requires` may have for a permission to a path.
fn permissions(script: &Script, block: usize) -> Vec<String> {
    let Some(header) = script.program.blocks[block].header else {
        return Vec::new();
    };
    let param = (header.param.name, header.param.kind);
    let this = (&b"this"[..], model::names::Type::Class(header.class));
    let mut atoms = Vec::new();
    for (name, kind) in [this, param] {
        let model::names::Type::Class(class) = kind else {
            continue;
        };
        let class = &script.program.classes[script.program.class(class).expect("a class")];
        for field in &class.fields {
            let (name, field) = (
                explain::script::shown(name),
                explain::script::shown(field.name),
            );
            atoms.push(format!("acc\t{name}\t{field}"));
        }
    }
    atoms
}

/// With no permission that a contract can ask for does the check get past a line that
/// reads or writes a card behind a link.
#[test]
fn what_no_contract_says() {
    let mut tried = 0;
    let walks = [
        "class C|field C prev|field int tag|method int m int none|requires acc this prev|ensures\
         |var C p|var int k|let p this.prev|let k p.tag|return k|end|main|end|",
        "class C|field C prev|field int tag|method int m int none|requires ne this null chain \
         this prev|ensures|var C p|var int k|open p this prev|set p tag k|return k|end|main|end|",
        "class D|field int n|class C|field D d|method int m C w|requires acc this d acc w d\
         |ensures|var D p|var int k|let p w.d|let k p.n|return k|end|main|end|",
    ];
    let walks = walks.map(|text| text.replace(' ', "\t").replace('|', "\n").into_bytes());
    for text in refused().into_iter().chain(walks) {
        let report = Report::of(&mut Model, "a", &text, Asked::Check);
        let refusal = report.refusal.expect("it is refused");
        let cause = report.cause.as_ref().expect("a cause");
        let limit = |note: &&String| note.contains("behind the link");
        if !cause.notes.iter().any(|note| limit(&note)) {
            continue;
        }
        assert!(cause
            .notes
            .iter()
            .find(limit)
            .expect("a note")
            .contains(PAGE));
        let script = Script::of(&text).expect("a text that is read");
        let place = script.statement_at(refusal.line()).expect("a statement");
        let block = script.block_of(place);
        let (requires, _) = script.contract_lines(block);
        for atom in permissions(&script, block) {
            let mut lines: Vec<Vec<u8>> = text.split(|&b| b == b'\n').map(<[u8]>::to_vec).collect();
            lines[requires as usize - 1].extend(format!("\t{atom}").into_bytes());
            let (number, line) = model::check(&lines.join(&b'\n'));
            assert!(
                number != 0 && line <= refusal.line(),
                "{atom}: {number} at {line}"
            );
            tried += 1;
        }
    }
    assert!(tried > 5, "{tried}");
}

/// The limits that are not about cards point to the same page.
#[test]
fn limits_point_to_the_guide() {
    for text in [
        "main|var int a|add a a a|assert eq a 2|end|",
        "class C|field C prev|main|var C a|var C b|new a C|new b C|set a prev b|set b prev a\
         |shut b prev|end|",
        "class C|field C prev|main|var C a|var C b|new a C|let b a.prev.prev|end|",
    ] {
        let text = text.replace(' ', "\t").replace('|', "\n");
        let report = Report::of(&mut Model, "a", text.as_bytes(), Asked::Check);
        let cause = report.cause.expect("a cause");
        let pointed = cause
            .notes
            .iter()
            .filter(|note| note.contains(PAGE))
            .count();
        assert_eq!(pointed, 1, "{:?}", cause.notes);
    }
    let guide = Path::new(env!("CARGO_MANIFEST_DIR")).join("../../docs/LANGUAGE.md");
    let guide = std::fs::read_to_string(guide).expect("the guide");
    let title = PAGE.split('"').nth(1).expect("a title");
    assert!(guide.contains(&format!("\n## {title}\n")), "{title}");
}
