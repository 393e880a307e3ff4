//! No warning is false: each is put to the machine. A name that is never used may be
//! left out or renamed, what nothing needs is left out and the text checked again, and
//! of lines that no run reaches the run does none. The texts are the examples, the
//! scripts of the command's tests and those of the generator.

mod common;

use common::scripts;
use explain::warn::{warnings, Kind, Warning};
use explain::Model;
use model::machine::{Machine, Step};

/// So many steps of a run that does not finish are looked at.
const STEPS: u32 = 200_000;

fn lines(text: &[u8]) -> Vec<Vec<u8>> {
    let lines = text.split_inclusive(|&byte| byte == b'\n');
    lines.map(<[u8]>::to_vec).collect()
}

/// The text without some lines, counted from 1.
fn without_lines(text: &[u8], gone: impl Fn(u32) -> bool) -> Vec<u8> {
    let lines = lines(text).into_iter().zip(1..);
    let kept = lines.filter(|(_, number)| !gone(*number));
    kept.flat_map(|(line, _)| line).collect()
}

/// The text with another line in the place of one.
fn with_line(text: &[u8], number: u32, change: impl Fn(&str) -> String) -> Vec<u8> {
    let mut lines = lines(text);
    let old = String::from_utf8(lines[number as usize - 1].clone()).expect("ASCII");
    lines[number as usize - 1] = (change(old.trim_end()) + "\n").into_bytes();
    lines.concat()
}

/// The line without the atom, with blanks for tabs, that a warning names.
fn without_atom(line: &str, atom: &str) -> String {
    let atom = format!("\t{}", atom.replace(' ', "\t"));
    let at = format!("{line}\t").find(&format!("{atom}\t"));
    let at = at.unwrap_or_else(|| panic!("{atom} is not in {line}"));
    format!("{}{}", &line[..at], &line[at + atom.len()..])
}

/// What stands between the first two signs.
fn quoted(text: &str) -> &str {
    text.split('`').nth(1).expect("a quoted part")
}

/// The words of the field that a warning marks.
fn marked(text: &[u8], warning: &Warning) -> String {
    let line = &lines(text)[warning.line as usize - 1];
    let mark = warning.mark.clone().expect("a mark");
    String::from_utf8(line[mark].to_vec()).expect("ASCII")
}

fn accepted(text: &[u8]) -> bool {
    model::check(text) == (0, 0)
}

/// The lines that a run does, of at most that many steps.
fn done(text: &[u8]) -> Vec<bool> {
    let program = model::read(text).expect("a text that is read");
    let mut done = vec![false; lines(text).len() + 1];
    let mut machine = Machine::new(&program);
    while machine.steps < STEPS {
        let line = machine.statement().line;
        let step = machine.step();
        if step.is_ok() {
            done[line as usize] = true;
        }
        if step != Ok(Step::On) {
            break;
        }
    }
    done
}

/// The number of check, and the run but for main's variables.
fn answers(text: &[u8]) -> (u32, u32, u32) {
    let run = model::trial(text, STEPS);
    (model::check(text).0, run.number, run.steps)
}

fn closes(line: &[u8]) -> bool {
    matches!(line.trim_ascii_end(), b"else" | b"again" | b"end" | b"join")
        || line.starts_with(b"join\t")
}

fn holds(text: &[u8], warning: &Warning) {
    let said = &warning.text;
    match warning.kind {
        Kind::UnusedVariable => {
            let less = without_lines(text, |line| line == warning.line);
            assert_eq!(answers(&less), answers(text), "{said}");
        }
        Kind::UnusedParameter => {
            let name = marked(text, warning);
            assert_eq!(name, quoted(said));
            let other = with_line(text, warning.line, |line| {
                format!("{}Other", line.strip_suffix(&name).expect("the last field"))
                    .replace("\tOther", "\tunnamed")
            });
            assert_eq!(answers(&other), answers(text), "{said}");
        }
        Kind::UnusedMethod => {
            assert!(!done(text)[warning.line as usize..]
                .iter()
                .zip(&lines(text)[warning.line as usize - 1..])
                .take_while(|(_, line)| *line != b"end\n")
                .any(|(done, _)| *done));
        }
        Kind::UnusedPermission => {
            let atom = quoted_last(said);
            let mut less = with_line(text, warning.line, |line| less_at(line, warning));
            for other in numbers(said.split("and in line").nth(1).unwrap_or_default()) {
                less = with_line(&less, other, |line| without_atom(line, atom));
            }
            assert!(accepted(&less), "{said}");
        }
        Kind::UnneededAtom => {
            let less = with_line(text, warning.line, |line| less_at(line, warning));
            assert!(accepted(&less), "{said}");
        }
        Kind::Unreached => {
            let done = done(text);
            let (first, last) = (warning.line as usize, warning.last as usize);
            assert!(first <= last && last < done.len(), "{said}");
            assert!(!done[first..=last].contains(&true), "{said}");
            assert!(!closes(&lines(text)[first - 1]), "{said}");
        }
        _ => panic!("a kind without a test: {said}"),
    }
}

/// The numbers of a text.
fn numbers(text: &str) -> Vec<u32> {
    let words = text.split(|letter: char| !letter.is_ascii_digit());
    words.filter_map(|word| word.parse().ok()).collect()
}

/// What stands between the last two signs.
fn quoted_last(text: &str) -> &str {
    text.rsplit('`').nth(1).expect("a quoted part")
}

/// The line without what the warning marks.
fn less_at(line: &str, warning: &Warning) -> String {
    let mark = warning.mark.clone().expect("a mark");
    format!("{}{}", &line[..mark.start - 1], &line[mark.end..])
}

/// What nothing needs, left out all at once; a permission in `ensures` too.
fn all_left_out(text: &[u8], found: &[Warning], kind: Kind) -> Vec<u8> {
    let mut less = text.to_vec();
    let mut gone: Vec<&Warning> = found
        .iter()
        .filter(|warning| warning.kind == kind)
        .collect();
    gone.reverse();
    for warning in gone {
        less = with_line(&less, warning.line, |line| less_at(line, warning));
    }
    less
}

/// Tries every warning of a text: how many of each kind.
fn tried(text: &[u8], counts: &mut [usize; 6]) {
    let found = warnings(&mut Model, text);
    for warning in &found {
        counts[warning.kind as usize] += 1;
        holds(text, warning);
    }
    if found
        .iter()
        .any(|warning| warning.kind == Kind::UnneededAtom)
    {
        let less = all_left_out(text, &found, Kind::UnneededAtom);
        assert!(accepted(&less), "all atoms together");
    }
}

#[test]
fn every_warning_is_true() {
    let mut counts = [0; 6];
    for folder in ["../../examples", "../cli/tests/scripts"] {
        for text in scripts(folder) {
            tried(&text, &mut counts);
        }
    }
    for seed in 0..250 {
        tried(&generator::text(0x9100_0000 + seed), &mut counts);
    }
    println!("{counts:?}");
    assert!(counts.iter().all(|&count| count > 20), "{counts:?}");
}

fn script(lines: &str) -> Vec<u8> {
    lines.replace(' ', "\t").replace('|', "\n").into_bytes()
}

/// The lines that no run reaches, by each way to know it.
#[test]
fn lines_that_no_run_reaches() {
    let method = |body: &str, main: &str| {
        format!("class C|field int n|method int m int k|{body}|end|main|var C c|var int r|var int k|{main}|end|")
    };
    let calls = "new c C|call r c m k";
    for (text, first, last, why) in [
        // Known by the checker, also where the run does not finish.
        (
            "main|var int a|let a 1|if eq a 2|let a 3|let a 4|else|join|end|".to_string(),
            5,
            6,
            "`eq a 2` (line 4) is never true",
        ),
        (
            "main|var int a|let a 1|if eq a 1|else|let a 4|join|end|".to_string(),
            6,
            6,
            "`eq a 1` (line 4) is always true",
        ),
        (
            "main|var int a|loop ne 1 1|let a 3|again|end|".to_string(),
            4,
            4,
            "`ne 1 1` (line 3) is never true",
        ),
        (
            "main|var int a|loop eq 1 1|let a 3|again|let a 4|let a 5|end|".to_string(),
            6,
            7,
            "the loop of line 3 is never left, since `eq 1 1` is always true",
        ),
        (
            method(
                "requires|ensures|if eq k 1|return k|else|return k|join|assert|assert",
                calls,
            ),
            11,
            12,
            "every way there returns before",
        ),
        // Known by the run alone: the checker does not compute.
        (
            "main|var int a|var int b|let a 1|add a a a|if eq a 3|let b 1|else|join|end|"
                .to_string(),
            7,
            7,
            "its run finishes after 5 steps without coming there",
        ),
        // A method that is called on no line that is reached.
        (
            method(
                "requires|ensures|return k",
                "new c C|if eq 1 2|call r c m k|else|join",
            ),
            3,
            7,
            "no run reaches a line that calls it",
        ),
        (
            method(
                "requires|ensures|return k",
                "new c C|add k k k|if eq k 2|call r c m k|else|join",
            ),
            3,
            7,
            "its run finishes after 5 steps without coming there",
        ),
    ] {
        let text = script(&text);
        assert!(accepted(&text), "{why}");
        let found = warnings(&mut Model, &text);
        let mut unreached = found.iter().filter(|one| one.kind == Kind::Unreached);
        let told = unreached.find(|one| one.text.ends_with(why));
        let told = told.unwrap_or_else(|| panic!("{why}: {found:?}"));
        assert_eq!((told.line, told.last), (first, last), "{why}");
        tried(&text, &mut [0; 6]);
    }
}

/// What has its use is not told, and neither are lines that have to stand there.
#[test]
fn no_warning() {
    for text in [
        // A branch that returns, and one that has nothing to do.
        "main|var int a|if eq a 0|let a 1|else|join|end|",
        "class C|method int m int k|requires|ensures|if eq k 0|return k|else|return k|join|end|main\
         |var C c|var int r|var int k|new c C|call r c m k|let k 1|call r c m k|end|",
        // A `loop` that ends, and its invariant.
        "class C|field int n|main|var C c|var int a|var int k|new c C|let k 1\
         |loop ne a 3 acc c n|add a a k|set c n a|again|end|",
    ] {
        let text = script(text);
        let found = warnings(&mut Model, &text);
        assert_eq!(found, [], "{}", String::from_utf8_lossy(&text));
    }
}
