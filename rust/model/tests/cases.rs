//! Every case of `cases`, through the calls for the host and the program: those
//! of document 01 with the answers of the present level, and those of document
//! 02, of which a file has the answers of its own level. The run of a file from
//! before W7 is trial now.

use model::limits::{
    BOUND_BYTES, COUNT_BYTES, PLACE_BYTES, RESULT_BYTES, SCRIPT_BYTES, WORK_BYTES,
};
use model::{
    bound_call, check_call, count_call, fill_call, lean_call, printed, run_call, small, trial_call,
};
use std::collections::HashMap;

/// The cases of document 01.
const BASE: &str = include_str!("cases/base.tsv");
/// Those of them that have another answer at the present level, and those that
/// had another before W7: the answers of trial.
const BASE_NOW: &str = include_str!("cases/base-at-w7.tsv");
const BASE_BEFORE: &str = include_str!("cases/base-at-w3.tsv");

/// The cases of a level: the request, the file, how many there are, and the
/// lines of the file that a later request gives another answer.
type Level = (&'static str, &'static str, usize, &'static [usize]);

const BEFORE_W7: &[Level] = &[
    // W2: texts with a `return`; W3: facts that stay, and `v = v` that goes.
    (
        "W1",
        include_str!("cases/w1.tsv"),
        162,
        &[75, 119, 122, 123, 133, 155, 156, 175, 182, 199, 205],
    ),
    ("W2", include_str!("cases/w2.tsv"), 159, &[156]),
    ("W3", include_str!("cases/w3.tsv"), 137, &[]),
    ("W4", include_str!("cases/w4.tsv"), 170, &[]),
    // W8: a loop with `read` in its invariant.
    ("W5", include_str!("cases/w5.tsv"), 177, &[37]),
    ("W6", include_str!("cases/w6.tsv"), 139, &[]),
];

const SINCE_W7: &[Level] = &[
    ("W7", include_str!("cases/w7.tsv"), 186, &[]),
    ("W8", include_str!("cases/w8.tsv"), 164, &[]),
    ("W9", include_str!("cases/w9.tsv"), 227, &[]),
    ("W10", include_str!("cases/w10.tsv"), 186, &[]),
    ("W11", include_str!("cases/w11.tsv"), 147, &[]),
    ("W12", include_str!("cases/w12.tsv"), 136, &[]),
    ("W13", include_str!("cases/w13.tsv"), 144, &[]),
    ("W14", include_str!("cases/w14.tsv"), 192, &[]),
];

/// Which call a file's `run` is.
#[derive(Clone, Copy, PartialEq)]
enum Runs {
    Run,
    Trial,
}

/// A call of a file: `check`, `check/W`, `run` or `run/W/R` and so on, or one of the
/// programs.
struct Case<'a> {
    call: &'a str,
    work: usize,
    /// The length of the second area; check has none.
    second: usize,
    /// The steps; of a count the scripts, the rounds and the four shares.
    numbers: Vec<u32>,
    /// The text, or the four of a count.
    texts: Vec<Vec<u8>>,
}

fn bytes(hex: &str) -> Vec<u8> {
    if hex == "-" {
        return Vec::new();
    }
    assert_eq!(hex.len() % 2, 0);
    (0..hex.len() / 2)
        .map(|at| u8::from_str_radix(&hex[2 * at..2 * at + 2], 16).expect("hex"))
        .collect()
}

fn parse(left: &str, runs: Runs) -> Case<'_> {
    let fields: Vec<&str> = left.split(' ').collect();
    let mut call = fields[0].split('/');
    let name = match (call.next().expect("a call"), runs) {
        ("run", Runs::Trial) => "trial",
        (name, _) => name,
    };
    let mut length = |usual| call.next().map_or(usual, |n| n.parse().expect("a length"));
    let usual = match name {
        "run" | "trial" | "lean" => RESULT_BYTES,
        "bound" => BOUND_BYTES,
        "fill" => PLACE_BYTES,
        "count" => COUNT_BYTES,
        _ => 0,
    };
    let (work, second) = (length(WORK_BYTES), length(usual));
    let (numbers, texts) = match (name, &fields[1..]) {
        ("small", none @ []) => (none, none),
        ("check" | "bound" | "fill" | "program", texts @ [_]) => (&[][..], texts),
        ("run" | "trial" | "lean", both @ [_, _]) => both.split_at(1),
        ("count", all @ [_, _, _, _, _, _, _, _, _, _]) => all.split_at(6),
        _ => panic!("no call: {left}"),
    };
    let number = |word: &&str| word.parse().expect("a number");
    Case {
        call: name,
        work,
        second,
        numbers: numbers.iter().map(number).collect(),
        texts: texts.iter().map(|hex| bytes(hex)).collect(),
    }
}

/// What the second area holds: words; the places, a byte each; or for each script of
/// a count what run returns, and words.
fn decoded(call: &str, area: &[u8]) -> Vec<i64> {
    let script = |bytes: &[u8]| {
        let (first, rest) = bytes.split_at(SCRIPT_BYTES - RESULT_BYTES);
        let returned = words(first)[0];
        [&[returned / 65_536, returned % 65_536], &words(rest)[..]].concat()
    };
    match call {
        "fill" => area.iter().copied().map(i64::from).collect(),
        "count" => area.chunks(SCRIPT_BYTES).flat_map(script).collect(),
        _ => words(area),
    }
}

/// The steps, unsigned, and twelve signed values; or the bound and the frames, which
/// are small.
fn words(area: &[u8]) -> Vec<i64> {
    area.chunks(4)
        .enumerate()
        .map(|(at, four)| {
            let four: [u8; 4] = four.try_into().expect("four bytes");
            match at {
                0 => i64::from(u32::from_le_bytes(four)),
                _ => i64::from(i32::from_le_bytes(four)),
            }
        })
        .collect()
}

/// What the call returns.
fn returned(case: &Case, work: &mut [u8], second: &mut [u8]) -> u32 {
    let text = case.texts[0].as_slice();
    match case.call {
        "check" => check_call(text, work),
        "bound" => bound_call(text, work, second),
        "fill" => fill_call(text, work, second),
        "run" => run_call(text, work, case.numbers[0], second),
        "trial" => trial_call(text, work, case.numbers[0], second),
        "lean" => lean_call(text, work, case.numbers[0], second),
        "count" => {
            let texts = std::array::from_fn(|at| case.texts[at].as_slice());
            let shares = std::array::from_fn(|at| case.numbers[2 + at]);
            let [scripts, rounds] = [case.numbers[0], case.numbers[1]];
            count_call(scripts, rounds, texts, work, shares, second)
        }
        other => panic!("no call: {other}"),
    }
}

/// Makes the call over areas full of garbage and gives its answer as the file
/// has it; the areas must be as document 01 says.
fn answer(case: &Case) -> String {
    let program = match case.call {
        "program" => Some(printed(&case.texts[0])),
        "small" => Some(small().into_bytes()),
        _ => None,
    };
    if let Some(printed) = program {
        return printed.iter().map(|byte| format!("{byte:02x}")).collect();
    }
    let mut work = vec![0xa5; case.work];
    let mut second = vec![0x5a; case.second];
    let returned = returned(case, &mut work, &mut second);
    let mut answer = vec![i64::from(returned / 65_536), i64::from(returned % 65_536)];
    let refused = answer[0] == 1;
    let rest = if refused { 0xa5 } else { 0 };
    assert!(work.iter().all(|&byte| byte == rest), "the work area");
    if refused {
        assert!(second.iter().all(|&byte| byte == 0x5a), "the second area");
    } else {
        answer.extend(decoded(case.call, &second));
    }
    let answer: Vec<String> = answer.iter().map(i64::to_string).collect();
    answer.join(" ")
}

/// The cases of a file: the number of the line, the call, the answer.
fn cases(file: &str) -> impl Iterator<Item = (usize, &str, &str)> {
    let lines = file.lines().zip(1..);
    lines
        .filter(|(line, _)| !line.starts_with('#'))
        .map(|(line, at)| {
            let (call, answer) = line.split_once(" = ").expect("an answer");
            (at, call, answer)
        })
}

/// The case told, if its answer is another one.
fn wrong(call: &str, runs: Runs, expected: &str) -> Option<String> {
    let case = parse(call, runs);
    let answer = answer(&case);
    let (name, numbers) = (case.call, case.numbers);
    let text = String::from_utf8_lossy(&case.texts.concat()).into_owned();
    (answer != expected)
        .then(|| format!("{name} {numbers:?}: {answer}, expected {expected}\n{text}"))
}

/// The cases of document 01 with the answers of a level.
fn every_case_with(others: &str, runs: Runs) {
    let now: HashMap<&str, &str> = cases(others).map(|(_, call, new)| (call, new)).collect();
    let mut count = 0;
    let mut moved = 0;
    for (line, call, answer) in cases(BASE) {
        count += 1;
        let new = now.get(call).copied();
        moved += usize::from(new.is_some());
        let wrong = wrong(call, runs, new.unwrap_or(answer));
        assert_eq!(wrong, None, "line {line}");
    }
    assert_eq!(count, 533, "all cases are read");
    assert_eq!(moved, now.len(), "each other answer is of a case");
}

#[test]
fn every_case_of_document_01() {
    every_case_with(BASE_NOW, Runs::Run);
    every_case_with(BASE_BEFORE, Runs::Trial);
}

#[test]
fn every_case_of_document_02() {
    every_case_of(BEFORE_W7, Runs::Trial);
    every_case_of(SINCE_W7, Runs::Run);
}

fn every_case_of(levels: &[Level], runs: Runs) {
    for &(request, file, all, moved) in levels {
        let mut count = 0;
        let mut others = Vec::new();
        let mut told = String::new();
        for (line, call, answer) in cases(file) {
            count += 1;
            if let Some(wrong) = wrong(call, runs, answer) {
                others.push(line);
                if !moved.contains(&line) {
                    told.push_str(&format!("line {line}: {wrong}\n"));
                }
            }
        }
        assert_eq!(count, all, "all cases of {request} are read");
        assert_eq!(others, moved, "the moved answers of {request}\n{told}");
    }
}
