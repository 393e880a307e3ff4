//! `station count`: of each script what `station run` says of it alone; shares, rounds
//! and files that are wrong.

mod common;

use common::{folder, said};
use explain::json::{parse, Json};

const NORTH: &str = "examples/north.script";
const SOUTH: &str = "examples/south.script";

/// What is printed after the line with the shares.
fn parted(out: &str) -> (&str, &str) {
    out.split_once('\n').unwrap_or((out, ""))
}

#[test]
fn each_as_alone() {
    let files = [
        "examples/tag.script",
        "examples/lost.script",
        "examples/stopped-27.script",
        "examples/chain.script",
    ];
    for rounds in ["0", "1", "7", "1000"] {
        let alone = files.map(|file| said(&["run", "--steps", rounds, file], b""));
        for count in 1..=files.len() {
            let words = [&["count", "--rounds", rounds][..], &files[..count]].concat();
            let (out, error, status) = said(&words, b"");
            assert_eq!(error, "");
            let (_, rest) = parted(&out);
            let told: String = alone[..count]
                .iter()
                .map(|(out, ..)| out.as_str())
                .collect();
            assert_eq!(rest, told);
            let worst = alone[..count].iter().map(|(.., status)| *status).max();
            assert_eq!(Some(status), worst);
        }
    }
}

/// What is said of the shares, given or not.
#[test]
fn shares_and_rounds() {
    let four = [NORTH, SOUTH, SOUTH, NORTH];
    for (options, files, head) in [
        (
            &[][..],
            1,
            "1 script, 1,000 rounds: a share of 256 objects (equal parts of 256)",
        ),
        (
            &[],
            2,
            "2 scripts, 1,000 rounds: shares of 128 and 128 objects (equal parts of 256)",
        ),
        (
            &[],
            3,
            "3 scripts, 1,000 rounds: shares of 85, 85 and 85 objects (equal parts of 256)",
        ),
        (
            &["--rounds=1"],
            4,
            "4 scripts, 1 round: shares of 64, 64, 64 and 64 objects (equal parts of 256)",
        ),
        (
            &["--shares", "1"],
            1,
            "1 script, 1,000 rounds: a share of 1 object",
        ),
        (
            &["--shares=4,252"],
            2,
            "2 scripts, 1,000 rounds: shares of 4 and 252 objects",
        ),
    ] {
        let words = [&["count"][..], options, &four[..files]].concat();
        let (out, error, _) = said(&words, b"");
        assert_eq!((parted(&out).0, error.as_str()), (head, ""));
    }
}

/// The north makes four cards: a share of four is enough, and one of three stops it at
/// the fourth, whatever the south has.
#[test]
fn a_share_that_is_full() {
    let (alone, _, _) = said(&["run", NORTH], b"");
    let (out, _, status) = said(&["count", "--shares", "4,1", NORTH, SOUTH], b"");
    assert_eq!(status, 0);
    assert!(parted(&out).1.starts_with(&alone), "{out}");
    let (out, _, status) = said(&["count", "--shares", "3,253", NORTH, SOUTH], b"");
    assert_eq!(status, 1);
    for part in [
        "north.script:12: stopped after 27 steps, number 22: the heap is full: 3 objects with 6 \
         fields are made already, and the share has 3 with 12\n",
        "south.script:22: finished after 14 steps\n",
    ] {
        assert!(out.contains(part), "{part} in {out}");
    }
}

#[test]
fn not_counted() {
    for (shares, cause) in [
        (
            "0,256",
            "number 19: the share of `examples/north.script` is 0\n",
        ),
        ("256,1", "number 19: the shares are 257 together\n"),
        (
            "4294967295,4294967295",
            "number 19: the shares are 8,589,934,590 together\n",
        ),
    ] {
        let (out, error, status) = said(&["count", "--shares", shares, NORTH, SOUTH], b"");
        assert_eq!((error.as_str(), status), ("", 1));
        assert!(
            out.starts_with("not counted, number 19: the share"),
            "{out}"
        );
        assert!(out.contains(cause), "{cause} in {out}");
        let (out, _, status) = said(&["count", "--json", "--shares", shares, NORTH, SOUTH], b"");
        assert_eq!((out.lines().count(), status), (2, 1));
        for line in out.lines() {
            let number = parse(line).and_then(|object| object.get("number")?.int());
            assert_eq!(number, Some(19), "{line}");
        }
    }
}

/// Wrong use says what is taken, and no script is run.
#[test]
fn wrong_use() {
    for (words, why) in [
        (
            &["count"][..],
            "count takes FILE.., at most 4, and 0 were given",
        ),
        (
            &["count", "a", "b", "c", "d", "e"],
            "count takes FILE.., at most 4, and 5 were given",
        ),
        (
            &["count", "--shares", "1,2", "a"],
            "a number for each script: scripts 1, shares 2",
        ),
        (
            &["count", "--shares", "1", "a", "b"],
            "a number for each script: scripts 2, shares 1",
        ),
        (
            &["count", "--shares", "", "a"],
            "separated by commas, not \"\"",
        ),
        (
            &["count", "--shares", "1,,2", "a", "b"],
            "separated by commas, not \"1,,2\"",
        ),
        (
            &["count", "--shares", "1, 2", "a", "b"],
            "separated by commas, not \"1, 2\"",
        ),
        (
            &["count", "--shares", "-1", "a"],
            "separated by commas, not \"-1\"",
        ),
        (
            &["count", "--shares", "4294967296", "a"],
            "separated by commas",
        ),
        (
            &["count", "--rounds", "x", "a"],
            "--rounds takes 0 to 4294967295, not \"x\"",
        ),
        (&["count", "--steps", "9", "a"], "--steps goes with run"),
        (
            &["run", "--rounds", "9", "a"],
            "--rounds goes with count, not with run",
        ),
        (
            &["run", "--shares", "9", "a"],
            "--shares goes with count, not with run",
        ),
        (&["count", NORTH, "no-such-file"], "no-such-file: "),
    ] {
        let (out, error, status) = said(words, b"");
        assert_eq!((out.as_str(), status), ("", 2), "{words:?}");
        assert!(error.contains(why), "{words:?}: {error}");
    }
}

/// Counts of every kind: the numbers, lines and steps are the model's.
#[test]
fn random_counts() {
    let folder = folder("counts");
    let mut seen = [0; 28];
    for seed in 0x7200_0000..0x7200_0080 {
        let day = generator::count_day(seed);
        let scripts = (day.scripts as usize).clamp(1, 4);
        let files: Vec<String> = (0..scripts)
            .map(|at| {
                let file = folder.join(format!("{at}.script"));
                std::fs::write(&file, &day.texts[at]).expect("written");
                file.to_str().expect("a name").to_string()
            })
            .collect();
        let shares = day.shares[..scripts].iter().map(u32::to_string);
        let shares = shares.collect::<Vec<_>>().join(",");
        let rounds = day.rounds.to_string();
        let mut words = vec!["count", "--json", "--rounds", &rounds, "--shares", &shares];
        words.extend(files.iter().map(String::as_str));
        let (out, error, status) = said(&words, b"");
        assert_eq!((error.as_str(), out.lines().count()), ("", scripts));
        let texts = day.texts.each_ref().map(Vec::as_slice);
        let model = model::count(scripts as u32, day.rounds, texts, day.shares);
        let mut finished = model.number == 0;
        for (line, run) in out.lines().zip(model.scripts) {
            let object = parse(line).unwrap_or_else(|| panic!("no JSON: {line}"));
            let int = |name: &str| object.get(name).and_then(Json::int);
            let number = if model.number == 0 {
                run.number
            } else {
                model.number
            };
            assert_eq!(int("number"), Some(number.into()));
            assert_eq!(int("line"), Some(run.line.into()));
            assert_eq!(int("steps").unwrap_or(0), i64::from(run.steps));
            let explained = matches!(number, 0 | 21) || object.get("cause").is_some();
            assert!(explained, "{line}");
            finished &= number == 0;
            seen[number as usize] += 1;
        }
        assert_eq!(status, i32::from(!finished));
    }
    assert!(
        seen[0] > 20 && seen[19] > 2 && seen[21] > 20 && seen[22] > 10,
        "{seen:?}"
    );
}
