//! Command lines that are understood and such that are not, hostile ones among them.

use super::*;
use generator::rng::Rng;
use std::os::unix::ffi::OsStringExt;

fn tried(line: &str) -> Result<Parsed, Misuse> {
    parse(line.split_whitespace().map(OsString::from))
}

#[test]
fn understood() {
    let run = tried("run --steps=7 a --cards --color never --lean").unwrap();
    assert_eq!(
        (run.command, run.steps, run.colour),
        (Command::Run, 7, Colour::Never)
    );
    assert!(run.has(Flag::Cards) && run.has(Flag::Lean) && !run.has(Flag::Json));
    assert_eq!(run.operand(), "a");
    assert_eq!(tried("check -- --json").unwrap().operands, ["--json"]);
    assert_eq!(tried("check - -q").unwrap().operands, ["-"]);
    assert_eq!(tried("run --help").unwrap().command, Command::Help);
    for line in [
        "-V",
        "check --version",
        "--version --json",
        "version --json",
    ] {
        assert_eq!(tried(line).unwrap().command, Command::Version, "{line}");
    }
    assert!(tried("--version --json").unwrap().has(Flag::Json));
    assert_eq!(tried("tabs a").unwrap().command, Command::Fmt);
}

#[test]
fn not_understood() {
    for (line, said) in [
        ("", "no command"),
        ("chek a", "no command chek; did you mean `check`?"),
        ("check --jsn a", "no option --jsn; did you mean `--json`?"),
        ("run", "run takes FILE.., and 0 were given"),
        ("new a b", "new takes FILE, and 2 were given"),
        ("tabs a b", "tabs takes FILE, and 2 were given"),
        ("run --steps", "--steps needs N"),
        (
            "run --steps +5 a",
            "--steps takes 0 to 4294967295, not \"+5\"",
        ),
        ("run --steps= a", "--steps takes 0 to 4294967295, not \"\""),
        (
            "check --steps 5 a",
            "--steps goes with run, trial, trace, draw, report, test, not with check",
        ),
        ("check --json=yes a", "--json takes no value"),
        ("run --lean=yes a", "--lean takes no value"),
        ("check --lean a", "--lean goes with run, not with check"),
        (
            "trial --lean a",
            "--lean goes with run, not with trial: a trial tests every permission, and the \
             lean machine keeps none; `station run --lean` runs a script that check accepts",
        ),
        (
            "trace --trial --lean a",
            "--lean goes with run, not with trace: who holds what is shown, and the lean \
             machine does not know; leave --lean out",
        ),
        (
            "check --color=red a",
            "--color takes auto, always or never, not \"red\"",
        ),
        ("lsp x", "lsp takes no operand"),
        ("version x", "version takes no operand"),
        ("report a --html", "--html needs FILE"),
        ("report a --html=", "--html needs FILE"),
        (
            "report a --html b --html c",
            "--html goes once: all reports stand on one page",
        ),
        (
            "check --html b a",
            "--html goes with report, not with check",
        ),
        (
            "man --json",
            "--json goes with check, run, trial, count, bound, report, trace, known, draw, fmt, \
             fix, fill, test, explain, not with man",
        ),
        (
            "check --write a",
            "--write goes with fmt, fix, fill, test, not with check",
        ),
        ("test", "test takes FILE.., and 0 were given"),
        (
            "fmt --check --write a",
            "--check and --write do not go together",
        ),
    ] {
        assert_eq!(tried(line).unwrap_err().to_string(), said, "{line}");
    }
}

/// A line without control characters, which are escaped.
fn is_one_line(misuse: &Misuse) -> bool {
    let said = misuse.to_string();
    !said.is_empty() && !said.chars().any(char::is_control)
}

/// Bytes that are no text, words without end, signs in place of names.
#[test]
fn hostile_words() {
    let long = "x".repeat(100_000);
    let words: [Vec<u8>; 18] = [
        b"\xff\xfe".to_vec(),
        b"--\xff".to_vec(),
        b"--steps=\xff".to_vec(),
        b"--".to_vec(),
        b"--=".to_vec(),
        b"-".to_vec(),
        b"-=".to_vec(),
        b"---".to_vec(),
        b"-\xc3\xa9".to_vec(),
        b"--steps=99999999999999999999999".to_vec(),
        b"--steps=0x10".to_vec(),
        "--steps=\u{664}".as_bytes().to_vec(),
        b"--js\non".to_vec(),
        b"ch\x1b[31meck".to_vec(),
        b"--color=\x1b[0m".to_vec(),
        long.clone().into_bytes(),
        format!("--{long}").into_bytes(),
        Vec::new(),
    ];
    let mut refused = 0;
    for word in &words {
        let word = OsString::from_vec(word.clone());
        for line in [
            vec![word.clone()],
            vec!["run".into(), word.clone()],
            vec!["run".into(), "a".into(), word.clone()],
            vec!["run".into(), "a".into(), "--steps".into(), word.clone()],
            vec!["report".into(), "a".into(), "--html".into(), word.clone()],
        ] {
            if let Err(misuse) = parse(line.into_iter()) {
                refused += 1;
                assert!(is_one_line(&misuse), "{misuse:?}");
            }
        }
    }
    assert!(refused > 40, "{refused}");
    assert_eq!(number_of(OsStr::new("4294967295")), Some(u32::MAX));
    for word in ["4294967296", "-1", "+1", " 1", "1 ", "", "\u{661}"] {
        assert_eq!(number_of(OsStr::new(word)), None, "{word:?}");
    }
}

/// Words of the table and of none, in any order: what is understood fits the table,
/// the rest is told in a line.
#[test]
fn words_in_any_order() {
    let mut pool: Vec<String> = COMMANDS.iter().map(|spec| spec.name.to_string()).collect();
    for spec in OPTIONS {
        pool.extend([format!("--{}", spec.name), format!("--{}=1", spec.name)]);
        pool.extend(spec.short.map(|short| format!("-{short}")));
    }
    pool.extend(["--", "-", "a", "7", "=", "--no", "auto", ""].map(str::to_string));
    let mut rng = Rng::new(11);
    let (mut good, mut bad) = (0, 0);
    for _ in 0..40_000 {
        let words: Vec<OsString> = (0..rng.below(5))
            .map(|_| pool[rng.below(pool.len())].clone().into())
            .collect();
        match parse(words.iter().cloned()) {
            Ok(parsed) => {
                good += 1;
                let asked = [Command::Help, Command::Version].contains(&parsed.command);
                let taken = |spec: &&OptionSpec| parsed.has(spec.flag);
                let fit = |spec: &OptionSpec| spec.taken_by(parsed.command);
                assert!(asked || OPTIONS.iter().filter(taken).all(fit), "{words:?}");
                let mut rows = COMMANDS.iter();
                let count = parsed.operands.len();
                let row = rows.any(|row| {
                    row.command == parsed.command && (row.least..=row.most).contains(&count)
                });
                assert!(row, "{words:?}");
            }
            Err(misuse) => {
                bad += 1;
                assert!(is_one_line(&misuse), "{words:?}: {misuse}");
            }
        }
    }
    assert!(good > 1_000 && bad > 10_000, "{good} {bad}");
}

/// Names are unlike, every option is taken by a command that has a row, and every
/// row stands for its own.
#[test]
fn the_table() {
    for (at, spec) in OPTIONS.iter().enumerate() {
        let before = &OPTIONS[..at];
        assert!(before.iter().all(|other| other.name != spec.name));
        assert!(before.iter().all(|other| other.flag != spec.flag));
        assert!(spec
            .commands
            .iter()
            .all(|command| !command.name().is_empty()));
    }
    for (at, spec) in COMMANDS.iter().enumerate() {
        assert!(COMMANDS[..at].iter().all(|other| other.name != spec.name));
        let shown = COMMANDS.iter().filter(|row| !row.hidden);
        let same = shown.filter(|row| row.command == spec.command).count();
        assert!(same <= 1 && (same == 1 || spec.hidden), "{}", spec.name);
    }
}
