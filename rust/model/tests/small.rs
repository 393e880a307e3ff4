//! W14: the list of small scripts has each accepted one a single time, in order, and
//! no refused one.

use model::small::{mains, small, text, MOST, STATEMENTS};
use model::{check, trial};

/// "1, 2, 7 and 29 of them, 39 together".
#[test]
fn lines_by_length() {
    let small = small();
    let of_length = |length| small.lines().filter(|line| line.len() == length).count();
    assert_eq!([0, 1, 2, 3].map(of_length), [1, 2, 7, 29]);
    assert_eq!(small.lines().count(), 39);
    assert!(small.starts_with("\n1\n3\n11\n12\n") && small.ends_with("\n333\n"));
}

/// Shorter ones first, then as numbers rise; a main stands there if check accepts its
/// text.
#[test]
fn each_accepted_one_once() {
    let small = small();
    let lines: Vec<&str> = small.lines().collect();
    let key = |line: &str| (line.len(), line.to_string());
    assert!(lines.windows(2).all(|pair| key(pair[0]) < key(pair[1])));
    let mut all = 0;
    for number in (0..1_000usize).map(|number| number.to_string()) {
        let places: Vec<usize> = number
            .bytes()
            .map(|digit| usize::from(digit - b'0'))
            .collect();
        if places
            .iter()
            .all(|place| (1..=STATEMENTS.len()).contains(place))
        {
            all += 1;
            let accepted = check(text(&places).as_bytes()) == (0, 0);
            assert_eq!(lines.contains(&number.as_str()), accepted, "{number}");
        }
    }
    assert_eq!(all, 5 + 25 + 125);
    assert_eq!(mains().len(), 1 + all);
    assert!(mains().iter().all(|main| main.len() <= MOST));
    assert_eq!(lines[0], "");
}

/// Without branches and calls the check knows all: what it refuses stops in a trial.
#[test]
fn refused_ones_stop() {
    let small = small();
    for main in mains() {
        let line: String = main.iter().map(usize::to_string).collect();
        let stopped = trial(text(&main).as_bytes(), 10).number != 0;
        assert_eq!(small.lines().any(|other| other == line), !stopped, "{line}");
    }
}

#[test]
fn a_text() {
    let lines = ["class S", "field int n", "main", "var S s", "var int a"];
    let lines = [&lines[..], &["new s S", "release acc s n", "end"]].concat();
    let written: String = lines
        .iter()
        .map(|line| line.replace(' ', "\t") + "\n")
        .collect();
    assert_eq!(text(&[1, 5]), written);
}
