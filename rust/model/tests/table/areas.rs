//! The lent areas: number 1, and every byte after the calls.

use crate::common::{example, script, text};
use model::limits::{RESULT_BYTES, TEXT_BYTES, WORK_BYTES};
use model::{check_call, run_call};

#[test]
fn number_1_leaves_both_areas() {
    let text = text(&example());
    for length in [0, 1, WORK_BYTES - 1, WORK_BYTES + 1, 2 * WORK_BYTES] {
        let mut work = vec![7; length];
        assert_eq!(check_call(&text, &mut work), 65_536);
        assert!(work.iter().all(|&byte| byte == 7));
    }
    let lengths = [
        (WORK_BYTES, 0),
        (WORK_BYTES, RESULT_BYTES - 1),
        (WORK_BYTES, RESULT_BYTES + 1),
        (0, RESULT_BYTES),
        (WORK_BYTES - 1, RESULT_BYTES - 1),
    ];
    // 1 comes before 2.
    for text in [text, vec![b'x'; TEXT_BYTES + 1]] {
        for (work_length, result_length) in lengths {
            let mut work = vec![7; work_length];
            let mut results = vec![9; result_length];
            assert_eq!(run_call(&text, &mut work, 9, &mut results), 65_536);
            assert!(work.iter().all(|&byte| byte == 7));
            assert!(results.iter().all(|&byte| byte == 9));
        }
    }
}

#[test]
fn the_areas_after_the_calls() {
    let mut work = vec![7; WORK_BYTES];
    assert_eq!(check_call(&text(&example()), &mut work), 0);
    assert!(work.iter().all(|&byte| byte == 0));
    let mut work = vec![7; WORK_BYTES];
    let mut results = vec![9; RESULT_BYTES];
    let returned = run_call(&text(&example()), &mut work, 1_000, &mut results);
    assert_eq!(returned, 19);
    assert!(work.iter().all(|&byte| byte == 0));
    let mut expected = vec![0; RESULT_BYTES];
    (expected[0], expected[4], expected[8], expected[12]) = (8, 1, 7, 7);
    assert_eq!(results, expected);
    // A refused text leaves zeros.
    let (mut work, mut results) = (vec![7; WORK_BYTES], vec![9; RESULT_BYTES]);
    assert_eq!(
        run_call(b"main\n", &mut work, 5, &mut results),
        8 * 65_536 + 1
    );
    assert_eq!(
        (work, results),
        (vec![0; WORK_BYTES], vec![0; RESULT_BYTES])
    );
    // A negative value, low byte first.
    let (mut work, mut results) = (vec![7; WORK_BYTES], vec![9; RESULT_BYTES]);
    let negative = script("main\nvar int a\nlet a -2\nend");
    assert_eq!(run_call(&negative, &mut work, 5, &mut results), 4);
    assert_eq!(results[..8], [2, 0, 0, 0, 0xfe, 0xff, 0xff, 0xff]);
}
