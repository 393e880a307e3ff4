//! The C functions of libnuyardi.a, declared once, and over Rust slices.
//!
//! Most callers want [`crate::check`], [`crate::run`], [`crate::trial`],
//! [`crate::lean`], [`crate::bound`], [`crate::fill`] and [`crate::count`]. The
//! functions here are for those who lend areas of their own and want what comes back
//! as it is.

use crate::limits::SCRIPTS;
use crate::Returned;

/// The functions as C has them. A null text is allowed with length 0; the areas
/// must not overlap, with each other or with the text.
pub mod raw {
    extern "C" {
        pub fn station_check(
            text: *const u8,
            text_len: usize,
            work: *mut u8,
            work_len: usize,
        ) -> u32;
        pub fn station_run(
            text: *const u8,
            text_len: usize,
            work: *mut u8,
            work_len: usize,
            steps: u32,
            results: *mut u8,
            results_len: usize,
        ) -> u32;
        pub fn station_trial(
            text: *const u8,
            text_len: usize,
            work: *mut u8,
            work_len: usize,
            steps: u32,
            results: *mut u8,
            results_len: usize,
        ) -> u32;
        pub fn station_lean(
            text: *const u8,
            text_len: usize,
            work: *mut u8,
            work_len: usize,
            steps: u32,
            results: *mut u8,
            results_len: usize,
        ) -> u32;
        pub fn station_bound(
            text: *const u8,
            text_len: usize,
            work: *mut u8,
            work_len: usize,
            bounds: *mut u8,
            bounds_len: usize,
        ) -> u32;
        pub fn station_fill(
            text: *const u8,
            text_len: usize,
            work: *mut u8,
            work_len: usize,
            places: *mut u8,
            places_len: usize,
        ) -> u32;
        pub fn station_count(
            scripts: u32,
            rounds: u32,
            text1: *const u8,
            text1_len: usize,
            text2: *const u8,
            text2_len: usize,
            text3: *const u8,
            text3_len: usize,
            text4: *const u8,
            text4_len: usize,
            work: *mut u8,
            work_len: usize,
            share1: u32,
            share2: u32,
            share3: u32,
            share4: u32,
            results: *mut u8,
            results_len: usize,
        ) -> u32;
    }

    /// A function that runs a text.
    pub type Runs =
        unsafe extern "C" fn(*const u8, usize, *mut u8, usize, u32, *mut u8, usize) -> u32;

    /// A function that tells something of a text, and runs nothing.
    pub type Tells = unsafe extern "C" fn(*const u8, usize, *mut u8, usize, *mut u8, usize) -> u32;
}

/// Checks the text over a lent work area of [`WORK_BYTES`](crate::limits::WORK_BYTES)
/// bytes. Afterwards the work area is all zero,
/// except for number 1 (an area of wrong length), which changes nothing.
///
/// ```
/// let mut work = vec![0xa5; nuyardi::limits::WORK_BYTES];
/// let returned = nuyardi::calls::check(b"main\nend\n", &mut work);
/// assert_eq!((returned.number(), returned.line()), (0, 0));
/// assert!(work.iter().all(|&byte| byte == 0));
/// let returned = nuyardi::calls::check(b"main\nend\n", &mut work[1..]);
/// assert_eq!((returned.number(), returned.line()), (1, 0));
/// ```
pub fn check(text: &[u8], work: &mut [u8]) -> Returned {
    // SAFETY: each pointer comes with the length of its slice, the text is only
    // read, and the borrows keep the slices alive and apart during the call.
    Returned::of(unsafe {
        raw::station_check(text.as_ptr(), text.len(), work.as_mut_ptr(), work.len())
    })
}

/// Runs the text for at most that many steps, if check accepts it, with a results
/// area of [`RESULTS_BYTES`](crate::limits::RESULTS_BYTES) bytes: the steps taken,
/// then the values of main's variables, 4 bytes each, low byte first. A text that
/// check refuses gets check's number and line, and zeros.
///
/// ```
/// let mut work = vec![0; nuyardi::limits::WORK_BYTES];
/// let mut results = [0xa5; nuyardi::limits::RESULTS_BYTES];
/// let text = b"main\nvar\tint\ta\nlet\ta\t7\nend\n";
/// let returned = nuyardi::calls::run(text, &mut work, 1_000, &mut results);
/// assert_eq!((returned.number(), returned.line()), (0, 4));
/// assert_eq!(results[..8], [2, 0, 0, 0, 7, 0, 0, 0]);
/// ```
pub fn run(text: &[u8], work: &mut [u8], steps: u32, results: &mut [u8]) -> Returned {
    over(raw::station_run, text, work, steps, results)
}

/// Runs the text as [`run`] does, accepted or not, if the reader takes it.
///
/// ```
/// let mut work = vec![0; nuyardi::limits::WORK_BYTES];
/// let mut results = [0; nuyardi::limits::RESULTS_BYTES];
/// let text = b"main\nassert\teq\t1\t2\nend\n";
/// let returned = nuyardi::calls::run(text, &mut work, 9, &mut results);
/// assert_eq!((returned.number(), returned.line()), (13, 2));
/// let returned = nuyardi::calls::trial(text, &mut work, 9, &mut results);
/// assert_eq!((returned.number(), returned.line()), (26, 2));
/// ```
pub fn trial(text: &[u8], work: &mut [u8], steps: u32, results: &mut [u8]) -> Returned {
    over(raw::station_trial, text, work, steps, results)
}

/// What [`run`] returns, and both areas as it leaves them, always; the machine
/// below keeps no permissions, which an accepted text never lacks.
///
/// ```
/// use nuyardi::calls::{lean, run};
/// let mut work = vec![0; nuyardi::limits::WORK_BYTES];
/// let text = b"main\nvar\tint\ta\nlet\ta\t7\nassert\teq\ta\t7\nend\n";
/// for steps in [0, 2, 1_000] {
///     let (mut one, mut other) = ([0xa5; nuyardi::limits::RESULTS_BYTES], [0x5a; 52]);
///     let returned = lean(text, &mut work, steps, &mut one);
///     assert_eq!(returned, run(text, &mut work, steps, &mut other));
///     assert_eq!(one, other);
/// }
/// ```
pub fn lean(text: &[u8], work: &mut [u8], steps: u32, results: &mut [u8]) -> Returned {
    over(raw::station_lean, text, work, steps, results)
}

fn over(call: raw::Runs, text: &[u8], work: &mut [u8], steps: u32, results: &mut [u8]) -> Returned {
    // SAFETY: as in `check`; the two areas are two borrows, so they are apart.
    Returned::of(unsafe {
        call(
            text.as_ptr(),
            text.len(),
            work.as_mut_ptr(),
            work.len(),
            steps,
            results.as_mut_ptr(),
            results.len(),
        )
    })
}

/// The bound of the text, in an area of [`BOUNDS_BYTES`](crate::limits::BOUNDS_BYTES)
/// bytes: the most steps of a run, then the most frames, 4 bytes each, low byte
/// first; zeros where there is none.
///
/// ```
/// let mut work = vec![0; nuyardi::limits::WORK_BYTES];
/// let mut bounds = [0xa5; nuyardi::limits::BOUNDS_BYTES];
/// let text = b"main\nvar\tint\ta\nlet\ta\t7\nend\n";
/// assert_eq!(nuyardi::calls::bound(text, &mut work, &mut bounds).number(), 0);
/// assert_eq!(bounds, [2, 0, 0, 0, 1, 0, 0, 0]);
/// let text = b"main\nloop\teq\t1\t1\nagain\nend\n";
/// let returned = nuyardi::calls::bound(text, &mut work, &mut bounds);
/// assert_eq!((returned.number(), returned.line()), (15, 2));
/// assert_eq!(bounds, [0; nuyardi::limits::BOUNDS_BYTES]);
/// ```
pub fn bound(text: &[u8], work: &mut [u8], bounds: &mut [u8]) -> Returned {
    told(raw::station_bound, text, work, bounds)
}

/// The permissions that a `requires *` stands for, in an area of
/// [`PLACES_BYTES`](crate::limits::PLACES_BYTES) bytes: the places of the fields, those
/// of `this` first and then those of the parameter, from 1, rising, then zeros; zeros
/// where there are none.
///
/// ```
/// let mut work = vec![0; nuyardi::limits::WORK_BYTES];
/// let mut places = [0xa5; nuyardi::limits::PLACES_BYTES];
/// let text = b"class\tS\nfield\tint\ta\nfield\tint\tb\nmethod\tint\tm\tint\tk\n\
///     requires\t*\nensures\nset\tthis\tb\tk\nend\nmain\nend\n";
/// assert_eq!(nuyardi::calls::fill(text, &mut work, &mut places).number(), 0);
/// assert_eq!(places, [2, 0, 0, 0]);
/// let returned = nuyardi::calls::fill(b"main\nend\n", &mut work, &mut places);
/// assert_eq!((returned.number(), returned.line()), (18, 0));
/// assert_eq!(places, [0; nuyardi::limits::PLACES_BYTES]);
/// ```
pub fn fill(text: &[u8], work: &mut [u8], places: &mut [u8]) -> Returned {
    told(raw::station_fill, text, work, places)
}

fn told(call: raw::Tells, text: &[u8], work: &mut [u8], area: &mut [u8]) -> Returned {
    // SAFETY: as in `over`.
    Returned::of(unsafe {
        call(
            text.as_ptr(),
            text.len(),
            work.as_mut_ptr(),
            work.len(),
            area.as_mut_ptr(),
            area.len(),
        )
    })
}

/// Runs the first `scripts` of four texts over one heap, one step of each a round, each
/// with its share of the heap, and a results area of
/// [`COUNT_BYTES`](crate::limits::COUNT_BYTES) bytes: for each text what [`run`] returns
/// for it alone, with its share for the heap and the rounds as steps, then what it
/// leaves. Texts and shares past the count are not looked at.
///
/// ```
/// use nuyardi::limits::{COUNT_BYTES, SCRIPT_BYTES, WORK_BYTES};
/// let (mut work, mut results) = (vec![0; WORK_BYTES], [0xa5; COUNT_BYTES]);
/// let one = b"class\tS\nmain\nvar\tS\ts\nnew\ts\tS\nnew\ts\tS\nend\n";
/// let texts = [&one[..], b"main\nend\n", b"", b""];
/// let returned = nuyardi::calls::count(2, 9, texts, &mut work, [1, 255, 0, 0], &mut results);
/// assert_eq!(returned.word(), 0);
/// // The first stops with 22 at line 5 after one step, the second finishes at line 2.
/// assert_eq!(results[..12], [5, 0, 22, 0, 1, 0, 0, 0, 1, 0, 0, 0]);
/// assert_eq!(results[SCRIPT_BYTES..][..8], [2, 0, 0, 0, 1, 0, 0, 0]);
/// assert!(results[2 * SCRIPT_BYTES..].iter().all(|&byte| byte == 0));
/// ```
pub fn count(
    scripts: u32,
    rounds: u32,
    texts: [&[u8]; SCRIPTS],
    work: &mut [u8],
    shares: [u32; SCRIPTS],
    results: &mut [u8],
) -> Returned {
    let [text1, text2, text3, text4] = texts;
    let [share1, share2, share3, share4] = shares;
    // SAFETY: as in `over`; the texts are only read, and may be one.
    Returned::of(unsafe {
        raw::station_count(
            scripts,
            rounds,
            text1.as_ptr(),
            text1.len(),
            text2.as_ptr(),
            text2.len(),
            text3.as_ptr(),
            text3.len(),
            text4.as_ptr(),
            text4.len(),
            work.as_mut_ptr(),
            work.len(),
            share1,
            share2,
            share3,
            share4,
            results.as_mut_ptr(),
            results.len(),
        )
    })
}
