//! The C face of the crate `explain`: the functions of `include/nuyardi_explain.h`.
//! Numbers, lines, steps and values are those of the proved library, which is
//! linked in.

#![deny(missing_docs)]

use explain::{cards, draw, objects, trace, Asked, Report};
use nuyardi::{limits, Station};
use std::ffi::c_char;
use std::panic::catch_unwind;

/// What messages call a text that has no file.
const FILE: &str = "-";

/// A text is looked at up to one byte more than it may have, as by the command.
const TEXT_BYTES: usize = limits::TEXT_BYTES + 1;

/// Where an answer goes: as many bytes as there is room for.
#[derive(Clone, Copy)]
struct Out {
    bytes: *mut c_char,
    capacity: usize,
}

/// The bytes that were lent; none for a null pointer with a length.
///
/// # Safety
///
/// The text is null, or so many bytes that may be read, as long as the result is used.
unsafe fn lent<'t>(text: *const u8, length: usize) -> Option<&'t [u8]> {
    match text.is_null() {
        true => (length == 0).then_some(&[]),
        // SAFETY: by the caller's promise; a slice has no more than `TEXT_BYTES`.
        false => Some(unsafe { std::slice::from_raw_parts(text, length.min(TEXT_BYTES)) }),
    }
}

impl Out {
    /// Null has no room.
    fn is_valid(self) -> bool {
        !self.bytes.is_null() || self.capacity == 0
    }

    /// Writes all bytes if there is room for them: how many they are.
    ///
    /// # Safety
    ///
    /// The room is there, may be written, and has none of the bytes in it.
    unsafe fn write(self, said: &[u8]) -> usize {
        if !self.bytes.is_null() && said.len() <= self.capacity {
            // SAFETY: by the caller's promise, and there are no more bytes than room.
            unsafe { std::ptr::copy_nonoverlapping(said.as_ptr(), self.bytes.cast(), said.len()) };
        }
        said.len()
    }
}

/// What is said of a text, written out; 0 for pointers that are refused, and where
/// a panic would cross into C.
///
/// # Safety
///
/// As for [`lent`] and [`Out::write`].
unsafe fn said(
    text: *const u8,
    length: usize,
    out: Out,
    say: fn(&[u8], u32) -> String,
    steps: u32,
) -> usize {
    // SAFETY: by the caller's promise.
    let Some(text) = unsafe { lent(text, length) }.filter(|_| out.is_valid()) else {
        return 0;
    };
    match catch_unwind(|| say(text, steps)) {
        // SAFETY: by the caller's promise; what is said stands in its own memory.
        Ok(said) => unsafe { out.write(said.as_bytes()) },
        Err(_) => 0,
    }
}

fn report(text: &[u8], asked: Asked) -> Report<'_> {
    Report::of(&mut Station::new(), FILE, text, asked)
}

fn check_said(text: &[u8], _: u32) -> String {
    let report = report(text, Asked::Check).warned(&mut Station::new());
    objects::report(&report).to_string()
}

fn run_said(text: &[u8], steps: u32) -> String {
    objects::report(&report(text, Asked::Run(steps))).to_string()
}

fn cards_said(text: &[u8], steps: u32) -> String {
    let report = report(text, Asked::Run(steps));
    let ran = report.ran.as_ref();
    let cards = ran.and_then(|ran| cards::after(text, ran.outcome.steps()));
    let object = objects::report(&report);
    let object = object.with_some("cards", cards.map(|cards| cards.json()));
    object.to_string()
}

fn steps_said(text: &[u8], steps: u32) -> String {
    trace::json_lines(&report(text, Asked::Run(steps)))
}

fn picture_said(text: &[u8], steps: u32) -> String {
    draw::picture(&report(text, Asked::Run(steps))).unwrap_or_default()
}

/// Check's answer and why, and warnings, as JSON: what `station check --warn --json -`
/// prints.
///
/// # Safety
///
/// The text is null with length 0, or so many bytes that may be read; the room is
/// null with capacity 0, or so many bytes that may be written; nobody else writes
/// to either during the call, and the room has none of the text in it.
#[no_mangle]
pub unsafe extern "C" fn nuyardi_explain(
    text: *const u8,
    length: usize,
    out: *mut c_char,
    capacity: usize,
) -> usize {
    let out = Out {
        bytes: out,
        capacity,
    };
    // SAFETY: by the caller's promise.
    unsafe { said(text, length, out, check_said, 0) }
}

/// How a run of at most that many steps ends and why, as JSON: what `station run
/// --json --steps N -` prints.
///
/// # Safety
///
/// As for [`nuyardi_explain`].
#[no_mangle]
pub unsafe extern "C" fn nuyardi_explain_run(
    text: *const u8,
    length: usize,
    steps: u32,
    out: *mut c_char,
    capacity: usize,
) -> usize {
    let out = Out {
        bytes: out,
        capacity,
    };
    // SAFETY: by the caller's promise.
    unsafe { said(text, length, out, run_said, steps) }
}

/// The same with the cards that the run made: what `station run --json --cards
/// --steps N -` prints.
///
/// # Safety
///
/// As for [`nuyardi_explain`].
#[no_mangle]
pub unsafe extern "C" fn nuyardi_cards(
    text: *const u8,
    length: usize,
    steps: u32,
    out: *mut c_char,
    capacity: usize,
) -> usize {
    let out = Out {
        bytes: out,
        capacity,
    };
    // SAFETY: by the caller's promise.
    unsafe { said(text, length, out, cards_said, steps) }
}

/// Each step of such a run as a line of JSON, then what [`nuyardi_explain_run`]
/// gives as the last line.
///
/// # Safety
///
/// As for [`nuyardi_explain`].
#[no_mangle]
pub unsafe extern "C" fn nuyardi_trace(
    text: *const u8,
    length: usize,
    steps: u32,
    out: *mut c_char,
    capacity: usize,
) -> usize {
    let out = Out {
        bytes: out,
        capacity,
    };
    // SAFETY: by the caller's promise.
    unsafe { said(text, length, out, steps_said, steps) }
}

/// The cards after such a run as an SVG picture; nothing for a text that is not
/// run.
///
/// # Safety
///
/// As for [`nuyardi_explain`].
#[no_mangle]
pub unsafe extern "C" fn nuyardi_draw(
    text: *const u8,
    length: usize,
    steps: u32,
    out: *mut c_char,
    capacity: usize,
) -> usize {
    let out = Out {
        bytes: out,
        capacity,
    };
    // SAFETY: by the caller's promise.
    unsafe { said(text, length, out, picture_said, steps) }
}

#[cfg(test)]
mod tests {
    use super::{said, Out};

    /// A panic ends in 0, with nothing written.
    #[test]
    fn panics_do_not_cross() {
        let mut room = [0x5a; 8];
        let out = Out {
            bytes: room.as_mut_ptr(),
            capacity: room.len(),
        };
        let panics = |_: &[u8], _: u32| -> String { panic!("for this test") };
        let says = |_: &[u8], _: u32| "said".to_string();
        let text = b"main\nend\n";
        // SAFETY: text and room are of these lengths, and apart.
        let fault = unsafe { said(text.as_ptr(), text.len(), out, panics, 0) };
        assert_eq!((fault, room), (0, [0x5a; 8]));
        // SAFETY: as above.
        let length = unsafe { said(text.as_ptr(), text.len(), out, says, 0) };
        assert_eq!(
            (length, &room[..4]),
            (4, &b"said".map(|byte| byte as _)[..])
        );
    }
}
