//! Frames that are right, wrong ones among them, and bytes without a plan.

use super::*;
use generator::rng::Rng;

fn frames(bytes: &[u8]) -> Vec<Frame> {
    let mut input = Frames::new(bytes);
    let mut found = Vec::new();
    loop {
        match input.read() {
            Frame::End => return found,
            frame => found.push(frame),
        }
    }
}

fn body(text: &str) -> Frame {
    Frame::Body(text.as_bytes().to_vec())
}

fn written(text: &str) -> Vec<u8> {
    let mut bytes = Vec::new();
    write(&mut bytes, text).expect("a vector takes all");
    bytes
}

#[test]
fn written_is_read() {
    let bodies = ["{}", "", "\u{e9}\r\n\r\n"];
    let bytes: Vec<u8> = bodies.iter().flat_map(|text| written(text)).collect();
    assert_eq!(frames(&bytes), bodies.map(body));
    let other = b"content-type: x; charset=UTF-8\ncontent-length: 1\n\na";
    assert_eq!(frames(other), [body("a")]);
}

/// What is wrong is told once, and the message after it is read.
#[test]
fn found_again() {
    let long = [b"a: ".to_vec(), vec![b' '; 10_000], b"\r\n\r\n".to_vec()].concat();
    let many = b"a: b\r\n".repeat(100);
    let big = [
        b"Content-Length: 16777217\r\n\r\n".to_vec(),
        vec![b'x'; 100_000],
    ]
    .concat();
    for (bytes, why) in [
        (&b"\r\n"[..], NO_LENGTH),
        (b"a: b\r\n\r\n", NO_LENGTH),
        (b"Content-Length: -1\r\n\r\n", NO_LENGTH),
        (b"Content-Length: +1\r\n\r\na", NO_LENGTH),
        (b"Content-Length: \r\n\r\n{}", NO_LENGTH),
        (b"Content-Length: 99999999999999999999\r\n\r\n{}", TOO_LONG),
        (b"Content-Length: 4294967295\r\n\r\n", TOO_LONG),
        (b"no header\r\n\r\n{\"a\": 1}", NO_HEADER),
        (b"\xff\xfe\r\n", NO_HEADER),
        (b": 5\r\n\r\n", NO_HEADER),
        (b"{\"a\": 1}\n", NO_HEADER),
        (b"left over", NO_HEADER),
        (
            b"Content-Length: 2\r\nContent-Type: a; charset=utf-16\r\n\r\n{}",
            CHARSET,
        ),
        (&long, NO_HEADER),
        (&many, TOO_MANY),
        (&big, TOO_LONG),
    ] {
        let all = [bytes.to_vec(), written("next"), written("last")].concat();
        let expected = [Frame::Wrong(why), body("next"), body("last")];
        assert_eq!(
            frames(&all),
            expected,
            "{:?}",
            bytes.escape_ascii().to_string()
        );
    }
    // Fewer bytes are told than there are.
    let all = [
        b"Content-Length: 2\r\n\r\n{\"a\":1}".to_vec(),
        written("next"),
    ]
    .concat();
    assert_eq!(
        frames(&all),
        [body("{\""), Frame::Wrong(NO_HEADER), body("next")]
    );
}

#[test]
fn ends() {
    for bytes in [
        &b""[..],
        b"Content-Length: 5\r\n\r\nab",
        b"Content-Length: 5",
        b"Content-Length: 5\r\n",
        b"no end of line",
    ] {
        assert_eq!(frames(bytes), []);
    }
}

/// Any bytes come to an end, and a message after two lines of them is found.
#[test]
fn hostile() {
    let parts: [&[u8]; 9] = [
        b"Content-Length: ",
        b"7",
        b"\r\n",
        b"\n",
        b"{",
        b"\xff",
        b": ",
        b"Content-Type",
        b" ",
    ];
    let mut rng = Rng::new(5);
    let mut found = 0;
    for _ in 0..20_000 {
        let mut bytes: Vec<u8> = Vec::new();
        for _ in 0..rng.below(24) {
            bytes.extend_from_slice(parts[rng.below(parts.len())]);
        }
        // No length takes more bytes than these.
        bytes.extend_from_slice(&[b'x'; 100]);
        bytes.extend_from_slice(b"\n\n");
        for _ in 0..2 {
            bytes.extend(written("next"));
        }
        let all = frames(&bytes);
        found += usize::from(all.last() == Some(&body("next")));
    }
    assert!(found > 15_000, "{found}");
}
