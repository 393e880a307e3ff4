//! Numbers in the code have names.

use sources::{bare_numbers, expect_none, sources, Source};

#[test]
fn numbers_have_names() {
    let bare: Vec<String> = sources().iter().flat_map(bare_numbers).collect();
    let to_do = "give the number a name by a `const`; without one may stand 0, 1 and 2, what counts on from there as [i + 3] does after \
                 [i + 2], the number that an arm gives a case, and bits as 0x..";
    expect_none(&bare, to_do);
}

/// What is found in the body of a function.
fn found(body: &str) -> Vec<String> {
    let code = format!("// 9\nconst N: u8 = 9;\n\nfn f(x: [u8; N]) -> u8\n    requires {{ x < 9 }}\n{{\n    {body}\n}}\n");
    let found = bare_numbers(&Source::of("one", "src/lib.rt", &code));
    let place = "crates/one/src/lib.rt:7: ";
    let found = found.iter().map(|told| told.strip_prefix(place));
    found
        .map(|told| told.expect("the line").to_string())
        .collect()
}

#[test]
fn a_bare_number_is_found() {
    for (body, number) in [
        ("x + 3", "3"),
        ("let y = x[4u8 as usize];", "4u8"),
        ("[0; 1_000]", "1_000"),
        ("3..N", "3"),
        ("0..=7 => x,", "7"),
        ("_ => 4,", "4"),
        ("Kind::Line => x + 4,", "4"),
        ("x[i + 3] == b'c' // c", "3"),
        ("x[i + 1] + x[i + 3]", "3"),
        ("x[i + 2] + x[j + 3]", "3"),
        ("f(x, 2) + g(x, 3)", "3"),
        ("f(x, 2) + f(3, x)", "3"),
        ("f(x, 2) + f(x, 4)", "4"),
    ] {
        assert_eq!(found(body), [format!("{number} in `{body}`")]);
    }
    let header = Source::of("one", "src/lib.rt", "fn f() -> [u8; 3] {\n    f()\n}\n");
    assert_eq!(
        bare_numbers(&header),
        ["crates/one/src/lib.rt:1: 3 in `fn f() -> [u8; 3] {`"]
    );
}

#[test]
fn what_needs_no_name() {
    for body in [
        "x + 0 + 1u8 + 2_usize",
        "b'3' + key3 + x.3",
        "x // 3",
        "const M: u8 = 3;",
        "Stop::HeapFull => 22,",
        "x[i + 1] + x[i + 2] + x[i + 3] + x[i + 4]",
        "f(x, 2) + f(x, 3)",
        "0x7f + 0x80_80",
    ] {
        assert_eq!(found(body), [""; 0], "{body}");
    }
}
