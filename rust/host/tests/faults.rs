//! The library under instruments that see what a test of answers does not: a byte touched outside its areas, a text
//! written to, something shared between threads. An instrument that this machine does not have is left out, with a word.

#[path = "support/c.rs"]
mod c;
#[path = "support/workloads.rs"]
mod workloads;

use std::process::Command;

/// The texts that are timed, those at the limits among them, generated ones, and texts that are cut anywhere.
fn texts(generated: u64) -> Vec<Vec<u8>> {
    let timed = workloads::all().into_iter().map(|workload| workload.text);
    let made = (0..generated).map(generator::text);
    let made: Vec<Vec<u8>> = made
        .chain((0..generated / 2).map(generator::starred))
        .collect();
    let cut = made
        .iter()
        .enumerate()
        .map(|(at, text)| text[..text.len() * (at % 97) / 97].to_vec());
    let cut: Vec<Vec<u8>> = cut.collect();
    let too_long = vec![b'\n'; nuyardi::limits::TEXT_BYTES + 1];
    timed.chain(made).chain(cut).chain([too_long]).collect()
}

/// Eight threads, pages that may not be touched around every area and every text.
#[test]
fn guarded() {
    let program = Command::new(c::compiled("guard"));
    c::as_expected(program, "guard-texts", &texts(400), 500);
}

/// The pages are seen to: with a length that is a byte too long the program does not come to its end.
#[test]
fn guards_guard() {
    let program = c::compiled_by("gcc", "guard", &["-DLONGER=1"]).expect("guard.c");
    let names = c::files("guards-texts", [b"main\nend\n".to_vec()]);
    let output = Command::new(program).arg("5").args(&names).output();
    assert_eq!(output.expect("the program").status.code(), None);
}

/// The same with the address and undefined behaviour sanitizers of two compilers.
#[test]
fn sanitized() {
    for compiler in ["gcc", "clang"] {
        let words = [
            "-g",
            "-fsanitize=address,undefined",
            "-fno-sanitize-recover=all",
        ];
        for name in ["guard", "replay"] {
            match c::compiled_by(compiler, name, &words) {
                Ok(program) => {
                    let folder = format!("{name}-{compiler}-texts");
                    c::as_expected(Command::new(program), &folder, &texts(100), 500);
                }
                Err(error) => println!("{compiler} has no sanitizers here: {error}"),
            }
        }
    }
}

/// Under valgrind nothing outside the areas is touched, and no result rests on what they held before.
#[test]
fn under_valgrind() {
    if Command::new("valgrind").arg("--version").output().is_err() {
        println!("there is no valgrind here");
        return;
    }
    let mut program = Command::new("valgrind");
    program
        .args(["--quiet", "--error-exitcode=9"])
        .arg(c::compiled("replay"));
    let texts = (0..150).map(generator::text);
    let texts: Vec<Vec<u8>> = texts.chain((0..50).map(generator::starred)).collect();
    c::as_expected(program, "valgrind-texts", &texts, 500);
}
