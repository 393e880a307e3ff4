//! No file, function or contract of the code is long.

use sources::{expect_none, functions, long_clauses, long_files, long_functions, sources, Source};

#[test]
fn no_file_is_long() {
    expect_none(&long_files(&sources()), "cut the file into modules");
}

#[test]
fn no_function_is_long() {
    let to_do =
        "cut the function; the lines go from `fn` to the closing brace, its contract with them";
    expect_none(&long_functions(&sources()), to_do);
}

#[test]
fn no_contract_is_long() {
    let to_do = "say the clause by a definition of specs/; it is counted from brace to brace, with single blanks";
    expect_none(&long_clauses(&sources()), to_do);
}

/// None is passed over: each line that begins a function or a clause is one of a function that is read.
#[test]
fn every_function_is_read() {
    for source in sources().iter().filter(|source| source.is_code()) {
        let begins = |words: &[&str]| {
            let begins = |line: &&str| words.iter().any(|word| line.trim_start().starts_with(word));
            source.text.lines().filter(begins).count()
        };
        let read = functions(source);
        let clauses: usize = read.iter().map(|function| function.clauses.len()).sum();
        let path = source.path();
        assert_eq!(
            read.len(),
            begins(&["fn ", "pub fn ", "pub extern "]),
            "functions of {path}"
        );
        assert_eq!(
            clauses,
            begins(&["requires ", "requires* ", "ensures ", "ensures* "]),
            "clauses of {path}"
        );
    }
}

fn made(text: &str) -> [Source; 1] {
    [Source::of("one", "src/lib.rt", text)]
}

#[test]
fn a_long_file_is_found() {
    assert_eq!(long_files(&made(&"// line\n".repeat(300))), [""; 0]);
    let found = long_files(&made(&"// line\n".repeat(301)));
    assert_eq!(found, ["crates/one/src/lib.rt: 301 lines, at most 300"]);
    let proof = Source::of("one", "proofs/Laws.antt", &"-- line\n".repeat(301));
    assert_eq!(long_files(&[proof]), [""; 0]);
}

/// A function of so many lines, with braces in comments and quoted bytes, and one after it.
fn function(lines: usize) -> String {
    let body = "    put(b'{', b\"{\"); // {\n".repeat(lines - 4);
    format!("// code\nfn f<'a>(x: &'a u8)\n    requires {{ {{A}} \"}}\" }}\n{{\n{body}}}\n\nfn g() {{}}\n")
}

#[test]
fn a_long_function_is_found() {
    assert_eq!(long_functions(&made(&function(39))), [""; 0]);
    let found = long_functions(&made(&function(40)));
    assert_eq!(
        found,
        ["crates/one/src/lib.rt:2: f has 40 lines, at most 39"]
    );
}

/// A function with a clause of so many characters, over two lines.
fn contract(characters: usize) -> String {
    let fact = "≤".repeat(characters - "{ }".chars().count() - 1);
    format!("// code\npub fn f(x: u8) -> u8\n    requires {{ x }}\n    ensures ok {{\n        {fact} }}\n{{\n    x\n}}\n")
}

#[test]
fn a_long_contract_is_found() {
    assert_eq!(long_clauses(&made(&contract(200))), [""; 0]);
    let found = long_clauses(&made(&contract(201)));
    let place = "crates/one/src/lib.rt:4";
    assert_eq!(
        found,
        [format!(
            "{place}: `ensures` of f has 201 characters, at most 200"
        )]
    );
}
