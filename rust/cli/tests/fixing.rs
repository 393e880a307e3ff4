//! `station fix`: what it prints, writes and only tells.

mod common;

use common::{folder, root, said};

fn example(name: &str) -> String {
    let path = root().join("examples").join(name);
    std::fs::read_to_string(path).expect("an example")
}

#[test]
fn printed_written_and_told() {
    let folder = folder("fixing");
    let file = folder.join("lost.script");
    std::fs::write(&file, example("lost.script")).expect("written");
    let name = file.to_str().expect("a name");
    let (out, error, status) = said(&["fix", name], b"");
    assert_eq!(status, 0);
    assert!(nuyardi::check(out.as_bytes()).is_ok(), "{out}");
    assert!(error.contains("accepted after this"), "{error}");
    let (told, error, status) = said(&["fix", "--check", name], b"");
    assert_eq!((error.as_str(), status), ("", 1));
    assert!(told.contains("`acc this tag`"), "{told}");
    assert_eq!(
        std::fs::read_to_string(&file).unwrap(),
        example("lost.script")
    );
    let (_, error, status) = said(&["fix", "--write", name], b"");
    assert_eq!((error.as_str(), status), ("", 0));
    assert_eq!(std::fs::read_to_string(&file).unwrap(), out);
    let (told, _, status) = said(&["fix", "--check", name], b"");
    assert_eq!(status, 0);
    assert!(told.ends_with("accepted, nothing to fix\n"), "{told}");
}

/// Without a fix the text is printed as it is, and the status is 1.
#[test]
fn nothing_found() {
    let text = example("refused-14.script");
    let (out, error, status) = said(&["fix", "-"], text.as_bytes());
    assert_eq!((out, status), (text, 1));
    assert!(error.contains("no fix was found"), "{error}");
}

/// Hostile texts: nothing but what check would say of what is printed.
#[test]
fn hostile() {
    let folder = folder("hostile-fixes");
    for (at, text) in [
        &b""[..],
        b"\n\n\n",
        b"\xff\xfe\0",
        b"main",
        b"else\nelse\nelse\n",
        b"requires\nensures\nend\nend\nmain\nend\nend\n",
        b"class\tclass\nfield\tfield\tfield\nmain\nend\n",
        &b"if\teq\ta\ta\n".repeat(2_000),
        &b"a\tb\tc\n".repeat(4_000),
        &b"\t".repeat(40_000),
    ]
    .into_iter()
    .enumerate()
    {
        std::fs::write(folder.join(format!("{at}.script")), text).expect("written");
    }
    let (out, _, status) = said(&["fix", "--json", folder.to_str().expect("a name")], b"");
    assert_eq!(out.lines().count(), 10, "{out}");
    assert!(status <= 1, "{status}");
}
