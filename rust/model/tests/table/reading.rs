//! The numbers 3, 4, 5 and 8: bytes, forms and places of lines.

use crate::common::{checks, example, main_with, script, text};
use crate::method_with;
use model::{check, printed};

#[test]
fn number_3() {
    for byte in (0..=255u8).filter(|byte| !matches!(byte, b'\t' | b'\n' | 33..=126)) {
        let text = [b"main\nend".as_slice(), &[byte], b"\n"].concat();
        assert_eq!(check(&text), (3, 2), "byte {byte}");
    }
    for byte in 33..=126u8 {
        let text = [b"main\nend".as_slice(), &[byte], b"\n"].concat();
        assert_eq!(check(&text), (4, 2), "byte {byte}");
    }
    assert_eq!(check(b"main\nend"), (3, 2));
    assert_eq!(check(b"x"), (3, 1));
    assert_eq!(check(b"main\r\nend\r\n"), (3, 1));
    // A last line without LF is 3 whatever else is wrong in it; the lines
    // before it come first.
    assert_eq!(check(b"main\nend\nunknown"), (3, 3));
    assert_eq!(check(b"main\nfoo\nend"), (4, 2));
    assert_eq!(check(b"foo\nmain \n"), (4, 1));
    assert_eq!(check(b"foo \nmain\n"), (3, 1));
    // A last line that is empty is no line.
    assert_eq!(check(b"main\nend\n"), (0, 0));
    assert_eq!(check(b"main\nend\n\n"), (4, 3));
}

#[test]
fn number_4_words_and_fields() {
    for line in [
        "",
        "x",
        "Let a 1",
        "let",
        "let a",
        "let a 1 1",
        "let 1 a",
        "let a.b 1",
        "let a x.f.g",
        "let a .f",
        "let a x.",
        "let a +5",
        "let a 1.f",
        "let a -0",
        "let a 007",
        "let a a_b",
        "new a",
        "new a 5",
        "new 5 S",
        "set s n",
        "set s n 5",
        "set s.n n a",
        "set s n a b",
        "call a s m",
        "call a s m 5",
        "call a s m s.n",
        "call a s m a a",
        "call a null.f m a",
        "assert eq",
        "assert eq a",
        "assert x a a",
        "assert acc s.n n",
        "assert acc s 5",
        "assert acc s n eq a",
        "assert acc 5 n",
        "release ne a",
        "if",
        "if acc s n",
        "if eq a",
        "if eq a a eq a a",
        "else",
        "join",
        "return a",
        "main",
        "class D",
        "field int q",
        "method int m int w",
        "requires",
        "ensures",
        "end x",
        "let a ",
        " let a 1",
        "let  a 1",
        "join eq a",
        "eq a a",
        "assert eq a abcdefghijklm",
    ] {
        let source = main_with("LINE\nlet a 1");
        let text = String::from_utf8(script(&source)).unwrap();
        let text = text.replace("LINE", &line.replace(' ', "\t"));
        assert_eq!(check(text.as_bytes()), (4, 9), "{line:?}");
    }
}

#[test]
fn number_4_places() {
    checks(&[
        ("field int n\nmain\nend", 4, 1),
        ("end", 4, 1),
        ("var int a", 4, 1),
        ("class C\nend", 4, 2),
        ("class C\nrequires", 4, 2),
        ("class C\nvar int a", 4, 2),
        ("class C\nmethod int m int w\nensures", 4, 3),
        ("class C\nmethod int m int w\nvar int a", 4, 3),
        ("class C\nmethod int m int w\nrequires\nrequires", 4, 4),
        ("class C\nmethod int m int w\nrequires\nend", 4, 4),
        ("class C\nmethod int m int w\nrequires\nensures\nmain", 4, 5),
        (
            "class C\nmethod int m int w\nrequires\nensures\nend\nfield int n",
            4,
            6,
        ),
        (
            "class C\nmethod int m int w\nrequires\nensures\nend\nend",
            4,
            6,
        ),
        (
            "class C\nmethod int m int w\nrequires\nensures\nassert\nvar int a",
            4,
            6,
        ),
        ("main\nmain", 4, 2),
        ("main\nreturn a\nend", 4, 2),
        ("main\nassert\nvar int a\nend", 4, 3),
        ("main\nif eq 1 1\njoin\nend", 4, 3),
        ("main\nif eq 1 1\nend", 4, 3),
        ("main\nif eq 1 1\nelse\nelse\njoin\nend", 4, 4),
        ("main\nif eq 1 1\nelse\nend", 4, 4),
        ("main\nif eq 1 1\nelse\njoin\njoin\nend", 4, 5),
        ("main\nif eq 1 1\nvar int a\nelse\njoin\nend", 4, 3),
        ("main\nend\nend", 4, 3),
        ("main\nend\nclass C", 4, 3),
        ("main\nend\nmain", 4, 3),
    ]);
}

/// W2: "A statement between it and the next `else`, `join` or `end` is number
/// 4."
#[test]
fn number_4_after_a_return() {
    let in_method = |lines: &str| {
        let lines = format!("requires\nensures\nvar int i\n{lines}\nend");
        check(&script(&method_with("method int m int w", &lines)))
    };
    assert_eq!(in_method("return w"), (0, 0));
    assert_eq!(in_method("return w\nreturn w"), (4, 9));
    for line in ["let i 1", "assert", "if eq 1 1", "new x S", "var int j"] {
        assert_eq!(in_method(&format!("return w\n{line}")), (4, 9), "{line}");
        let after = format!("if eq w 1\nreturn w\n{line}\nelse\njoin");
        assert_eq!(in_method(&after), (4, 10), "{line}");
        let after = format!("if eq w 1\nelse\nreturn w\n{line}\njoin");
        assert_eq!(in_method(&after), (4, 11), "{line}");
    }
    // Lines after the `join` may stand, whether a run reaches them or not.
    let both = "if eq w 1\nreturn w\nelse\nreturn i\njoin\nlet i 1\nreturn i";
    assert_eq!(in_method(both), (0, 0));
}

#[test]
fn texts_without_classes_fields_or_statements() {
    checks(&[
        ("main\nend", 0, 0),
        ("class C\nmain\nend", 0, 0),
        ("class C\nclass D\nfield C c\nmain\nend", 0, 0),
        (
            "class C\nmethod int m int w\nrequires\nensures\nend\nmain\nend",
            0,
            0,
        ),
        ("main\nif eq 1 1\nelse\njoin\nend", 0, 0),
    ]);
    assert_eq!(printed(b"main\nend\n"), b"check\t0\t0\nrun\t0\t2\t1\n");
}

#[test]
fn words_of_lines_may_be_names() {
    let source = "class class\nfield class acc\nfield int eq\nmethod int method int end\n\
                  requires acc this eq\nensures acc this eq eq this.eq end\nvar int main\n\
                  set this eq end\nend\nmain\nvar class main\nvar int let\nvar int if\n\
                  new main class\ncall let main method if\nassert eq main.eq if acc main acc\nend";
    assert_eq!(check(&script(source)), (0, 0));
    // Each kind of name has a space of its own.
    let source = "class a\nfield a a\nmethod a a a a\nrequires\nensures\nreturn a\nend\nmain\n\
                  var a a\nvar a b\nnew a a\ncall b a a a\nend";
    assert_eq!(check(&script(source)), (0, 0));
}

#[test]
fn number_5_after_4_on_a_line_and_line_by_line() {
    let fields: String = (0..9).map(|at| format!("field int f{at}\n")).collect();
    checks(&[
        (&format!("class C\n{fields}main\nend"), 5, 10),
        (&format!("class C\n{fields}nonsense"), 5, 10),
        (
            &format!("class C\n{fields}").replace("int f8", "int f8 x"),
            4,
            10,
        ),
        // 6 on line 3 is found only after the whole text was read.
        (
            &format!("class C\n{fields}main\nend").replace("f1", "f0"),
            5,
            10,
        ),
    ]);
}

#[test]
fn number_8_is_the_count_of_lines() {
    let lines = example();
    for kept in 0..lines.len() {
        assert_eq!(check(&text(&lines[..kept])), (8, kept as u32));
    }
    // 8 comes before 6, 7 and 9.
    checks(&[
        ("class C\nfield D d", 8, 2),
        ("main\nlet a 5", 8, 2),
        ("main\nif eq 1 null\nelse\njoin", 8, 4),
    ]);
}
