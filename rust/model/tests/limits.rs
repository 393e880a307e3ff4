//! Each limit, at it and one past it.

mod common;

use common::{ran, script, text};
use model::check;
use model::limits::{FACTS, FRAMES, HEAP_FIELDS, OBJECTS, PERMISSIONS, TEXT_BYTES};

/// A main of asserts, of exactly so many bytes.
fn text_of(bytes: usize) -> Vec<u8> {
    let mut text = b"main\n".to_vec();
    let end = b"end\n".len();
    let long = format!("assert{}\n", "\tne\t0\t1000000000".repeat(8));
    while text.len() + end + long.len() + 30 <= bytes {
        text.extend(long.bytes());
    }
    while text.len() + end < bytes {
        let missing = bytes - end - text.len();
        let room = if missing > 40 { 20 } else { missing };
        // `assert`, tab, `ne`, tab, `0`, tab and LF are 13 bytes.
        let digits = match room {
            14..=22 => room - 13,
            _ => room / 2 - 13,
        };
        let number = format!("1{}", "0".repeat(digits - 1));
        text.extend(format!("assert\tne\t0\t{number}\n").bytes());
    }
    text.extend_from_slice(b"end\n");
    text
}

#[test]
fn bytes_of_the_text() {
    let full = text_of(TEXT_BYTES);
    assert_eq!(full.len(), TEXT_BYTES);
    assert_eq!(check(&full), (0, 0));
    let over = text_of(TEXT_BYTES + 1);
    assert_eq!(over.len(), TEXT_BYTES + 1);
    assert_eq!(check(&over), (2, 0));
    assert_eq!(ran(&over, 5), (2, 0, 0));
    assert_eq!(check(&vec![0; TEXT_BYTES + 1]), (2, 0));
    assert_eq!(check(&vec![0; TEXT_BYTES]), (3, 1));
    assert_eq!(check(&vec![b'\n'; TEXT_BYTES]), (4, 1));
}

#[test]
fn the_line_with_the_largest_number() {
    // Nothing follows main's `end`; the last byte of a full text is line 32,760.
    let mut text = b"main\nend\n".to_vec();
    text.resize(TEXT_BYTES, b'\n');
    assert_eq!(check(&text), (4, 3));
}

fn numbered(count: usize, line: impl Fn(usize) -> String) -> Vec<String> {
    (0..count).map(line).collect()
}

/// The check of `before`, then `count` lines, then `after`.
fn counted(before: &str, count: usize, line: impl Fn(usize) -> String, after: &str) -> (u32, u32) {
    let parts = |source: &str| source.lines().map(String::from).collect::<Vec<_>>();
    check(&text(
        &[parts(before), numbered(count, line), parts(after)].concat(),
    ))
}

#[test]
fn classes() {
    let class = |at| format!("class C{at}");
    assert_eq!(counted("", 16, class, "main\nend"), (0, 0));
    assert_eq!(counted("", 17, class, "main\nend"), (5, 17));
    // The 16 are those of the text, with fields and methods between them.
    let with_field = |at| match at % 2 {
        0 => format!("class C{at}"),
        _ => "field int n".to_string(),
    };
    assert_eq!(counted("", 32, with_field, "main\nend"), (0, 0));
    assert_eq!(counted("", 33, with_field, "main\nend"), (5, 33));
}

#[test]
fn fields_of_a_class() {
    let field = |at| format!("field int f{at}");
    assert_eq!(counted("class C", 8, field, "main\nend"), (0, 0));
    assert_eq!(counted("class C", 9, field, "main\nend"), (5, 10));
    // Each class has its own eight.
    let more = "class D\nfield int f\nmain\nend";
    assert_eq!(counted("class C", 8, field, more), (0, 0));
}

#[test]
fn methods_of_the_text() {
    let method = |at| match at % 4 {
        0 => format!("method int m{at} int w"),
        1 => "requires".to_string(),
        2 => "ensures".to_string(),
        _ => "end".to_string(),
    };
    assert_eq!(counted("class C", 4 * 64, method, "main\nend"), (0, 0));
    let line = 1 + 4 * 64 + 1;
    assert_eq!(counted("class C", 4 * 65, method, "main\nend"), (5, line));
    // They are counted over all classes.
    let more = "class D\nmethod int m int w\nrequires\nensures\nend\nmain\nend";
    assert_eq!(counted("class C", 4 * 63, method, more), (0, 0));
    assert_eq!(counted("class C", 4 * 64, method, more), (5, line + 1));
}

#[test]
fn locals_of_a_block() {
    let var = |at| format!("var int x{at}");
    assert_eq!(counted("main", 12, var, "end"), (0, 0));
    assert_eq!(counted("main", 13, var, "end"), (5, 14));
    // The parameter is not one of them, and each block has its own twelve.
    let method = "class C\nmethod int m int w\nrequires\nensures";
    let main = "end\nmain\nvar int x0\nvar int x1\nend";
    assert_eq!(counted(method, 12, var, main), (0, 0));
    assert_eq!(counted(method, 13, var, main), (5, 17));
}

#[test]
fn statement_lines_of_the_text() {
    let assert = |_| "assert".to_string();
    assert_eq!(counted("main", 255, assert, "end"), (0, 0));
    assert_eq!(counted("main", 256, assert, "end"), (5, 258));
    assert_eq!(counted("main", 257, assert, "end"), (5, 258));
    // `if`, `else`, `join` and each block's `end` are among them.
    let blocks = "class C\nmethod int m int w\nrequires\nensures\nassert\nend\n\
                  main\nif eq 1 1\nelse\njoin";
    assert_eq!(counted(blocks, 250, assert, "end"), (0, 0));
    assert_eq!(counted(blocks, 251, assert, "end"), (5, 262));
    // On a line 4 comes before 5.
    assert_eq!(counted(blocks, 251, assert, "join"), (4, 262));
}

#[test]
fn nesting_of_branches() {
    let nested = |depth: usize| {
        let opened = numbered(depth, |_| "if eq 1 1".to_string());
        let closed = (0..depth).flat_map(|_| ["else".to_string(), "join".to_string()]);
        let mut lines = vec!["main".to_string()];
        lines.extend(opened);
        lines.extend(closed);
        lines.push("end".to_string());
        check(&text(&lines))
    };
    assert_eq!(nested(4), (0, 0));
    assert_eq!(nested(5), (5, 6));
    // Deep in a second branch, and again after a `join`.
    let second = |depth: usize| {
        let mut lines = vec!["main".to_string()];
        for _ in 0..2 {
            lines.extend((0..depth).flat_map(|_| ["if eq 1 1".to_string(), "else".to_string()]));
            lines.extend(numbered(depth, |_| "join".to_string()));
        }
        lines.push("end".to_string());
        check(&text(&lines))
    };
    assert_eq!(second(4), (0, 0));
    assert_eq!(second(5), (5, 10));
}

#[test]
fn length_of_a_name() {
    let local = |name: &str| check(&script(&format!("main\nvar int {name}\nend")));
    assert_eq!(local("abcdefghijkl"), (0, 0));
    assert_eq!(local("abcdefghijklm"), (4, 2));
    assert_eq!(local("a23456789012"), (0, 0));
    assert_eq!(local("a234567890123"), (4, 2));
    let path = |field: &str| {
        check(&script(&format!(
            "class C\nfield int abcdefghijkl\nmain\nvar C abcdefghijkl\nvar int a\n\
             new abcdefghijkl C\nlet a abcdefghijkl.{field}\nend"
        )))
    };
    assert_eq!(path("abcdefghijkl"), (0, 0));
    assert_eq!(path("abcdefghijklm"), (4, 7));
}

#[test]
fn numbers() {
    let value = |number: &str| check(&script(&format!("main\nvar int a\nlet a {number}\nend")));
    for number in ["0", "2147483647", "-2147483648", "-1", "9"] {
        assert_eq!(value(number), (0, 0), "{number}");
    }
    for number in [
        "2147483648",
        "-2147483649",
        "-0",
        "00",
        "01",
        "-",
        "+1",
        "99999999999",
    ] {
        assert_eq!(value(number), (4, 3), "{number}");
    }
}

#[test]
fn atoms_of_a_formula() {
    let formula = |word: &str, atoms: usize| {
        let line = format!("{word}{}", " eq 1 1".repeat(atoms));
        let method = match word {
            "requires" => format!("{line}\nensures"),
            "ensures" => format!("requires\n{line}"),
            _ => "requires\nensures".to_string(),
        };
        let body = match word {
            "assert" | "release" => line,
            "join" => format!("if eq 1 1\nelse\n{line}"),
            _ => "assert".to_string(),
        };
        let source = format!("class C\nmethod int m int w\n{method}\n{body}\nend\nmain\nend");
        check(&script(&source))
    };
    let places = [
        ("requires", 3),
        ("ensures", 4),
        ("assert", 5),
        ("release", 5),
        ("join", 7),
    ];
    for (word, line) in places {
        assert_eq!(formula(word, 0), (0, 0), "{word}");
        assert_eq!(formula(word, 8), (0, 0), "{word}");
        assert_eq!(formula(word, 9), (4, line), "{word}");
    }
}

/// A class `M` whose method `all` gives a new object of `C` with `fields`
/// permissions and no facts, and whose method `facts` gives `facts` facts.
/// The first statement of main, which has twelve variables, is on line 36.
fn givers(fields: usize, facts: usize, statements: &[String]) -> Vec<u8> {
    let acc: String = (0..fields).map(|at| format!(" acc result f{at}")).collect();
    let mut lines = vec!["class C".to_string()];
    lines.extend(numbered(8, |at| format!("field int f{at}")));
    let head = format!(
        "class M\nmethod C all int w\nrequires\nensures{acc}\nvar C c\nnew c C\nreturn c\nend\n\
         method int facts int w\nrequires\nensures{}\nend\nmain\nvar M m\nvar int a",
        " ne 1 2".repeat(facts)
    );
    lines.extend(head.lines().map(String::from));
    lines.extend(numbered(10, |at| format!("var C c{at}")));
    lines.push("new m M".to_string());
    lines.extend_from_slice(statements);
    lines.push("end".to_string());
    text(&lines)
}

#[test]
fn permissions_of_a_state() {
    let calls = |count| numbered(count, |at| format!("call c{at} m all a"));
    let check_with = |fields, statements: Vec<String>| check(&givers(fields, 0, &statements));
    assert_eq!(8 * 8, PERMISSIONS);
    assert_eq!(check_with(8, calls(8)), (0, 0));
    assert_eq!(check_with(8, calls(9)), (14, 44));
    // One permission more, by `new`: 14 stands where the adding is.
    let one_more = |calls: Vec<String>| [calls, vec!["new c9 C".to_string()]].concat();
    assert_eq!(check_with(7, one_more(calls(8))), (0, 0));
    assert_eq!(check_with(7, one_more(calls(9))), (14, 45));
    // A variable assigned again gives its own permissions up first.
    let again = [calls(8), calls(8)].concat();
    assert_eq!(check_with(8, again), (0, 0));
    let released = [
        calls(8),
        vec!["release acc c0 f0".into(), "new c0 C".into()],
    ]
    .concat();
    assert_eq!(check_with(8, released), (0, 0));
}

#[test]
fn facts_of_a_state() {
    let line = |line: &str| vec![line.to_string()];
    let calls = |count| numbered(count, |_| "call a m facts b".to_string());
    let with = |facts, count, more: Vec<String>| {
        // `m ≠ null` is one fact; `b` stands for a variable of int.
        let text = givers(1, facts, &[calls(count), more].concat());
        let text = String::from_utf8(text).unwrap();
        check(text.replace("var\tC\tc9", "var\tint\tb").as_bytes())
    };
    assert_eq!(1 + 9 * 7, FACTS);
    assert_eq!(with(7, 9, vec![]), (0, 0));
    assert_eq!(with(7, 10, vec![]), (14, 45));
    assert_eq!(with(7, 9, line("let a 1")), (14, 45));
    assert_eq!(with(8, 7, line("new c0 C")), (14, 43));
    // At `if` both branches add a fact; what is shown needs no room.
    assert_eq!(with(7, 9, line("assert eq 1 1 ne 1 2")), (0, 0));
    let branch: Vec<String> = ["if eq 1 1", "else", "join"].map(String::from).to_vec();
    assert_eq!(with(7, 9, branch.clone()), (14, 45));
    assert_eq!(with(7, 8, branch), (0, 0));
    // 11 and 13 come before 14.
    assert_eq!(with(7, 9, line("let a c0.f0")), (11, 45));
    let unresolved = ["if eq a c0.f0", "else", "join"].map(String::from).to_vec();
    assert_eq!(with(7, 9, unresolved), (11, 45));
    assert_eq!(with(7, 9, line("call c1 c2 all a")), (6, 45));
    assert_eq!(with(7, 9, line("set c0 f0 a")), (12, 45));
}

/// A main that calls a method, which makes four objects, so many times.
fn makers(calls: usize, fields: usize, more: &[&str]) -> Vec<u8> {
    let mut lines = vec!["class E".to_string()];
    lines.extend(numbered(fields, |at| format!("field int f{at}")));
    let method = "method int four int w\nrequires\nensures\nvar E x\nnew x E\nnew x E\nnew x E\n\
                  new x E\nend\nmain\nvar E e\nvar int a\nvar int b\nnew e E\nlet b 5";
    lines.extend(method.lines().map(String::from));
    lines.extend(numbered(calls, |_| "call a e four b".to_string()));
    lines.extend(more.iter().map(|line| line.to_string()));
    lines.push("end".to_string());
    text(&lines)
}

#[test]
fn objects_of_the_heap() {
    assert_eq!(1 + 63 * 4 + 3, OBJECTS);
    let full = makers(63, 0, &["new e E"; 3]);
    assert_eq!(check(&full), (0, 0));
    let steps = 2 + 63 * 6 + 3 + 1;
    assert_eq!(ran(&full, 100_000), (0, 83, steps));
    assert_eq!(model::run(&full, 100_000).values[0], 256);
    let over = makers(63, 0, &["new e E"; 4]);
    assert_eq!(check(&over), (0, 0));
    assert_eq!(ran(&over, 100_000), (22, 83, steps - 1));
    assert_eq!(model::run(&over, 100_000).values[..3], [256, 0, 5]);
    // A full heap inside a call: the line is the method's.
    let inside = makers(64, 0, &[]);
    assert_eq!(ran(&inside, 100_000), (22, 9, 2 + 63 * 6 + 4));
}

#[test]
fn fields_of_the_heap() {
    assert_eq!(128 * 8, HEAP_FIELDS);
    let full = makers(31, 8, &["new e E"; 3]);
    assert_eq!(check(&full), (0, 0));
    let steps = 2 + 31 * 6 + 3 + 1;
    assert_eq!(ran(&full, 100_000), (0, 59, steps));
    let over = makers(31, 8, &["new e E"; 4]);
    assert_eq!(check(&over), (0, 0));
    assert_eq!(ran(&over, 100_000), (22, 59, steps - 1));
    // 1,024 is no multiple of 3: 341 objects would fit, but 256 is the bound;
    // with 5 fields 204 objects fit, 1,020 fields of 1,024.
    let five = makers(51, 5, &[]);
    assert_eq!(ran(&five, 100_000), (22, 14, 2 + 50 * 6 + 4));
    // A full heap of fields still takes an object without fields.
    let mixed = "class E\nclass F\nfield int f\nmain\nend";
    assert_eq!(check(&script(mixed)), (0, 0));
}

#[test]
fn an_object_without_fields_fits_a_heap_full_of_fields() {
    let mut lines = vec!["class F".to_string()];
    lines.extend(numbered(8, |at| format!("field int f{at}")));
    lines.extend(["class E", "main", "var F f", "var E e"].map(String::from));
    lines.extend(numbered(128, |_| "new f F".to_string()));
    lines.extend(["new e E", "new f F", "end"].map(String::from));
    let text = text(&lines);
    assert_eq!(check(&text), (0, 0));
    assert_eq!(ran(&text, 1_000), (22, 143, 129));
    assert_eq!(model::run(&text, 1_000).values[..2], [128, 129]);
}

/// Methods m1 to m`depth`, each of which calls the next; main calls m1.
fn chain(depth: usize) -> Vec<u8> {
    let mut lines = vec!["class C".to_string()];
    for at in 1..=depth {
        lines.push(format!("method int m{at} int w"));
        lines.push("requires ne this null".to_string());
        lines.push("ensures".to_string());
        lines.push("var int r".to_string());
        if at < depth {
            lines.push(format!("call r this m{} w", at + 1));
        }
        lines.push("end".to_string());
    }
    let main = "main\nvar C c\nvar int a\nvar int b\nnew c C\ncall a c m1 b\nend";
    lines.extend(main.lines().map(String::from));
    text(&lines)
}

#[test]
fn frames() {
    assert_eq!(1 + 63, FRAMES);
    let full = chain(63);
    assert_eq!(check(&full), (0, 0));
    let lines = full.iter().filter(|&&byte| byte == b'\n').count() as u32;
    assert_eq!(ran(&full, 1_000), (0, lines, 2 + 62 + 63 + 1));
    let over = chain(64);
    assert_eq!(check(&over), (0, 0));
    // The call in m63 would be the frame 65: main's and 63 methods' are there.
    assert_eq!(ran(&over, 1_000), (23, 1 + 6 * 62 + 5, 2 + 62));
}

#[test]
fn endless_recursion_stops_with_frames_full() {
    let source = "class C\nmethod int m int w\nrequires ne this null\nensures\nvar int r\n\
                  call r this m w\nend\nmain\nvar C c\nvar int a\nvar int b\nnew c C\n\
                  call a c m b\nend";
    let text = script(source);
    assert_eq!(check(&text), (0, 0));
    assert_eq!(ran(&text, 1_000), (23, 6, 64));
    // 21 is tested before the step that would stop.
    assert_eq!(ran(&text, 64), (21, 6, 64));
    assert_eq!(ran(&text, 65), (23, 6, 64));
}

#[test]
fn requires_is_tested_before_frames_full() {
    let source =
        "class C\nfield int n\nmethod int m int w\nrequires ne this null ne w 7\nensures\n\
                  var int r\ncall r this m w\nend\nmain\nvar C c\nvar int a\nvar int b\nnew c C\n\
                  let b 7\ncall a c m b\nend";
    assert_eq!(ran(&script(source), 1_000), (26, 15, 2));
    let source = "class C\nfield int n\nmethod int m int w\nrequires acc this n\nensures\n\
                  var int r\ncall r this m w\nend\nmain\nvar C c\nvar int a\nvar int b\nnew c C\n\
                  call a c m b\nend";
    assert_eq!(check(&script(source)), (0, 0));
    assert_eq!(ran(&script(source), 1_000), (23, 7, 64));
}
