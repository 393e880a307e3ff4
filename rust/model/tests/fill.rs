//! W11: the first set of atoms with which a text is accepted, the order of what
//! refuses it, and its area. On generated texts the answer is the one that check
//! gives, set by set, of texts with the atoms written in.

mod common;

use common::{example, example_with, script, text};
use model::limits::{FIELDS, FILLED_ATOMS, PLACE_BYTES, TEXT_BYTES, WORK_BYTES};
use model::names::Type;
use model::{check, fill, fill_call, read, Filled};

fn filled(text: &[u8]) -> (u32, u32, [u8; PLACE_BYTES]) {
    let Filled {
        number,
        line,
        places,
    } = fill(text);
    (number, line, places)
}

/// A class `S` with `S p`, `int n` and `int k`, a class `T` with `int n`, and a
/// method of `S` with a w of this type, a star on line 8, and these lines after it.
fn method(param: &str, lines: &str, main: &str) -> Vec<u8> {
    script(&format!(
        "class T\nfield int n\nclass S\nfield S p\nfield int n\nfield int k\n\
         method int m {param} w\nrequires *\n{lines}\nend\nmain\n{main}\nend"
    ))
}

const STAR: u32 = 8;

#[test]
fn the_worked_script() {
    assert_eq!(filled(&example_with(5, "requires *")), (0, 0, [2, 0, 0, 0]));
    assert_eq!(filled(&text(&example())), (18, 0, [0; 4]));
}

#[test]
fn places() {
    let ensured =
        |param, atoms: &str| filled(&method(param, &format!("ensures {atoms}"), "assert"));
    assert_eq!(
        ensured("int", "acc this p acc this k"),
        (0, 0, [1, 3, 0, 0])
    );
    assert_eq!(ensured("T", "acc w n"), (0, 0, [4, 0, 0, 0]));
    assert_eq!(ensured("S", "acc w n acc this p"), (0, 0, [1, 5, 0, 0]));
    let four = "acc w k acc w n acc w p acc this k";
    assert_eq!(ensured("S", four), (0, 0, [3, 4, 5, 6]));
    let five = format!("{four} acc this n");
    assert_eq!(ensured("S", &five), (17, STAR, [0; 4]));
    // An int w has no fields, and no set has one place twice.
    let twice = "acc this n acc this n";
    assert_eq!(ensured("int", twice), (17, STAR, [0; 4]));
}

#[test]
fn fewer_first_and_then_the_earlier_place() {
    let body = |param, lines: &str| filled(&method(param, &format!("ensures\n{lines}"), "assert"));
    assert_eq!(body("S", "assert"), (0, 0, [0; 4]));
    // Any field shows that an object is there: the first.
    assert_eq!(body("S", "assert ne this null"), (0, 0, [1, 0, 0, 0]));
    assert_eq!(body("S", "assert ne w null"), (0, 0, [4, 0, 0, 0]));
    // Two of one name show that w is another one.
    assert_eq!(body("S", "assert ne this w"), (0, 0, [1, 4, 0, 0]));
    assert_eq!(
        body("S", "assert ne this w acc this k"),
        (0, 0, [3, 6, 0, 0])
    );
    // One place is fewer than two that come earlier.
    let either = "if eq w this\nassert acc this k\nelse\njoin";
    assert_eq!(body("S", either), (0, 0, [3, 0, 0, 0]));
}

#[test]
fn callers_have_what_is_filled_in() {
    let main = |lines: &str| format!("var S s\nvar int a\nvar int b\nnew s S\n{lines}");
    let wants = "ensures\nset this n w";
    let calls = method("int", wants, &main("call a s m b"));
    assert_eq!(filled(&calls), (0, 0, [2, 0, 0, 0]));
    let twice = method("int", wants, &main("call a s m b\ncall a s m b"));
    assert_eq!(filled(&twice), (17, STAR, [0; 4]));
    let none = method("int", "ensures", &main("call a s m b\nassert acc s n"));
    assert_eq!(filled(&none), (0, 0, [0; 4]));
    // Its own calls too: what it requires is what it shows there.
    let own = "ensures acc this n\nvar int a\nif eq w 0\nelse\ncall a this m w\njoin acc this n";
    assert_eq!(filled(&method("int", own, "assert")), (0, 0, [2, 0, 0, 0]));
}

#[test]
fn the_order_of_refusals() {
    let two = |first: &str, second: &str, main: &str| {
        let source = format!(
            "class S\nfield int n\nmethod int a int w\n{first}\nensures\nend\n\
             method int b int w\n{second}\nensures\nend\nmain\n{main}\nend"
        );
        filled(&script(&source))
    };
    let star = "requires *";
    assert_eq!(two(star, "requires", "assert"), (0, 0, [0; 4]));
    assert_eq!(two(star, star, "assert"), (18, 8, [0; 4]));
    // 2 to 9 come before both, on later lines too.
    assert_eq!(two(star, star, "let x 1"), (6, 12, [0; 4]));
    assert_eq!(two("requires", "requires", "wrong"), (4, 12, [0; 4]));
    assert_eq!(two(star, "requires acc this n *", "assert"), (4, 8, [0; 4]));
    // 18 comes before 10 and the rules, which are 17 at the star.
    let unframed = "requires eq this.n 1";
    assert_eq!(two("requires", unframed, "assert"), (18, 0, [0; 4]));
    assert_eq!(two(star, unframed, "assert"), (17, 4, [0; 4]));
    assert_eq!(two(star, "requires", "assert eq 1 2"), (17, 4, [0; 4]));
    assert_eq!(two("requires", star, "assert eq 1 2"), (17, 8, [0; 4]));
    assert_eq!(
        two("requires", "requires", "assert eq 1 2"),
        (18, 0, [0; 4])
    );
}

#[test]
fn forms_of_the_star() {
    for line in [
        "requires * *",
        "requires * acc this n",
        "requires acc this n *",
        "requires **",
        "requires acc * n",
        "requires acc this *",
        "requires *.n",
    ] {
        let text = example_with(5, line);
        assert_eq!(filled(&text), (4, 5, [0; 4]), "{line}");
    }
    for (line, new) in [
        (6, "ensures *"),
        (7, "assert *"),
        (14, "release *"),
        (10, "*"),
    ] {
        let mut lines = example();
        lines[4] = "requires *";
        lines[line - 1] = new;
        let line = line as u32;
        assert_eq!(filled(&text(&lines)), (4, line, [0; 4]), "{new}");
    }
    // A last line without LF is 3, and the star stands where `requires` may.
    let star = text(&["class S", "method int m int w", "requires *"]);
    assert_eq!(filled(&star), (8, 3, [0; 4]));
    assert_eq!(filled(&star[..star.len() - 1]), (3, 3, [0; 4]));
    assert_eq!(filled(b"requires\t*\n"), (4, 1, [0; 4]));
}

#[test]
fn areas() {
    let good = example_with(5, "requires *");
    let refused = text(&example());
    for (text, returned, places) in [
        (&good, 0, [2, 0, 0, 0]),
        (&refused, 18 * 65_536, [0; PLACE_BYTES]),
        (&vec![b'x'; TEXT_BYTES + 1], 2 * 65_536, [0; PLACE_BYTES]),
    ] {
        let (mut work, mut area) = (vec![7; WORK_BYTES], vec![9; PLACE_BYTES]);
        assert_eq!(fill_call(text, &mut work, &mut area), returned);
        assert_eq!((work, area), (vec![0; WORK_BYTES], places.to_vec()));
        for (work, area) in [
            (WORK_BYTES, PLACE_BYTES - 1),
            (WORK_BYTES, PLACE_BYTES + 1),
            (WORK_BYTES - 1, PLACE_BYTES),
            (WORK_BYTES + 1, PLACE_BYTES),
            (PLACE_BYTES, WORK_BYTES),
            (0, 0),
        ] {
            let (mut work, mut area) = (vec![7; work], vec![9; area]);
            assert_eq!(fill_call(text, &mut work, &mut area), 65_536);
            assert!(work.iter().all(|&byte| byte == 7));
            assert!(area.iter().all(|&byte| byte == 9));
        }
    }
}

/// The line of a star and its method's number among the methods, if the text has
/// this one star.
fn one_star(lines: &[&str]) -> Option<(usize, usize)> {
    let star = |line: &str| line == "requires\t*";
    if lines.iter().filter(|line| star(line)).count() != 1 {
        return None;
    }
    let at = lines.iter().position(|line| star(line))?;
    let methods = lines[..at]
        .iter()
        .filter(|line| line.starts_with("method\t"));
    Some((at, methods.count().checked_sub(1)?))
}

/// The atoms that may be filled in, as they are written.
fn atoms(text: &[u8], method: usize) -> Option<Vec<String>> {
    let program = read(text).ok()?;
    let header = program.blocks[method].header?;
    let vars = [
        (&b"this"[..], Type::Class(header.class)),
        (header.param.name, header.param.kind),
    ];
    let mut atoms = Vec::new();
    for (var, kind) in vars {
        let var = String::from_utf8_lossy(var);
        let Type::Class(class) = kind else { continue };
        let class = &program.classes[program.class(class)?];
        for field in &class.fields {
            let field = String::from_utf8_lossy(field.name);
            atoms.push(format!("\tacc\t{var}\t{field}"));
        }
    }
    Some(atoms)
}

/// Every set of at most four places, in the order in which they are tried.
fn every_set(places: usize) -> Vec<Vec<usize>> {
    let members = |bits: usize| {
        (1..=places)
            .filter(|at| bits >> (at - 1) & 1 == 1)
            .collect()
    };
    let sets = (0..1usize << places).filter(|bits| bits.count_ones() <= FILLED_ATOMS as u32);
    let mut sets: Vec<Vec<usize>> = sets.map(members).collect();
    sets.sort_by_key(|set| (set.len(), set.clone()));
    sets
}

/// The first set with which check accepts the text, by texts; no answer where the
/// text has not one star, or has none of the sets because of 2 to 9.
fn by_texts(text: &str) -> Option<Option<Vec<usize>>> {
    let lines: Vec<&str> = text.lines().collect();
    let (star, method) = one_star(&lines)?;
    let with = |atoms: &str| {
        let line = format!("requires{atoms}");
        let mut lines = lines.clone();
        lines[star] = &line;
        lines.join("\n") + "\n"
    };
    let atoms = atoms(with("").as_bytes(), method)?;
    let fits = |set: &&Vec<usize>| {
        let atoms: String = set.iter().map(|at| atoms[at - 1].clone()).collect();
        check(with(&atoms).as_bytes()).0 == 0
    };
    Some(every_set(atoms.len()).iter().find(fits).cloned())
}

#[test]
fn generated_texts() {
    assert_eq!(every_set(2 * FIELDS).len(), 1 + 16 + 120 + 560 + 1_820);
    let (mut found, mut none, mut last) = (0, 0, 0);
    for seed in 0..3_000 {
        let text = generator::starred(0x4e00_0000 + seed);
        let Ok(source) = std::str::from_utf8(&text) else {
            continue;
        };
        if !source.ends_with('\n') || text.len() > 10_000 {
            continue;
        }
        let Some(answer) = by_texts(source) else {
            assert!(![0, 17].contains(&fill(&text).number), "seed {seed}");
            continue;
        };
        let Filled { number, places, .. } = fill(&text);
        let given: Vec<usize> = places.iter().map(|&place| place.into()).collect();
        match answer {
            Some(mut set) => {
                found += 1;
                last += usize::from(set.len() == FILLED_ATOMS);
                set.resize(FILLED_ATOMS, 0);
                assert_eq!((number, given), (0, set), "seed {seed}");
            }
            None => {
                none += 1;
                assert_eq!((number, given), (17, vec![0; 4]), "seed {seed}");
            }
        }
    }
    println!("{found} found, {last} of four atoms; {none} without");
    assert!(found > 900 && none > 400 && last > 50);
}
