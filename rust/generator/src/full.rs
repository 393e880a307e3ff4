//! Full states of the checker, by permissions, facts, halves or chains.

use super::program::joined;
use super::recipes::push;
use super::rng::Rng;

/// States at 64 permissions or 64 facts, or one past it, or not quite there.
pub fn full_state(rng: &mut Rng) -> Vec<u8> {
    let mut lines = Vec::new();
    givers(rng, &mut lines);
    push(&mut lines, "main\nvar M m\nvar int a\nvar int b");
    (0..9).for_each(|at| push(&mut lines, &format!("var C c{at}")));
    push(&mut lines, "new m M\ncall c0 m all b");
    for at in 1..rng.within(5, 12) {
        let line = match rng.below(7) {
            0 => "call a m facts b".to_string(),
            1 => "call a m look c0".to_string(),
            2 => format!("new c{} C", at % 9),
            3 => format!("let c{} c{}", rng.below(9), rng.below(9)),
            _ => format!("call c{} m all b", at % 9),
        };
        push(&mut lines, &line);
    }
    for _ in 0..rng.within(0, 8) {
        let line = match rng.below(7) {
            0 => format!("let a {}", rng.below(3)),
            1 => "if eq a b\nelse\njoin".to_string(),
            2 => format!("set c{} f0 b", rng.below(9)),
            3 => format!("release acc c{} f0", rng.below(9)),
            4 => "call a m look c0".to_string(),
            _ => "call a m facts b".to_string(),
        };
        push(&mut lines, &line);
    }
    push(&mut lines, "end");
    joined(&lines)
}

/// A class with methods that give permissions, whole or by halves, and facts, and
/// one that gives back the half that it takes.
fn givers(rng: &mut Rng, lines: &mut Vec<String>) {
    let fields = rng.within(1, 8);
    let facts = rng.within(0, 8);
    push(lines, "class C\nfield int f0");
    for at in 1..8 {
        let kind = rng.pick(&["int", "C", "M"]);
        push(lines, &format!("field {kind} f{at}"));
    }
    let whole = if fields > 4 {
        " acc result F"
    } else {
        rng.pick(&[" acc result F", " read result F read result F"])
    };
    let held: String = (0..fields)
        .map(|at| whole.replace('F', &format!("f{at}")))
        .collect();
    push(lines, "class M\nmethod C all int w\nrequires");
    push(
        lines,
        &format!("ensures{held}\nvar C c\nnew c C\nreturn c\nend"),
    );
    push(
        lines,
        "method int look C w\nrequires read w f0\nensures read w f0\nend",
    );
    let known = [
        " eq 1 1",
        " eq w w",
        " ne 1 2",
        " ne 2 1",
        " ne 7 0",
        " eq null null",
    ];
    let eq: String = (0..facts).map(|_| rng.pick(&known)).collect();
    push(
        lines,
        &format!("method int facts int w\nrequires\nensures{eq}\nend"),
    );
}

/// States of 64 permissions, or nearly so, in which halves are taken and joined.
pub fn full_of_halves(rng: &mut Rng) -> Vec<u8> {
    let mut lines = Vec::new();
    push(&mut lines, "class C");
    (0..8).for_each(|at| push(&mut lines, &format!("field int f{at}")));
    let whole: String = (0..8).map(|at| format!(" acc result f{at}")).collect();
    let half = rng.pick(&["read result f0", "read result f0 read result f0"]);
    let source = "class M\nmethod C all int k\nrequires\nensures WHOLE\nvar C c\nnew c C\nreturn c\n\
                  end\nmethod C some int k\nrequires\nensures HALF\nvar C c\nnew c C\nreturn c\nend\n\
                  method int look C w\nrequires read w f0 read w f7\nensures read w f0 read w f7\n\
                  end\nmain\nvar M m\nvar int a";
    push(
        &mut lines,
        &source.replace(" WHOLE", &whole).replace("HALF", half),
    );
    (0..10).for_each(|at| push(&mut lines, &format!("var C c{at}")));
    push(&mut lines, "new m M");
    (0..8).for_each(|at| push(&mut lines, &format!("call c{at} m all a")));
    for _ in 0..rng.within(1, 5) {
        let card = rng.below(8);
        let more = [
            format!("call a m look c{card}"),
            format!("release read c{card} f{}", rng.below(8)),
            format!("release acc c{card} f{}", rng.below(8)),
            format!("call c{} m some a", 8 + rng.below(2)),
        ];
        push(&mut lines, &rng.pick(&more));
    }
    push(&mut lines, "end");
    joined(&lines)
}

/// States of 64 permissions, or nearly so, most of them chains, in which cards are
/// made, shut and opened.
pub fn full_of_chains(rng: &mut Rng) -> Vec<u8> {
    let mut lines = Vec::new();
    let eight = " chain result p".repeat(8);
    let source = "class S\nfield S p\nmethod S all int w\nrequires\nensuresCHAINS\nvar S x\nlet x null\nreturn x\n\
                  end\nmethod int look S w\nrequires chain w p\nensures chain w p\nend\nmain\nvar S s\n\
                  var S t\nvar S u\nvar int a";
    push(&mut lines, &source.replace("CHAINS", &eight));
    (0..8).for_each(|at| push(&mut lines, &format!("var S c{at}")));
    push(&mut lines, "new s S");
    if rng.chance(80) {
        push(&mut lines, "release acc s p");
    }
    let calls = rng.pick(&[7, 8, 8, 8]);
    (0..calls).for_each(|at| push(&mut lines, &format!("call c{at} s all a")));
    for _ in 0..rng.pick(&[0, 1, 1, 1, 2, 3]) {
        let card = rng.below(calls);
        push(&mut lines, &format!("release chain c{card} p"));
    }
    for _ in 0..rng.within(1, 5) {
        let card = rng.below(calls);
        let more = [
            "new t S".to_string(),
            "new t S\nshut t p".to_string(),
            "new t S\nshut t p\nopen u t p".to_string(),
            "new t S\nshut t p\nassert chain t p\nopen u t p".to_string(),
            "new t S\nset t p CARD\nshut t p".replace("CARD", &format!("c{card}")),
            format!("call a s look c{card}"),
            format!("let c{card} null\nassert chain c{card} p"),
            format!("if ne c{card} null\nopen u c{card} p\nelse\njoin chain c{card} p"),
        ];
        push(&mut lines, &rng.pick(&more));
    }
    push(&mut lines, "end");
    joined(&lines)
}
