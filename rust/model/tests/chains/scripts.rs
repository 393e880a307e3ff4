//! W9.0: scripts as stations write them. "A recursive walk over a chain must pass
//! the check, and document 01's demand on accepted scripts holds for it."

use crate::common::{ran, script};
use model::{bound, check, trial};

/// The length of a chain, by a method that calls itself.
const WALK: &str = "class S\nfield S prev\nfield int n\nmethod int len int k\n\
    requires ne this null chain this prev\nensures chain this prev\nvar S p\nvar int r\nvar int one\n\
    open p this prev\nif eq p null\nlet r 0\nelse\ncall r p len k\n\
    join acc this prev eq this.prev p chain p prev\nlet one 1\nadd r r one\nshut this prev\nreturn r\n\
    end\nmain\nvar S a\nvar S b\nvar S c\nvar int x\nvar int y\nnew a S\nshut a prev\nnew b S\n\
    set b prev a\nshut b prev\nnew c S\nset c prev b\nshut c prev\ncall x c len y\n\
    assert chain c prev\nend";

#[test]
fn the_recursive_walk() {
    let text = script(WALK);
    assert_eq!(check(&text), (0, 0));
    let run = model::run(&text, 1_000);
    assert_eq!((run.number, run.line, run.steps), (0, 37, 36));
    assert_eq!(run.values[..5], [1, 2, 3, 3, 0]);
    assert_eq!(bound(&text).number, 15);
    for allowed in 0..36 {
        assert_eq!(trial(&text, allowed).number, 21, "{allowed}");
    }
}

/// Tempting: the chain handed on without `open`, kept beside the call, or not
/// closed again.
#[test]
fn walks_that_are_refused() {
    let with = |from: &str, to: &str| {
        assert!(WALK.contains(from), "{from}");
        check(&script(&WALK.replacen(from, to, 1)))
    };
    assert_eq!(with("open p this prev\n", "let p this.prev\n"), (11, 10));
    assert_eq!(with("shut this prev\n", ""), (12, 18));
    assert_eq!(with("if eq p null", "if eq k 0"), (13, 14));
    assert_eq!(with("ensures chain this prev", "ensures"), (12, 15));
    assert_eq!(
        with("ne this null chain this prev", "chain this prev"),
        (13, 10)
    );
    assert_eq!(with(" chain p prev", ""), (12, 18));
    assert_eq!(with("new a S\nshut a prev\n", "new a S\n"), (12, 30));
}

/// A chain that a loop grows, walks over and takes apart.
#[test]
fn loops_over_chains() {
    let grown = "class S\nfield S prev\nfield int n\nmain\nvar S a\nvar S b\nvar int i\nvar int one\n\
                 let a null\nloop ne i 3 chain a prev\nnew b S\nset b prev a\nshut b prev\nlet a b\n\
                 let one 1\nadd i i one\nagain\nassert chain a prev\n";
    let text = script(&format!("{grown}end"));
    assert_eq!(check(&text), (0, 0));
    assert_eq!(ran(&text, 1_000), (0, 19, 28));
    // Taken apart card by card: each `prev` is let go.
    let apart = "loop ne a null chain a prev\nopen b a prev\nlet a b\nagain\nend";
    let text = script(&format!("{grown}{apart}"));
    assert_eq!(check(&text), (0, 0));
    assert_eq!(ran(&text, 1_000).0, 0);
    // Without the `shut` the invariant is not there again.
    let text = script(&format!("{grown}end").replace("shut b prev\n", ""));
    assert_eq!(check(&text), (12, 16));
    assert_eq!(ran(&text, 1_000).0, 0);
}

/// A chain split in two, and one put on the other's card.
#[test]
fn split_and_joined() {
    let source = "class S\nfield S p\nmethod int m S w\nrequires chain this p ne this null chain w p ne w null\n\
                  ensures chain this p chain w p\nvar S x\nvar S y\nopen x this p\nopen y w p\nset this p y\n\
                  set w p x\nshut this p\nshut w p\nend\nmain\nvar S s\nvar S t\nvar int a\nnew s S\nshut s p\n\
                  new t S\nset t p s\nshut t p\nnew s S\nshut s p\ncall a t m s\nassert chain t p chain s p\nend";
    let text = script(source);
    assert_eq!(check(&text), (0, 0));
    assert_eq!(ran(&text, 1_000).0, 0);
    // One chain for both is not shown, and is a card too many for the machine.
    let one = source.replace("call a t m s", "call a t m t");
    assert_eq!(check(&script(&one)), (12, 26));
    assert_eq!(ran(&script(&one), 1_000).0, 24);
    // Exchanged without the first `open`: the chain of x is not there.
    let text = script(&source.replace("open x this p\n", ""));
    assert_eq!(check(&text), (12, 9));
}
