//! W8.4 and W8.8: where a `read` that is added joins another, and where not.

use crate::common::{checks, main_with, script};
use crate::{listed, listed_before, mains, method, methods};
use model::check;
use model::names::FIRST_LOCAL;
use model::text::Share::{Acc, Read};

/// What a method with this requires starts from, as atoms.
fn started(requires: &str) -> String {
    let listed = listed_before(&method(requires, "", "assert"), 9);
    let names = ["this", "w"];
    let atoms: Vec<String> = listed
        .iter()
        .map(|(share, var, field)| format!("{} {} {field}", share.word(), names[*var]))
        .collect();
    atoms.join(" ")
}

#[test]
fn a_read_joins_the_first_read_of_an_equal_path() {
    let times = |count: usize| vec!["read this n"; count].join(" ");
    let cases = [
        ("read this n", "read this n"),
        (&times(2), "acc this n"),
        // Atom by atom.
        (&times(3), "acc this n read this n"),
        (&times(4), "acc this n acc this n"),
        // Under the name and in the place of the first.
        ("read this n eq this w read w n", "acc this n"),
        ("read this n acc w n read this n", "acc this n acc w n"),
        (
            "read w n read this n eq this w read this n",
            "acc w n read this n",
        ),
        // An `acc` joins nothing, and a `read` does not join it.
        ("acc this n read this n", "acc this n read this n"),
        ("read this n acc this n", "read this n acc this n"),
        (
            "read this n acc this n read this n",
            "acc this n acc this n",
        ),
    ];
    for (requires, expected) in cases {
        assert_eq!(started(requires), expected, "{requires}");
    }
}

#[test]
fn an_equal_path_is_one_of_an_equal_variable() {
    for (requires, expected) in [
        // Equal only later, another field, equal values.
        ("read this n read w n eq this w", "read this n read w n"),
        ("read this n read this prev", "read this n read this prev"),
        (
            "read this prev eq this.prev w read w prev",
            "read this prev read w prev",
        ),
        (
            "read this n eq this.n 3 read w n eq w.n 3",
            "read this n read w n",
        ),
        // Equal through a path.
        (
            "acc w prev eq w.prev this eq w.prev w read this n read w n",
            "acc w prev acc this n",
        ),
    ] {
        assert_eq!(started(requires), expected, "{requires}");
    }
}

#[test]
fn what_is_joined_is_a_whole_one() {
    methods(&[
        ("read this n read this n", "set this n i", 0, 0),
        ("read this n eq this w read w n", "set w n i", 0, 0),
        ("read this n read w n eq this w", "set w n i", 12, 9),
        (
            "read this n eq this.n 4 read this n",
            "assert acc this n eq this.n 4",
            0,
            0,
        ),
        // Two halves that are not joined are two halves all the same.
        (
            "read this n read w n eq this w",
            "assert read this n read this n",
            0,
            0,
        ),
        // An equality or a renaming joins nothing.
        (
            "read this n read w n",
            "let x this\nif eq x w\nlet x null\nassert acc this n\nelse\njoin",
            12,
            12,
        ),
    ]);
    // A renaming: two entries of one name, and both are halves.
    let source = main_with(
        "new s S\nnew t S\nrelease read s n read t n acc s prev acc t prev\nif eq s t\nlet t null\n\
         assert read s n read s n\nassert acc s n\nelse\njoin",
    );
    let half = listed(Read, FIRST_LOCAL, "n");
    assert_eq!(listed_before(&source, 14), [half.clone(), half]);
    checks(&[(&source, 12, 15)]);
}

/// "This holds wherever a formula is added".
#[test]
fn ensures_join_and_loop_join_too() {
    let s = FIRST_LOCAL;
    let (prev, n) = (listed(Acc, s, "prev"), listed(Acc, s, "n"));
    let look = "class S\nfield S prev\nfield int n\nmethod int look int k\nrequires read this n\n\
                ensures read this n\nend\nmain\nvar S s\nvar S t\nvar int a\nvar int b\n";
    // A call: what was taken comes back, in its place.
    let source = format!("{look}new s S\ncall a s look b\nset s n a\nassert eq s.n a\nend");
    checks(&[(&source, 0, 0)]);
    assert_eq!(listed_before(&source, 15), [prev.clone(), n.clone()]);
    // By another name of the card.
    let source = format!("{look}new s S\nlet t s\ncall a t look b\nset s n a\nend");
    checks(&[(&source, 0, 0)]);
    assert_eq!(listed_before(&source, 16), [prev.clone(), n.clone()]);
    // Where the half that is left was released, one half comes back.
    let source = format!("{look}new s S\nrelease read s n\ncall a s look b\nset s n a\nend");
    checks(&[(&source, 12, 16)]);
    let half = [prev, listed(Read, s, "n")];
    assert_eq!(listed_before(&source, 16), half);
    mains(&[
        (
            "new s S\nif eq a b\nelse\njoin read s n read s n\nset s n a",
            0,
            0,
        ),
        ("new s S\nif eq a b\nelse\njoin read s n\nset s n a", 12, 13),
        (
            "new s S\nloop ne a b read s n read s n\nset s n a\nlet a b\nagain\nset s n b",
            0,
            0,
        ),
        ("new s S\nloop ne a b read s n\nset s n a\nagain", 12, 11),
    ]);
}

/// The last half that is taken and given back is a half again.
#[test]
fn a_call_that_gives_a_half_back() {
    let source = "class S\nfield int n\nmethod int half S w\nrequires read w n\n\
                  ensures read w n ne w null\nend\nmain\nvar S s\nvar S t\nvar int a\nnew s S\nnew t S\n\
                  release read t n\ncall a s half t\nassert read t n ne t null\nassert acc t n\nend";
    assert_eq!(check(&script(source)), (12, 16));
}

/// A class with eight fields, a method that gives a card whole, one that gives a
/// card with two halves of its first field, one that gives back the half that
/// it takes, and eight cards, so that 8 x 8 permissions fit.
fn cards(count: usize, then: &str) -> Vec<u8> {
    let fields: String = (0..8).map(|at| format!("field int f{at}\n")).collect();
    let whole: String = (0..8).map(|at| format!(" acc result f{at}")).collect();
    let vars: String = (0..10).map(|at| format!("var C c{at}\n")).collect();
    let made: String = (0..count)
        .map(|at| format!("call c{at} m all a\n"))
        .collect();
    script(&format!(
        "class C\n{fields}class M\nmethod C all int k\nrequires\nensures{whole}\nvar C c\nnew c C\n\
         return c\nend\nmethod C two int k\nrequires\nensures read result f0 read result f0\nvar C c\n\
         new c C\nreturn c\nend\nmethod C one int k\nrequires\nensures read result f0\nvar C c\nnew c C\n\
         return c\nend\nmethod int look C w\nrequires read w f0 read w f7\n\
         ensures read w f0 read w f7\nend\nmain\nvar M m\n{vars}var int a\nnew m M\n{made}{then}\nend"
    ))
}

#[test]
fn a_joined_read_is_no_further_permission() {
    let number = |count, then: &str| check(&cards(count, then)).0;
    assert_eq!(number(8, "assert acc c7 f7"), 0);
    assert_eq!(number(8, "call c8 m one a"), 14);
    assert_eq!(number(8, "call c8 m two a"), 14);
    assert_eq!(number(8, "call a m look c0\nset c0 f0 a\nset c0 f7 a"), 0);
    // A half is one of the 64, and both halves of a path are one.
    assert_eq!(number(7, "release acc c0 f1\ncall c8 m all a"), 0);
    let room = "release acc c0 f1\n";
    assert_eq!(number(8, &format!("{room}call c8 m one a")), 0);
    assert_eq!(number(8, &format!("{room}call c8 m two a\nset c8 f0 a")), 0);
    assert_eq!(
        number(8, &format!("{room}call c8 m two a\ncall c9 m one a")),
        14
    );
    // A half that is left of a whole is one still.
    assert_eq!(number(8, "release read c0 f1\ncall c8 m one a"), 14);
    let main = main_with("new s S\nrelease read s n read s n\nassert read s prev");
    assert_eq!(check(&script(&main)), (0, 0));
}
