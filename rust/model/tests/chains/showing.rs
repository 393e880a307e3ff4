//! W9.2, W9.3, W9.6 and W9.9: what chains show and do not, how they are shown,
//! removed and handed over, and 64 of them.

use crate::common::{checks, script};
use crate::{before, listed, listed_before, mains, method, methods};
use model::check;
use model::limits::PERMISSIONS;
use model::names::{FIRST_LOCAL, PARAM, THIS};
use model::text::Share::{Acc, Chain};

/// W9.2: "no listed path: not for resolving, (c), (d), number 10, successors, nor
/// for `acc` or `read`".
#[test]
fn a_chain_is_no_listed_path() {
    let held = "chain this p ne this null chain w p ne w null";
    methods(&[
        (held, "let x this.p", 11, 15),
        (held, "assert eq this.p this.p", 11, 15),
        (held, "assert acc this p", 12, 15),
        (held, "assert read this p", 12, 15),
        (held, "set this p x", 12, 15),
        ("chain this p", "assert ne this null", 13, 15),
        ("chain this p chain w p", "assert ne this w", 13, 15),
        ("chain this p acc w p", "assert ne this w", 13, 15),
        ("acc this p chain w p", "assert ne w this", 13, 15),
        ("acc this p acc w p", "assert ne w this", 0, 0),
        ("chain this p acc this p", "assert ne this this", 13, 15),
    ]);
    // No whole permission is a chain either.
    methods(&[
        ("acc this p", "assert chain this p", 12, 15),
        ("acc this p eq this.p null", "assert chain this p", 12, 15),
        ("read this p read this p", "assert chain this p", 12, 15),
    ]);
}

/// W9.2: a chain of x is no successor of what was ~ to `x.p`.
#[test]
fn a_chain_is_no_successor() {
    let held = "acc this p acc w p eq this.p w.p";
    methods(&[
        (
            held,
            "let x this\nlet y this.p\nrelease acc this p\nassert eq w.p y",
            0,
            0,
        ),
        (
            held,
            "let y this.p\nrelease acc this p acc w p\nassert eq y y",
            0,
            0,
        ),
    ]);
    // A consumed chain drops nothing: a fact on a name stays with the list.
    let source = method("chain this p eq i i", "", "assert");
    checks(&[(&source, 6, 9)]);
    let source = method("chain this p eq 1 1", "", "release chain this p\nassert");
    let facts = |line| before(&source, line, |state| state.facts.len());
    assert_eq!((facts(15), facts(16)), (1, 1));
    assert_eq!(listed_before(&source, 16), []);
}

/// W9.3: "the first listed, unconsumed chain by the field name f of a variable ~
/// x"; "else, if x ~ null, by that, and nothing is consumed".
#[test]
fn shown_by_a_chain_of_an_equal_variable() {
    methods(&[
        ("chain this p", "assert chain this p", 0, 0),
        ("chain this p", "assert chain this q", 12, 15),
        ("chain this p", "assert chain w p", 12, 15),
        ("chain this p eq this w", "assert chain w p", 0, 0),
        ("chain this p", "let x this\nassert chain x p", 0, 0),
        ("chain this p", "assert chain this p chain this p", 12, 15),
        (
            "chain this p eq this w",
            "assert chain this p chain w p",
            12,
            15,
        ),
        (
            "chain this p chain w p eq this w",
            "assert chain this p chain w p",
            0,
            0,
        ),
        ("chain this p chain this q", "assert chain this q", 0, 0),
        // It goes by the variable, not by what its fields hold.
        (
            "chain this p acc w p eq w.p this",
            "assert chain w p",
            12,
            15,
        ),
    ]);
    let held = "chain w p chain this p eq this w";
    let source = method(held, "", "release chain this p\nassert");
    assert_eq!(listed_before(&source, 16), [listed(Chain, THIS, "p")]);
}

#[test]
fn shown_by_null() {
    mains(&[
        ("let s null\nassert chain s p chain s p chain s q", 0, 0),
        ("assert chain s p", 12, 14),
        ("let s null\nlet t s\nassert chain t p", 0, 0),
        ("let k null\nassert chain k p", 0, 0),
        ("new s S\nassert chain s p", 12, 15),
        // The value of a path is null, and so is a variable that is equal to it.
        ("new s S\nlet t s.p\nassert chain t p", 0, 0),
    ]);
    // A chain that is listed comes first, and goes.
    let held = "chain this p eq this null";
    let source = method(held, "", "release chain this p\nassert chain this p");
    checks(&[(&source, 0, 0)]);
    assert_eq!(listed_before(&source, 15), [listed(Chain, THIS, "p")]);
    assert_eq!(listed_before(&source, 16), []);
    // Then null shows it, and nothing is consumed.
    let source = method(held, "", "release chain this p chain this p\nassert");
    checks(&[(&source, 0, 0)]);
    assert_eq!(listed_before(&source, 16), []);
}

/// W9.3: "Adding `chain x f` is a new entry at the end."
#[test]
fn added_at_the_end() {
    let source = method(
        "chain this p acc w p chain this p chain w q",
        "",
        "assert chain this p chain this p",
    );
    checks(&[(&source, 0, 0)]);
    let chain = |var, field| listed(Chain, var, field);
    let expected = [
        chain(THIS, "p"),
        listed(Acc, PARAM, "p"),
        chain(THIS, "p"),
        chain(PARAM, "q"),
    ];
    assert_eq!(listed_before(&source, 15), expected);
}

/// W9.6: "Removing x renames its chains to v, or they go, also if x is ~ a path
/// or null."
#[test]
fn a_removed_variable() {
    let (x, y) = (FIRST_LOCAL, FIRST_LOCAL + 1);
    let chain = "new x S\nshut x p\n";
    let with = |more: &str| method("", "", &format!("{chain}{more}"));
    let source = with("let y x\nlet x null\nassert chain y p");
    checks(&[(&source, 0, 0)]);
    assert!(listed_before(&source, 19).contains(&listed(Chain, y, "p")));
    for removed in ["new x S", "let x null", "let x y"] {
        let source = with(&format!("{removed}\nassert"));
        let left = listed_before(&source, 18);
        assert!(!left.contains(&listed(Chain, x, "p")), "{removed}");
    }
    // ~ a path, and ~ null: no variable takes its place, and the chain goes.
    let source = with("new y S\nset y p x\nlet x w\nassert\nshut y p");
    checks(&[(&source, 12, 21)]);
    let source = method("", "", "let x null\nnew y S\nshut y p\nassert");
    checks(&[(&source, 0, 0)]);
    let held = "chain w p eq w null";
    let source = method(held, "", "let x w\nlet y null\nopen y x p\nassert");
    // x ≠ null is not shown of what is null.
    checks(&[(&source, 13, 17)]);
}

/// W9.6: "Chains in requires and ensures go over a call as other permissions do."
#[test]
fn over_a_call() {
    let with = |contract: &str, after: &str| {
        script(&format!(
            "class S\nfield S p\nmethod int m S w\n{contract}\nend\nmain\nvar S s\nvar S t\nvar int a\n\
             new s S\nshut s p\ncall a s m t\n{after}\nend"
        ))
    };
    let back = "requires chain this p\nensures chain this p";
    let gone = "requires chain this p\nensures";
    // x ≠ null of the receiver: by `new`, which is still known.
    assert_eq!(check(&with(back, "assert chain s p")), (0, 0));
    assert_eq!(check(&with(back, "call a s m t")), (0, 0));
    assert_eq!(check(&with(gone, "assert chain s p")), (12, 14));
    assert_eq!(check(&with(gone, "call a s m t")), (12, 14));
    let both = "requires chain this p chain w p\nensures chain this p";
    assert_eq!(check(&with(both, "assert")), (12, 13));
    let kept = "requires acc this p\nensures acc this p";
    assert_eq!(check(&with(kept, "assert")), (12, 13));
    // A chain for the result.
    let source =
        "class S\nfield S p\nmethod S m S w\nrequires chain w p\nensures chain result p\nvar S x\n\
                  new x S\nset x p w\nshut x p\nreturn x\nend\nmain\nvar S s\nvar S t\nnew s S\n\
                  let t null\ncall t s m t\nend";
    assert_eq!(check(&script(source)), (9, 17));
    let source = source.replace("call t s m t", "call u s m t\nassert chain u p");
    let source = source.replace("var S t", "var S t\nvar S u");
    assert_eq!(check(&script(&source)), (0, 0));
}

/// Main's text with so many chains: a method gives eight of its result.
fn full_of_chains(eights: usize, more: &str) -> Vec<u8> {
    let eight = " chain result p".repeat(8);
    let source = format!(
        "class S\nfield S p\nmethod S m int w\nrequires\nensures{eight}\nvar S x\nlet x null\nreturn x\n\
         end\nmain\nvar S s\nvar S t\nvar S u\nvar int a\nVARS\nnew s S\nrelease acc s p\n"
    );
    let vars: Vec<String> = (0..eights).map(|at| format!("var S c{at}")).collect();
    let calls: String = (0..eights)
        .map(|at| format!("call c{at} s m a\n"))
        .collect();
    script(&format!(
        "{}{calls}{more}\nend",
        source.replace("VARS", &vars.join("\n"))
    ))
}

/// W9.9: "64 permissions with chains. At 64 `shut` fits (it takes before it
/// gives), `open` does not."
#[test]
fn sixty_four() {
    assert_eq!(PERMISSIONS, 64);
    assert_eq!(check(&full_of_chains(8, "assert")), (0, 0));
    let last = |more: &str| {
        let text = full_of_chains(8, more);
        let lines = text.iter().filter(|&&byte| byte == b'\n').count() as u32;
        let (number, line) = check(&text);
        // 0 at 0, or so many lines before the `end`.
        (number, if number == 0 { 0 } else { lines - line })
    };
    assert_eq!(last("new t S"), (14, 1));
    assert_eq!(last("release chain c0 p\nnew t S"), (0, 0));
    assert_eq!(last("call t s m a"), (14, 1));
    // 64: `shut` takes `t.p`, whose value is null, and gives a chain.
    assert_eq!(last("release chain c0 p\nnew t S\nshut t p"), (0, 0));
    // `open` takes one and gives two.
    assert_eq!(
        last("release chain c0 p\nnew t S\nshut t p\nopen u t p"),
        (14, 1)
    );
    let one_less = "release chain c0 p chain c1 p\nnew t S\nshut t p\nopen u t p";
    assert_eq!(last(one_less), (0, 0));
}

/// The fact that `open` gives is the 65th, or the 64th.
#[test]
fn sixty_four_facts() {
    let seven = " ne 1 2".repeat(7);
    let with = |calls: usize| {
        let calls = "call i this f w\n".repeat(calls);
        script(&format!(
            "class S\nfield S p\nmethod int m S w\nrequires chain this p ne this null\nensures\nvar S x\n\
             var int i\n{calls}open x this p\nend\nmethod int f S w\nrequires\nensures{seven}\nend\nmain\n\
             end"
        ))
    };
    // One fact of requires and seven of each call.
    assert_eq!(check(&with(8)), (0, 0));
    assert_eq!(check(&with(9)), (14, 17));
}
