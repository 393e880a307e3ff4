//! W9: near misses of the form, names and types of chains: the numbers 4, 6 and 7.

use super::forms::places;
use super::misses::{fields, Fields};
use super::rng::Rng;

/// A place of a link in the text: its line and the field of it that is x; f is the
/// next one.
type Link = (usize, usize);

/// Every chain that is asked for, opened or shut.
fn links(lines: &Fields) -> Vec<Link> {
    let mut found = Vec::new();
    for (at, line) in lines.iter().enumerate() {
        match line[0].as_slice() {
            b"open" => found.push((at, 2)),
            b"shut" => found.push((at, 1)),
            _ => {
                let atoms = (1..line.len()).step_by(3);
                let chains = atoms.filter(|&atom| line[atom] == b"chain");
                found.extend(chains.map(|atom| (at, atom + 1)));
            }
        }
    }
    found.retain(|&(at, x)| x + 1 < lines[at].len());
    found
}

/// The names that the lines with a word declare.
fn declared(lines: &Fields, word: &[u8]) -> Vec<Vec<u8>> {
    let named = lines.iter().filter(|line| line[0] == word);
    named.filter_map(|line| line.last().cloned()).collect()
}

/// A chain, `open` or `shut` that has not its form, or is a condition.
pub fn chain_form(rng: &mut Rng, lines: &mut Fields) {
    let conditions = places(lines, &[b"if", b"loop"]);
    if let Some(at) = rng.choose(&conditions).filter(|_| rng.chance(25)) {
        lines[at].splice(1..4, fields("chain this n"));
        return;
    }
    let Some((at, x)) = rng.choose(&links(lines)) else {
        return;
    };
    let line = &mut lines[at];
    match rng.below(7) {
        0 => line[x - 1] = rng.pick(&["Chain", "chains", "shuts", "Open", "1"]).into(),
        1 => line[x] = rng.pick(&["1", "this.n", "-1", ""]).into(),
        2 => line[x + 1] = rng.pick(&["1", "n.n", "", "0"]).into(),
        3 => drop(line.remove(x + 1)),
        4 => drop(line.remove(x)),
        5 => line.insert(x + 1, b"n".to_vec()),
        _ => line.push(b"n".to_vec()),
    }
}

/// A chain, `open` or `shut` with another variable or field of the text, or with a
/// name that is none there.
pub fn chain_name(rng: &mut Rng, lines: &mut Fields) {
    let Some((at, x)) = rng.choose(&links(lines)) else {
        return;
    };
    let vars = declared(lines, b"var");
    let others = ["this", "result", "null", "int", "nobody"].map(|name| name.into());
    let var = match rng.chance(70) {
        true => rng.choose(&vars),
        false => rng.choose(&others),
    };
    let field = match rng.chance(80) {
        true => rng.choose(&declared(lines, b"field")),
        false => rng.choose(&others),
    };
    let line = &mut lines[at];
    let opens = line[0] == b"open";
    let (place, name) = match rng.below(3) {
        0 => (x, var),
        1 if opens => (1, var),
        _ => (x + 1, field),
    };
    if let Some(name) = name {
        line[place] = name;
    }
}
