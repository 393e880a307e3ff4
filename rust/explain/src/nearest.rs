//! The nearest of some words: "did you mean".

/// Longer words are not compared.
const LETTERS: usize = 40;

/// How many letters must be changed, added, dropped or swapped with their
/// neighbour to come from one word to the other, in half letters: case counts
/// half a letter, and a whole word in the other case no more.
fn distance(one: &[u8], other: &[u8]) -> usize {
    if one.eq_ignore_ascii_case(other) {
        return 1;
    }
    let cost = |a: u8, b: u8| match (a == b, a.eq_ignore_ascii_case(&b)) {
        (true, _) => 0,
        (_, true) => 1,
        _ => 2,
    };
    let mut rows: Vec<Vec<usize>> = vec![(0..=other.len()).map(|at| 2 * at).collect()];
    for (i, &a) in one.iter().enumerate() {
        let mut row = vec![2 * (i + 1)];
        for (j, &b) in other.iter().enumerate() {
            let mut best = (rows[i][j] + cost(a, b)).min(rows[i][j + 1] + 2);
            best = best.min(row[j] + 2);
            if i > 0 && j > 0 && a == other[j - 1] && one[i - 1] == b {
                best = best.min(rows[i - 1][j - 1] + 2);
            }
            row.push(best);
        }
        rows.push(row);
    }
    rows[one.len()][other.len()]
}

/// The nearest of the words, if one is near: at most a third of its letters
/// differ.
pub fn nearest<'w>(word: &str, words: impl IntoIterator<Item = &'w str>) -> Option<&'w str> {
    if word.is_empty() || word.len() > LETTERS {
        return None;
    }
    words
        .into_iter()
        .filter(|known| !known.is_empty() && known.len() <= LETTERS && *known != word)
        .map(|known| (distance(word.as_bytes(), known.as_bytes()), known))
        .filter(|&(distance, known)| 3 * distance <= 2 * known.len().max(word.len()))
        .min_by_key(|&(distance, _)| distance)
        .map(|(_, known)| known)
}

/// `; did you mean ..?`, or nothing.
pub fn did_you_mean<'w>(word: &str, words: impl IntoIterator<Item = &'w str>) -> String {
    match nearest(word, words) {
        Some(known) => format!("; did you mean `{known}`?"),
        None => String::new(),
    }
}

#[cfg(test)]
mod tests {
    use super::nearest;

    #[test]
    fn slips() {
        let words = ["field", "end", "ensures", "else", "class", "check", "run"];
        for (word, near) in [
            ("feild", "field"),
            ("Class", "class"),
            ("esle", "else"),
            ("ensure", "ensures"),
            ("chek", "check"),
            ("CLASS", "class"),
        ] {
            assert_eq!(nearest(word, words), Some(near), "{word}");
        }
        for word in ["", "zzz", "x", &"e".repeat(1_000)] {
            assert_eq!(nearest(word, words), None, "{word}");
        }
    }
}
