//! The papers that the definitions render, sentence by sentence.

use std::collections::BTreeSet;
use std::fs;
use std::ops::Range;
use std::path::Path;

/// A sentence of a paper, or a row of one of its tables.
pub struct Sentence {
    /// The heading that it stands under.
    pub section: String,
    pub text: String,
    /// Whether it counts already: a request's do from its landing on.
    pub landed: bool,
}

/// A paragraph, a point of a list or a row of a table: its text, and where in it the paper's sentences stand.
struct Block {
    text: String,
    sentences: Vec<(Range<usize>, usize)>,
}

pub struct Paper {
    /// Its file's name.
    pub name: String,
    pub sentences: Vec<Sentence>,
    blocks: Vec<Block>,
}

/// Words separated by one blank, without the marks of code and of proved examples: these are the paper's dress, not its words.
pub fn plain(text: &str) -> String {
    let bare = text.replace(['`', '*'], "");
    bare.split_whitespace().collect::<Vec<_>>().join(" ")
}

/// Where the sentences of a block end: after a full stop that a blank follows and then a word that may begin one. In a row of a
/// table nothing ends before the row does.
fn ends(text: &str) -> Vec<usize> {
    let mut ends = Vec::new();
    let letters: Vec<(usize, char)> = text.char_indices().collect();
    for four in letters.windows(4).filter(|_| !text.starts_with('|')) {
        let [(_, before), (_, stop), (_, blank), (at, next)] = four else {
            continue;
        };
        let begins = next.is_uppercase() || next.is_ascii_digit() || "`−".contains(*next);
        let stops = match stop {
            '.' => *before != '.' && *before != ' ',
            '*' => *before == '.',
            _ => false,
        };
        if stops && *blank == ' ' && begins {
            ends.push(*at);
        }
    }
    ends.push(text.len());
    ends
}

/// The lines of a paper in blocks, each with its heading. Indented lines are examples of texts and left out, so are headings, the
/// line below a table's head and the head itself.
fn blocks(text: &str) -> Vec<(String, String)> {
    let mut found: Vec<(String, String)> = Vec::new();
    let mut section = String::new();
    let mut open = false;
    let lines: Vec<&str> = text.lines().collect();
    for (at, line) in lines.iter().enumerate() {
        let rule = |line: &str| line.starts_with("|--") || line.starts_with("|:-");
        let head = lines.get(at + 1).is_some_and(|next| rule(next));
        if let Some(heading) = line.strip_prefix('#') {
            section = heading.trim_start_matches('#').trim().to_string();
            open = false;
        } else if let Some((heading, words)) = line
            .strip_prefix("**")
            .and_then(|rest| rest.split_once("** "))
        {
            section = heading.to_string();
            found.push((section.clone(), words.to_string()));
            open = true;
        } else if line.trim().is_empty() || line.starts_with("    ") || rule(line) || head {
            open = false;
        } else if open && !line.starts_with("- ") && !line.starts_with('|') {
            let (_, last) = found.last_mut().expect("an open block");
            last.push(' ');
            last.push_str(line);
        } else {
            let words = line.strip_prefix("- ").unwrap_or(line);
            found.push((section.clone(), words.to_string()));
            open = !line.starts_with('|');
        }
    }
    found
}

/// The parts of a quote that must stand in the paper.
fn parts(quote: &str) -> Vec<String> {
    let mut taken = String::new();
    let mut depth = 0;
    for letter in quote.chars() {
        match letter {
            '[' => depth += 1,
            ']' if depth > 0 => {
                depth -= 1;
                taken.push_str("..");
            }
            _ if depth == 0 => taken.push(letter),
            _ => {}
        }
    }
    let parts = taken.split("..").map(plain);
    parts.filter(|part| !part.is_empty()).collect()
}

/// Where the words stand first, not as parts of longer words.
fn found_in(text: &str, words: &str) -> Option<usize> {
    let letter = |found: Option<char>| found.is_some_and(char::is_alphanumeric);
    text.match_indices(words).map(|(at, _)| at).find(|&at| {
        let (before, after) = (&text[..at], &text[at + words.len()..]);
        let begins = letter(before.chars().next_back()) && letter(words.chars().next());
        let goes_on = letter(after.chars().next()) && letter(words.chars().next_back());
        !begins && !goes_on
    })
}

impl Paper {
    pub fn of(name: &str, text: &str) -> Paper {
        let mut paper = Paper {
            name: name.to_string(),
            sentences: Vec::new(),
            blocks: Vec::new(),
        };
        for (section, words) in blocks(text) {
            let mut block = Block {
                text: String::new(),
                sentences: Vec::new(),
            };
            let mut start = 0;
            for end in ends(&words) {
                let text = words[start..end].trim().to_string();
                let from = block.text.len();
                block.text.push_str(&plain(&text));
                block.text.push(' ');
                block
                    .sentences
                    .push((from..block.text.len(), paper.sentences.len()));
                paper.sentences.push(Sentence {
                    section: section.clone(),
                    text,
                    landed: true,
                });
                start = end;
            }
            paper.blocks.push(block);
        }
        let mut headings: Vec<&String> = paper
            .sentences
            .iter()
            .map(|sentence| &sentence.section)
            .collect();
        headings.dedup();
        let headings: Vec<Block> = headings
            .into_iter()
            .map(|heading| Block {
                text: plain(heading),
                sentences: Vec::new(),
            })
            .collect();
        paper.blocks.extend(headings);
        paper
    }

    /// With what has landed by the notes on changes.
    pub fn landed(mut self, changes: &str) -> Paper {
        let headings = changes.lines().filter_map(|line| line.strip_prefix("## "));
        let landed: BTreeSet<usize> = headings.filter_map(request).collect();
        for sentence in &mut self.sentences {
            let request = request(&sentence.section);
            sentence.landed = request.is_none_or(|number| landed.contains(&number));
        }
        self
    }

    /// The sentences that a quote takes words from, if the paper has it: all of its words in one block, in their order, with
    /// anything where the quote has `..` or words of its own in square brackets. A heading has no sentence.
    pub fn quoted(&self, quote: &str) -> Option<Vec<usize>> {
        let parts: Vec<String> = parts(quote.trim_end_matches(['.', ',', ';', ':']));
        self.blocks.iter().find_map(|block| {
            let mut from = 0;
            let mut found = Vec::new();
            for part in &parts {
                let at = from + found_in(&block.text[from..], part)?;
                from = at + part.len();
                let touched = |range: &Range<usize>| range.start < from && at < range.end;
                let touched = block.sentences.iter().filter(|(range, _)| touched(range));
                found.extend(touched.map(|(_, number)| *number));
            }
            found.dedup();
            Some(found)
        })
    }
}

/// The number of a request, by its heading: 3 of `W3. More.` or `W3: more`.
fn request(heading: &str) -> Option<usize> {
    let rest = heading.strip_prefix('W')?;
    rest.split_once(['.', ':'])?.0.parse().ok()
}

/// Every paper below `docs/papers`, by its name. A request has landed if the notes on changes have a section on it.
pub fn papers(root: &Path) -> Vec<Paper> {
    let changes = fs::read_to_string(root.join("docs/CHANGES.md")).expect("the notes on changes");
    let folder = root.join("docs/papers");
    let entries =
        fs::read_dir(&folder).unwrap_or_else(|error| panic!("{}: {error}", folder.display()));
    let mut paths: Vec<_> = entries
        .map(|entry| entry.expect("an entry").path())
        .collect();
    paths.sort();
    paths
        .iter()
        .map(|path| {
            let name = path
                .file_name()
                .and_then(|name| name.to_str())
                .expect("a plain name");
            Paper::of(name, &fs::read_to_string(path).expect("a readable paper")).landed(&changes)
        })
        .collect()
}
