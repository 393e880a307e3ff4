//! The index as a page.

use super::{Index, Node};
use std::fmt::Write;

/// Of many laws or functions so many are named.
const NAMED: usize = 3;

const HEAD: &str = "# Index: sentence, definition, law, code\n\n\
Below each sentence of the papers stand the definitions and the code whose comments quote it, with the laws and the code about each \
definition. What is written of the proof that a function keeps its contract is in the folder `proofs/FUNCTION` of its crate, for a function in the \
module `src/MODULE.rt` in `proofs/MODULE/FUNCTION`.\n";

impl Index {
    /// A declaration with the line at which it is to be looked for; of none, the file.
    fn named_at(&self, (file, number): Node, line: usize) -> String {
        let file = &self.files[file];
        match file.declared.get(number) {
            Some(one) => format!("{} ({})", file.called(one), file.line(line)),
            None => file.line(line),
        }
    }

    fn named(&self, node: Node) -> String {
        let declared = self.files[node.0].declared.get(node.1);
        self.named_at(node, declared.map_or(0, |one| one.first))
    }

    fn list(&self, nodes: &[Node]) -> String {
        let mut names: Vec<String> = nodes
            .iter()
            .take(NAMED)
            .map(|node| self.named(*node))
            .collect();
        if nodes.len() > NAMED {
            names.push(format!("{} more", nodes.len() - NAMED));
        }
        names.join(", ")
    }

    fn row(&self, out: &mut String, node: Node) {
        let file = &self.files[node.0];
        let _ = write!(out, "  - {}", self.named(node));
        if file.is_definition() {
            let laws = self.nearest(node, |file, one| file.is_law() && one.public);
            let code = self.nearest(node, |file, _| file.source.is_code());
            for (word, nodes) in [("laws", laws), ("code", code)] {
                if !nodes.is_empty() {
                    let _ = write!(out, "; {word}: {}", self.list(&nodes));
                }
            }
        }
        out.push('\n');
    }

    /// A sentence with all that quotes it.
    fn rows(&self, out: &mut String, sentence: (usize, usize)) {
        for node in self.quoting.get(&sentence).into_iter().flatten() {
            self.row(out, *node);
        }
        let proofs = self.proving.get(&sentence).into_iter().flatten();
        let proofs: Vec<String> = proofs
            .map(|(node, line)| self.named_at(*node, *line))
            .collect();
        if !proofs.is_empty() {
            let _ = writeln!(out, "  - quoted in proofs: {}", proofs.join(", "));
        }
    }

    /// The index as a page.
    pub fn page(&self) -> String {
        let mut out = String::from(HEAD);
        for (at, paper) in self.papers.iter().enumerate() {
            let (unquoted, waiting) = (self.left(at, true), self.left(at, false));
            let all = paper.sentences.len() - waiting.len();
            let quoted = all - unquoted.len();
            let name = &paper.name;
            let _ = writeln!(out, "\n## {name}: {quoted} of {all} sentences are quoted");
            let mut section = "";
            for (number, sentence) in paper.sentences.iter().enumerate() {
                if !self.is_quoted((at, number)) {
                    continue;
                }
                if section != sentence.section {
                    section = &sentence.section;
                    let _ = writeln!(out, "\n### {section}\n");
                }
                let _ = writeln!(out, "- {}", sentence.text);
                self.rows(&mut out, (at, number));
            }
            for (heading, left) in [("Quoted nowhere", unquoted), ("Not landed", waiting)] {
                if !left.is_empty() {
                    let _ = writeln!(out, "\n### {heading}\n");
                }
                for sentence in left.into_iter().map(|number| &paper.sentences[number]) {
                    let _ = writeln!(out, "- ({}) {}", sentence.section, sentence.text);
                }
            }
        }
        out
    }
}
