//! One line for each script of a report on many.

use super::answers;
use super::findings::Findings;
use super::said::{text, Piece, Said};
use explain::show::counted;

/// A script that was looked at, or a file that can't be read.
pub enum Entry<'a> {
    Found(Box<Findings<'a>>),
    Unread { file: String, error: String },
}

impl Entry<'_> {
    pub fn file(&self) -> &str {
        match self {
            Entry::Found(findings) => &findings.identity.file,
            Entry::Unread { file, .. } => file,
        }
    }

    /// Accepted or refused, or why it can't be read.
    pub fn decision(&self) -> Said {
        match self {
            Entry::Found(findings) => {
                let decision = answers::decision(findings);
                let mut said = vec![text(decision.short)];
                if let Some(refusal) = findings.refusal() {
                    said.push(text(format!(", number {}", refusal.number())));
                    if refusal.line() != 0 {
                        said.extend([text(" at line "), Piece::Line(refusal.line())]);
                    }
                }
                said
            }
            Entry::Unread { error, .. } => vec![text(format!("can't be read: {error}"))],
        }
    }

    /// The bound, or the line for which there is none.
    pub fn bound(&self) -> Option<Said> {
        let Entry::Found(findings) = self else {
            return None;
        };
        match (findings.refusal(), findings.bound) {
            (Some(_), _) => None,
            (None, Ok(bound)) => Some(vec![text(format!(
                "at most {}",
                counted(bound.steps.into(), "step")
            ))]),
            (None, Err(none)) if none.line() == 0 => Some(vec![text("no bound")]),
            (None, Err(none)) => Some(vec![text("no bound: line "), Piece::Line(none.line())]),
        }
    }

    /// How the run ended.
    pub fn run(&self) -> Option<Said> {
        match self {
            Entry::Found(findings) => answers::run(findings),
            Entry::Unread { .. } => None,
        }
    }

    /// All of it in one line.
    pub fn said(&self) -> Said {
        let mut said = self.decision();
        for more in [self.bound(), self.run()].into_iter().flatten() {
            said.push(text("; "));
            said.extend(more);
        }
        said
    }
}

/// `3 accepted, 1 refused, 1 not read`.
pub fn total(entries: &[Entry]) -> String {
    let refused =
        |entry: &&Entry| matches!(entry, Entry::Found(found) if found.refusal().is_some());
    let unread = |entry: &&Entry| matches!(entry, Entry::Unread { .. });
    let refused = entries.iter().filter(refused).count();
    let unread = entries.iter().filter(unread).count();
    let accepted = entries.len() - refused - unread;
    match unread {
        0 => format!("{accepted} accepted, {refused} refused"),
        _ => format!("{accepted} accepted, {refused} refused, {unread} not read"),
    }
}
