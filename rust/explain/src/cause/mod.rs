//! Why a text is refused, beyond number and line. Both are the proved
//! library's; what is said here comes from the model, which is asked for the
//! same text, and is left out where the model answers otherwise.

mod bounds;
mod bytes;
pub(crate) mod chains;
mod fills;
mod form;
mod half_helps;
pub(crate) mod halves;
mod heads;
mod helps;
mod history;
pub mod limits;
mod names;
mod places;
pub(crate) mod route;
pub(crate) mod rules;
mod sources;
mod stopped_chains;
mod stopped_halves;
mod stops;

pub use bounds::bound_cause;
pub use fills::fill_cause;
pub use form::form_of;
pub(crate) use names::unframed;
pub use stops::{machine_at, open_calls, stop_cause, value_shown, AGAIN};

use crate::fix::{fix, Fix, ONE_STEP};
use crate::Answers;
use nuyardi::{Kind, Refusal};
use std::ops::Range;

/// The one reason, where in the line, what else is known, and what helps.
#[derive(Clone, Debug, Default, PartialEq, Eq)]
pub struct Cause {
    /// The reason in few words, where the whole of it takes more.
    pub head: Option<String>,
    /// The reason.
    pub text: String,
    /// Bytes of the line.
    pub mark: Option<Range<usize>>,
    /// What else is known.
    pub notes: Vec<String>,
    /// What usually helps, in words.
    pub help: Option<String>,
    /// A fix that was tried on the text.
    pub fix: Option<Fix>,
}

impl Cause {
    fn new(text: impl Into<String>) -> Cause {
        Cause {
            text: text.into(),
            ..Cause::default()
        }
    }

    /// The reason, as the first line of a message has it.
    pub fn headline(&self) -> &str {
        self.head.as_deref().unwrap_or(&self.text)
    }

    /// The reason in full, where the headline is not all of it.
    pub fn in_full(&self) -> Option<&str> {
        self.head.as_ref().map(|_| self.text.as_str())
    }

    /// The lines that the reason and what else is known name.
    pub fn related(&self) -> Vec<u32> {
        let said = [self.head.as_deref(), Some(&self.text)]
            .into_iter()
            .flatten();
        let said = said.chain(self.notes.iter().map(String::as_str));
        let mut lines: Vec<u32> = said.flat_map(crate::second::named).collect();
        lines.sort_unstable();
        lines.dedup();
        lines
    }

    fn or_head(mut self, head: Option<String>) -> Cause {
        self.head = head.or(self.head);
        self
    }

    fn mark(mut self, mark: Option<Range<usize>>) -> Cause {
        self.mark = mark.or(self.mark);
        self
    }

    fn note(mut self, note: impl Into<String>) -> Cause {
        self.notes.push(note.into());
        self
    }

    /// The note, if there is one.
    fn or_note(mut self, note: Option<String>) -> Cause {
        self.notes.extend(note);
        self
    }

    /// Words that help, if there are some.
    fn or_help(mut self, help: Option<String>) -> Cause {
        self.help = help.or(self.help);
        self
    }

    fn help(mut self, help: impl Into<String>) -> Cause {
        self.help = Some(help.into());
        self
    }

    /// With a fix that was tried, if one was found. Without one nothing is said of
    /// how to show what a rule asks: it would be a guess.
    pub(crate) fn with_fix(mut self, number: u32, fix: Option<Fix>) -> Cause {
        let rule = (model::number::UNFRAMED..=model::number::NOT_SHOWN).contains(&number);
        if rule || fix.is_some() {
            self.help = None;
        }
        self.fix = fix;
        self
    }
}

/// The cause with a fix that was tried, and to which who answers agrees.
pub fn explained(answers: &mut impl Answers, text: &[u8], refusal: Refusal) -> Option<Cause> {
    let cause = cause(text, refusal)?;
    let found = fix(text, ONE_STEP).filter(|fix| agreed(answers, fix));
    Some(cause.with_fix(refusal.number(), found))
}

/// Does who answers say the same of the fixed text as the model?
pub fn agreed(answers: &mut impl Answers, fix: &Fix) -> bool {
    let answer = match answers.check(&fix.text) {
        Ok(()) => (0, 0),
        Err(refusal) => (refusal.number(), refusal.line()),
    };
    answer == fix.answer
}

/// The cause of a refusal, where the model agrees with it.
pub fn cause(text: &[u8], refusal: Refusal) -> Option<Cause> {
    if model::check(text) != (refusal.number(), refusal.line()) {
        return None;
    }
    let line = refusal.line();
    match refusal.kind() {
        Kind::TextTooLong => Some(bytes::too_long(text)),
        Kind::Byte => bytes::bad_byte(text, line),
        Kind::Form => form::malformed(text, line),
        Kind::Limit => places::limit(text, line),
        Kind::Unfinished => Some(places::unfinished(text)),
        Kind::Name | Kind::Type | Kind::Assigned => names::fault(text, line),
        Kind::Unframed => names::unframed(text, line),
        Kind::Unresolved | Kind::NoPermission | Kind::NotShown | Kind::StateFull => {
            rules::cause(text, line)
        }
        _ => None,
    }
}
