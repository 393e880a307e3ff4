//! What is proved of the table of methods, and of chains.

use super::answers::COLUMNS;
use super::claims::{Theorem, CHAINS, EVERY_RUN, FRAME_KEPT, HALVES_KEPT, TRIAL};
use super::findings::Findings;
use super::handed::has_chains;

/// What is proved of a column, if something is.
pub struct Proved {
    pub theorem: &'static Theorem,
    pub says: &'static str,
}

/// What is proved of a column: of a refused text by the theorem of trials.
pub fn of_column(findings: &Findings, column: &str) -> Option<Proved> {
    let says = match COLUMNS.iter().position(|known| *known == column) {
        Some(0) => "all that a call can change",
        Some(1) => "kept by a call",
        _ => return None,
    };
    let theorem = of_calls(findings);
    Some(Proved { theorem, says })
}

/// The theorem on calls: of a refused text that of trials.
fn of_calls(findings: &Findings) -> &'static Theorem {
    match findings.refusal() {
        None => &EVERY_RUN,
        Some(_) => &TRIAL,
    }
}

/// What is proved of chains, if the text has to do with them.
pub fn of_chains(findings: &Findings) -> Option<Proved> {
    let theorem = of_calls(findings);
    let says = "whoever holds `chain x f` is at a list that ends in null: no ring, and no card of \
                it is held by another";
    let chains = findings.script.as_ref().is_some_and(has_chains);
    chains.then_some(Proved { theorem, says })
}

/// What is proved of the two columns, and of chains, in full.
pub fn of_methods() -> String {
    let [held, handed] = CHAINS;
    format!(
        "Proved: of the cards that are there at a call, it can change what is handed over, by \
         `acc` or by both halves, and nothing else; what is handed over for reading, by one \
         half, keeps its value (`{FRAME_KEPT}`). All frames together hold at most two halves of \
         a field (`{HALVES_KEPT}`). By `chain x f` is handed over `x.f` and the `f` of each card that \
         it leads to; whoever holds one is at a list that ends in null: no ring, and no card of it \
         is held by another (`{held}`, `{handed}`). The other columns are read off the text."
    )
}
