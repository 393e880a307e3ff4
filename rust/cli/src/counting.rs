//! `station count`: up to four scripts over one heap, each with its share.

use crate::misuse::Misuse;
use crate::progress::Progress;
use crate::session::{Session, Status};
use explain::{show, Counting};
use nuyardi::limits::{OBJECTS, SCRIPTS};
use nuyardi::Share;

/// Equal parts of the heap's objects; what does not divide is left over.
fn equal(scripts: usize) -> Vec<u32> {
    vec![(OBJECTS / scripts.max(1)) as u32; scripts]
}

/// The texts of all files; none if one can't be read, for then no count is made.
fn texts(session: &mut Session) -> Option<Vec<Vec<u8>>> {
    let names = session.words.operands.clone();
    let texts: Vec<Option<Vec<u8>>> = names.iter().map(|name| session.text(name)).collect();
    texts.into_iter().collect()
}

/// Are there no more scripts than a count takes, folders replaced by theirs, and a
/// share for each where shares are given?
fn fits(session: &Session) -> Result<(), Misuse> {
    let scripts = session.words.operands.len();
    if scripts > SCRIPTS {
        return Err(Misuse::Scripts(scripts));
    }
    match session.words.shares.as_ref().map(Vec::len) {
        Some(shares) if shares != scripts => Err(Misuse::SharesEach(shares, scripts)),
        _ => Ok(()),
    }
}

/// `station count`.
pub fn count(session: &mut Session) -> Status {
    session.words.operands = session.scripts();
    if let Err(misuse) = fits(session) {
        return session.misused(&misuse);
    }
    let Some(texts) = texts(session) else {
        return Status::Failed;
    };
    let names = session.words.operands.iter();
    let files: Vec<String> = names.map(|name| show::file_name(name)).collect();
    let given = session.words.shares.clone();
    let by_default = given.is_none();
    let shares = given.unwrap_or_else(|| equal(texts.len()));
    let scripts = texts.iter().zip(shares);
    let scripts: Vec<Share> = scripts.map(|(text, k)| Share::new(text, k)).collect();
    let rounds = session.words.rounds;
    let progress = Progress::start(rounds);
    let mut counting = Counting::of(&mut session.library, &files, &scripts, rounds);
    drop(progress);
    counting.equal = by_default;
    match session.json() {
        true => {
            for object in counting.json() {
                session.print_json(&object);
            }
        }
        false => session.print(&counting.shown(session.paint)),
    }
    Status::of(counting.good())
}
