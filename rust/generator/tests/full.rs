//! W9: the generator fills states with chains.

use generator::{self as gen, rng::Rng, Kind};
use model::limits::PERMISSIONS;
use model::names::Action;
use model::number::STATE_FULL;
use model::read;
use model::text::{self, Share};
use model::watch::Record;

/// States of 64 permissions with chains in them, in which `shut` fits and `open` does
/// not.
#[test]
fn full_states_with_chains() {
    let mut rng = Rng::new(0x6400_0000);
    let (mut full, mut shut, mut opened) = (0, 0, 0);
    for _ in 0..1_000 {
        let text = gen::text_of(&mut rng, Kind::Miss(STATE_FULL));
        let Ok(lines) = text::lines(&text) else {
            continue;
        };
        let Ok(program) = read(&text) else { continue };
        let Some(record) = Record::of(&lines, &program) else {
            continue;
        };
        for (statement, seen) in program.statements.iter().zip(&record.seen) {
            let Some(before) = &seen.before else { continue };
            let chain = before
                .permissions
                .iter()
                .any(|held| held.share == Share::Chain);
            if !chain || before.permissions.len() < PERMISSIONS {
                continue;
            }
            full += 1;
            let done = seen.after.is_some();
            shut += u32::from(done && matches!(statement.action, Action::Shut(_)));
            opened += u32::from(!done && matches!(statement.action, Action::Open(_)));
        }
    }
    println!("{full} full states with chains, {shut} shut there, {opened} not opened");
    assert!(full > 200 && shut > 10 && opened > 10);
}
