//! Tables damaged in one place: every field, every kind of damage, with and without a mended check word.

mod editions;
pub mod fields;
mod header;
mod record;
mod sets;
mod shape;
mod whole;

pub use shape::{Damage, Subject};

use crate::block::{mend, BLOCK};
use crate::rng::Rng;

/// Every damage.
pub fn damages() -> impl Iterator<Item = &'static Damage> {
    [header::DAMAGES, record::DAMAGES, editions::DAMAGES, sets::DAMAGES, whole::DAMAGES].into_iter().flatten()
}

/// Does one damage; `notes` learns which.
pub fn damage(rng: &mut Rng, subject: &mut Subject, notes: &mut Vec<&'static str>) -> Option<usize> {
    if subject.bytes.len() < BLOCK {
        return None;
    }
    let count = damages().count();
    loop {
        // Only edition 2 has sets: theirs are tried more often.
        let damage = match rng.once_in(8) {
            true => rng.pick(sets::DAMAGES),
            false => damages().nth(rng.below(count))?,
        };
        // Over 2 MiB each: they are few.
        if damage.name == whole::OVER_THE_MOST && !rng.once_in(20) {
            continue;
        }
        if let Some(block) = damage.done(rng, subject) {
            notes.push(damage.name);
            if damage.mendable && rng.below(10) < 7 {
                if let Some(bytes) = subject.bytes.get_mut(block * BLOCK..(block + 1) * BLOCK) {
                    mend(bytes);
                }
            }
            return Some(block);
        }
    }
}
