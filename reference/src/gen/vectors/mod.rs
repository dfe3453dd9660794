//! Vector files, and the cases of their check.

pub mod damage;
pub mod model;
mod sound;

pub use sound::{beside, of_people};

use super::made::Made;
use crate::cases::Case;
use crate::rng::Rng;
use crate::vectors::MOST_VECTORS;

/// A case of the vector file's check: a sound file, or one damaged in one place, now and then in two.
pub fn case(rng: &mut Rng) -> Made {
    let size = match rng.below(2000) {
        0 => MOST_VECTORS,
        1..=4 => rng.between(13, MOST_VECTORS),
        _ => rng.below(9),
    };
    let mut bytes = model::encode(&sound::file(rng, size));
    let mut notes = vec![];
    let mut damaged = None;
    if bytes.is_empty() || rng.below(8) == 0 {
        notes.push("undamaged");
    } else {
        damaged = damage::damage(rng, &mut bytes, &mut notes);
        if rng.once_in(6) {
            notes.push("a second damage");
            damage::damage(rng, &mut bytes, &mut Vec::new());
            damaged = None;
        }
    }
    Made { case: Case::check_vectors(rng.byte(), bytes), notes, damaged }
}
