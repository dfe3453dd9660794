//! Cases of the table check.

use super::areas;
use super::damage;
use super::made::Made;
use super::tables::{self, Sound};
use crate::cases::Case;
use crate::rng::Rng;
use crate::table::MOST_RECORDS;

/// What a cut take-over is noted as.
pub const CUTS: [&str; 2] = ["cut: the first blocks of a new table", "cut: any blocks of a new table"];

/// A case of the table check: a sound table, or one damaged in one place, now and then in two; with or without something past it. Some are
/// areas that a take-over was cut in.
pub fn case(rng: &mut Rng) -> Made {
    let size = match rng.below(2000) {
        0 => MOST_RECORDS as usize,
        1..=6 => tables::many(rng),
        _ => rng.below(13),
    };
    let mut notes = vec![];
    let sound = tables::sound(rng, size);
    if rng.once_in(16) {
        return cut(rng, sound);
    }
    let mut subject = damage::Subject::of(sound.model, sound.profile);
    let mut damaged = None;
    if rng.below(8) == 0 {
        notes.push("undamaged");
        subject.bytes = match rng.below(400) {
            0 => areas::over_the_most(rng, &subject.bytes),
            _ => areas::of(rng, &subject.model, 4),
        };
    } else {
        damaged = damage::damage(rng, &mut subject, &mut notes);
        if rng.once_in(10) {
            notes.push("a second damage");
            // Which of the two is blamed depends on their places; the note is no longer of one block.
            damage::damage(rng, &mut subject, &mut Vec::new());
            damaged = None;
        }
        if rng.once_in(4) {
            subject.bytes = areas::lengthened(rng, subject.bytes);
        }
    }
    Made { case: Case::check(rng.byte(), subject.bytes, subject.profile), notes, damaged }
}

/// What a cut take-over leaves: the first blocks of a new table over an old one, or any of them.
fn cut(rng: &mut Rng, sound: Sound) -> Made {
    let mut area = areas::lengthened(rng, sound.model.encode());
    let fresh = areas::successor(rng, &sound.model, &sound.profile, &area).encode();
    let (which, damaged) = areas::written_in_part(rng, &mut area, &fresh);
    Made { case: Case::check(rng.byte(), area, sound.profile), notes: vec![CUTS[which]], damaged }
}
