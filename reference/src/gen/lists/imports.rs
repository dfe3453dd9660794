//! Cases of the import: a list as it was exported, or spoiled in one way, now and then in two.

use super::listable;
use super::spoils::{self, Subject};
use super::top;
use crate::block::{word_at, BLOCK};
use crate::cases::Case;
use crate::gen::made::Made;
use crate::rng::Rng;
use crate::table::{header, MOST_RECORDS};

/// What a case may be noted as, beside the spoils.
pub const NOTES: [&str; 5] =
    ["as exported", "a second spoil", "a longer table area", "another table area", "names at the top"];

pub fn case(rng: &mut Rng) -> Made {
    let mut notes = vec![];
    let mut subject = match rng.once_in(8) {
        true => {
            notes.push(NOTES[4]);
            top::subject(rng)
        }
        false => {
            let size = listable::size(rng);
            Subject::of(listable::sound(rng, size))
        }
    };
    let is_spoiled = match notes.is_empty() {
        true => !rng.once_in(8),
        false => rng.once_in(3),
    };
    if is_spoiled {
        notes.push(spoils::spoil(rng, &mut subject));
        if !subject.list().is_empty() && rng.once_in(8) {
            notes.push(NOTES[1]);
            spoils::spoil(rng, &mut subject);
        }
    } else {
        notes.push(NOTES[0]);
    }
    let area = area(rng, &subject.header, &mut notes);
    let (list, header, profile) = (subject.list(), subject.header, subject.profile);
    Made { case: Case::import(rng.byte(), list, header, profile, area), notes, damaged: None }
}

/// About as long as the table.
fn area(rng: &mut Rng, head: &[u8], notes: &mut Vec<&'static str>) -> usize {
    let count = if head.len() < BLOCK { 0 } else { word_at(head, header::COUNT).min(MOST_RECORDS) };
    let needed = BLOCK * (count as usize + 1);
    match rng.below(10) {
        0..=5 => needed,
        6 | 7 => {
            notes.push(NOTES[2]);
            needed + *rng.pick(&[1, 2, BLOCK, 3 * BLOCK])
        }
        _ => {
            notes.push(NOTES[3]);
            let any = rng.below(needed);
            *rng.pick(&[0, any, needed - 1, needed - 1, needed - 1, needed - BLOCK, needed - BLOCK])
        }
    }
}
