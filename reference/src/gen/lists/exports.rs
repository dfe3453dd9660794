//! Cases of the export.

use super::listable;
use crate::block::BLOCK;
use crate::cases::Case;
use crate::gen::areas;
use crate::gen::damage;
use crate::gen::made::Made;
use crate::gen::model::RecordModel;
use crate::gen::tables::{self, Sound};
use crate::list::{self, FIRST_LINE};
use crate::rng::Rng;
use crate::table::{check_exactly, Table};

/// What a case may be noted as.
pub const NOTES: [&str; 8] = [
    "names that can be listed",
    "a byte that cannot be listed",
    "any names",
    "export of edition 1",
    "export of a damaged table",
    "export of a longer table",
    "a longer list area",
    "another list area",
];

/// Mostly a sound table of edition 2 whose names can be listed; now and then it has others, or is of edition 1, damaged or too long.
pub fn case(rng: &mut Rng) -> Made {
    let size = listable::size(rng);
    let mut notes = vec![];
    let Sound { mut model, profile } = match rng.below(12) {
        0 => {
            notes.push(NOTES[2]);
            tables::sound(rng, size)
        }
        1..=4 if size > 0 => {
            notes.push(NOTES[1]);
            unlistable(rng, size)
        }
        _ => {
            notes.push(NOTES[0]);
            listable::sound(rng, size)
        }
    };
    if rng.once_in(10) {
        notes.push(NOTES[3]);
        model.issue = None;
        model.records.iter_mut().for_each(|record| record.set = 0);
    }
    let mut subject = damage::Subject::of(model, profile);
    if rng.once_in(6) {
        notes.push(NOTES[4]);
        damage::damage(rng, &mut subject, &mut notes);
    }
    if rng.once_in(16) {
        notes.push(NOTES[5]);
        subject.bytes = areas::lengthened(rng, subject.bytes);
    }
    let area = area(rng, &subject, &mut notes);
    Made { case: Case::export(rng.byte(), subject.bytes, subject.profile, area), notes, damaged: None }
}

/// Few bytes that cannot be listed, of one kind as often as not, in any of the names.
fn unlistable(rng: &mut Rng, size: usize) -> Sound {
    let mut sound = listable::sound(rng, size);
    let of_one_kind = *rng.pick(&[31, 127, 128, 0, 10, 255]);
    for _ in 0..rng.between(1, 2) {
        let at = rng.below(sound.model.records.len());
        let byte = if rng.coin() { of_one_kind } else { *rng.pick(&[0, 9, 13, 31, 127, 128, 159, 255]) };
        put_unlistable(rng, &mut sound.model.records[at], byte);
    }
    listable::put_in_order(&mut sound.model);
    sound
}

fn put_unlistable(rng: &mut Rng, record: &mut RecordModel, byte: u8) {
    let name = match rng.below(3) {
        0 => &mut record.public,
        1 => &mut record.private,
        _ => &mut record.server_name,
    };
    if name.is_empty() {
        return;
    }
    let at = *rng.pick(&[0, name.len() - 1, name.len() / 2]);
    name[at] = byte;
}

/// About as long as the list.
fn area(rng: &mut Rng, subject: &damage::Subject, notes: &mut Vec<&'static str>) -> usize {
    let is_sound = check_exactly(&subject.bytes, subject.profile.len()).is_ok();
    let needed = if is_sound { list::list(Table(&subject.bytes)).concat().len() } else { 2 * BLOCK };
    match rng.below(10) {
        0..=4 => needed,
        5 | 6 => {
            notes.push(NOTES[6]);
            needed + *rng.pick(&[1, 2, 40, BLOCK])
        }
        _ => {
            notes.push(NOTES[7]);
            let any = rng.below(needed);
            let first = FIRST_LINE.len().min(needed);
            *rng.pick(&[0, any, first - 1, first, needed - 1, needed - 1, needed - 1, needed - 2])
        }
    }
}
