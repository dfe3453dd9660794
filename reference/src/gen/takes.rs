//! Cases of the take-over: an area of any kind, and a new table that is mostly sound.

use super::areas;
use super::damage;
use super::made::Made;
use super::model::TableModel;
use super::tables::{self, Sound};
use crate::block::BLOCK;
use crate::cases::Case;
use crate::rng::Rng;
use crate::table::MOST_RECORDS;
use crate::take::{self, issues_found};

/// What a case may be noted as: the area, its length, the new table.
pub const NOTES: [&str; 20] = [
    "the table alone",
    "a longer area",
    "records past the count",
    "a cut take-over",
    "some blocks of a take-over",
    "a damaged area",
    "rubbish",
    "zeros",
    "the first blocks zeroed",
    "an area cut anywhere",
    "as long as the new table",
    "shorter than the new table",
    "blocks added for the new table",
    "more blocks than any table has",
    "a changed table",
    "another table",
    "the same table again",
    "damaged new table",
    "a new table of edition 1",
    "a new table of another length",
];

pub fn case(rng: &mut Rng) -> Made {
    let size = match rng.below(2000) {
        0 | 1 => MOST_RECORDS as usize,
        2..=11 => tables::many(rng),
        _ => rng.below(9),
    };
    let Sound { model: mut old, profile } = tables::sound(rng, size);
    if rng.coin() {
        old.issue = old.issue.map(|_| rng.below(40) as u32);
    }
    let mut notes = vec![];
    let mut new = new_table(rng, &old, &profile, &mut notes);
    let mut area = area(rng, &old, &profile, &mut notes);
    fit(rng, &mut area, BLOCK * (new.records.len() + 1), &mut notes);
    if rng.once_in(500) {
        notes.push("more blocks than any table has");
        area = areas::over_the_most(rng, &area);
    }
    new.issue = Some(issue(rng, &area));
    if rng.once_in(15) {
        notes.push("the same table again");
        let written = rng.between(1, new.records.len() + 1);
        take::write(&mut area, &new.encode(), |block| block < written);
    }
    let (fresh, profile) = given(rng, new, profile, &mut notes);
    Made { case: Case::take(rng.byte(), area, fresh, profile), notes, damaged: None }
}

fn new_table(rng: &mut Rng, old: &TableModel, profile: &[u8], notes: &mut Vec<&'static str>) -> TableModel {
    let many = old.records.len() > 12;
    if rng.below(3) > many as usize {
        notes.push("a changed table");
        return areas::changed(rng, old, profile);
    }
    notes.push("another table");
    let records = if many { old.records.len() } else { rng.below(9) };
    tables::over(rng, records, profile)
}

fn area(rng: &mut Rng, old: &TableModel, profile: &[u8], notes: &mut Vec<&'static str>) -> Vec<u8> {
    let (note, area) = match rng.below(20) {
        0..=2 => (0, old.encode()),
        3..=7 => (1, areas::lengthened(rng, old.encode())),
        8 | 9 => (2, areas::with_lesser_count(rng, old)),
        10 | 11 => (3, half_taken(rng, old, profile, areas::cut)),
        12 => (4, half_taken(rng, old, profile, areas::scattered)),
        13 | 14 => (5, damaged(rng, old, profile)),
        15 => (6, rubbish(rng)),
        16 => (7, vec![0; rng.below(6 * BLOCK)]),
        17 | 18 => (8, zeroed(rng, old)),
        _ => {
            let mut area = areas::lengthened(rng, old.encode());
            area.truncate(rng.below(area.len()));
            (9, area)
        }
    };
    notes.push(NOTES[note]);
    area
}

/// Writes some blocks of a new table.
type Writing = fn(&mut Rng, &mut [u8], &[u8]) -> Option<usize>;

/// A longer area after another take-over that was not finished.
fn half_taken(rng: &mut Rng, old: &TableModel, profile: &[u8], write: Writing) -> Vec<u8> {
    let mut area = areas::lengthened(rng, old.encode());
    let fresh = areas::successor(rng, old, profile, &area).encode();
    if area.len() < fresh.len() {
        area.resize(fresh.len(), 0);
    }
    write(rng, &mut area, &fresh);
    area
}

/// The profile file stays.
fn damaged(rng: &mut Rng, old: &TableModel, profile: &[u8]) -> Vec<u8> {
    let mut subject = damage::Subject::of(old.clone(), profile.to_vec());
    damage::damage(rng, &mut subject, &mut Vec::new());
    subject.bytes
}

fn rubbish(rng: &mut Rng) -> Vec<u8> {
    let mut area: Vec<u8> = (0..rng.below(6)).flat_map(|_| areas::rubbish(rng)).collect();
    if rng.coin() {
        areas::add_piece(rng, &mut area);
    }
    area
}

/// As it is mended: zeros from block 0 up, some way or all of it.
fn zeroed(rng: &mut Rng, old: &TableModel) -> Vec<u8> {
    let mut area = areas::lengthened(rng, old.encode());
    let blocks = area.len() / BLOCK;
    let up_to = if rng.coin() { blocks } else { rng.between(1, blocks) };
    area[..up_to * BLOCK].fill(0);
    area
}

/// Mostly long enough for a new table of so many bytes, with or without a byte to spare.
fn fit(rng: &mut Rng, area: &mut Vec<u8>, needed: usize, notes: &mut Vec<&'static str>) {
    match rng.below(12) {
        0 | 1 => {
            notes.push("as long as the new table");
            area.resize(needed, 0);
        }
        2 => {
            notes.push("shorter than the new table");
            let any = rng.between(1, needed);
            area.resize(needed - *rng.pick(&[1, 1, BLOCK - 1, BLOCK, any]), 0);
        }
        3 => {}
        _ => {
            if area.len() < needed {
                notes.push("blocks added for the new table");
                let blocks = (needed - area.len() + BLOCK - 1) / BLOCK;
                areas::add_blocks(rng, area, blocks);
            }
        }
    }
}

/// An issue number by those that are found in the area: greater than all of them, or just not.
fn issue(rng: &mut Rng, area: &[u8]) -> u32 {
    let found: Vec<u32> = issues_found(area).collect();
    let greatest = match found.iter().max() {
        Some(greatest) => *greatest,
        None if rng.coin() => return rng.below(2) as u32,
        None => return tables::issue(rng),
    };
    match rng.below(20) {
        0..=6 => greatest.saturating_add(1),
        7..=9 => greatest.saturating_add(rng.between(2, 70_000) as u32),
        10 => (greatest | 0xFFFF).saturating_add(1),
        11 => greatest.saturating_add(1).max(1 << 31),
        12 | 13 => greatest,
        14 => greatest.saturating_sub(1),
        15 | 16 => rng.pick(&found).saturating_add(rng.below(2) as u32),
        17 => u32::MAX,
        _ => tables::issue(rng),
    }
}

/// The new table as it is given, and the profile file: now and then damaged, of edition 1 or of another length.
fn given(rng: &mut Rng, mut new: TableModel, profile: Vec<u8>, notes: &mut Vec<&'static str>) -> (Vec<u8>, Vec<u8>) {
    let which = rng.below(20);
    if which == 0 {
        notes.push("a new table of edition 1");
        new.issue = None;
        new.records.iter_mut().for_each(|record| record.set = 0);
    }
    let mut subject = damage::Subject::of(new, profile);
    match which {
        1..=3 => {
            notes.push("damaged new table");
            damage::damage(rng, &mut subject, notes);
        }
        4 => {
            notes.push("a new table of another length");
            match rng.below(3) {
                0 => subject.bytes = areas::lengthened(rng, subject.bytes),
                1 => subject.bytes.truncate(BLOCK * rng.below(subject.bytes.len() / BLOCK)),
                _ => subject.bytes.truncate(rng.below(subject.bytes.len())),
            }
        }
        _ => {}
    }
    (subject.bytes, subject.profile)
}
