//! Set numbers, and what the records of a set have in common.

use std::collections::BTreeMap;

use super::model::{RecordModel, TableModel};
use crate::rng::Rng;
use crate::table::{BARRED, PENDING};

/// A set number: none, one that others have too, or at an edge.
pub fn number(rng: &mut Rng) -> u16 {
    match rng.below(10) {
        0..=3 => 0,
        4 | 5 => 1,
        6 => rng.between(2, 4) as u16,
        7 => 256 * rng.between(1, 255) as u16,
        8 => u16::MAX,
        _ => rng.word() as u16,
    }
}

/// Gives the records of a table sets, which agree: any numbers, few, one for all, or one for each subscription. Now and then many of
/// the records are barred, so that sets have both kinds, or barred ones alone.
pub fn put(rng: &mut Rng, records: &mut [RecordModel]) {
    let few = few_numbers(rng);
    let manner = rng.below(4);
    for record in records.iter_mut() {
        record.set = match manner {
            0 => number(rng),
            1 => *rng.pick(&few),
            2 => few[0],
            _ => 1 + record.private.iter().fold(0, |sum: u16, byte| sum.wrapping_mul(31) ^ u16::from(*byte)) % 9,
        };
    }
    if rng.coin() {
        let one_in = rng.between(1, 3);
        records.iter_mut().filter(|_| !rng.once_in(one_in + 1)).for_each(|record| record.bits ^= BARRED);
    }
    settle(records);
}

/// Two or three numbers, the same in their first or in their last byte as often as not; 0 may be among them.
fn few_numbers(rng: &mut Rng) -> Vec<u16> {
    let first = number(rng).max(1);
    let second = match rng.below(4) {
        0 => first ^ 256 * rng.between(1, 255) as u16,
        1 => first ^ rng.between(1, 255) as u16,
        2 => 0,
        _ => number(rng),
    };
    let mut few = vec![first, second];
    if rng.coin() {
        few.push(number(rng));
    }
    few
}

/// Every record of a set gets what the first of it has: state, pending and server name.
pub fn settle(records: &mut [RecordModel]) {
    let mut first: BTreeMap<(Vec<u8>, u16), RecordModel> = BTreeMap::new();
    for record in records.iter_mut().filter(|record| record.set != 0) {
        let of = first.entry((record.private.clone(), record.set)).or_insert_with(|| record.clone());
        record.state = of.state;
        record.bits = record.bits & !PENDING | of.bits & PENDING;
        record.server_name.clone_from(&of.server_name);
    }
}

/// The other records of a record's set.
pub fn others<'a>(table: &'a TableModel, of: &RecordModel) -> Vec<&'a RecordModel> {
    let same =
        |it: &&RecordModel| it.set != 0 && it.set == of.set && it.private == of.private && it.public != of.public;
    table.records.iter().filter(same).collect()
}
