//! Whom a request is about: identities in the table, near them, and in none.

use crate::gen::model::{RecordModel, TableModel};
use crate::gen::names;
use crate::rng::Rng;
use crate::table::LONGEST_IDENTITY;

pub const ABSENT: &[u8] = b"sip:nobody@isle";

pub fn some_record(rng: &mut Rng, table: &TableModel) -> RecordModel {
    match table.records.len() {
        0 => RecordModel { public: ABSENT.to_vec(), private: ABSENT.to_vec(), ..RecordModel::default() },
        count => table.records[rng.below(count)].clone(),
    }
}

/// A public identity that is in no record, mostly; near a real one.
pub fn unknown_public(rng: &mut Rng, record: &RecordModel) -> Vec<u8> {
    match rng.below(5) {
        0 => vec![],
        1 => ABSENT.to_vec(),
        2 => vec![b'x'; rng.between(127, 300)],
        3 => names::alike(rng, &record.public, LONGEST_IDENTITY),
        _ => names::near(rng, &record.public, LONGEST_IDENTITY),
    }
}

/// The private identity of some other subscription, if there is one.
pub fn other_private(rng: &mut Rng, table: &TableModel, than: &[u8]) -> Vec<u8> {
    let others: Vec<&RecordModel> = table.records.iter().filter(|record| record.private != than).collect();
    if others.is_empty() {
        return ABSENT.to_vec();
    }
    rng.pick(&others).private.clone()
}

pub fn unknown_private(rng: &mut Rng, private: &[u8]) -> Vec<u8> {
    match rng.below(4) {
        0 => vec![],
        1 => ABSENT.to_vec(),
        2 => names::alike(rng, private, LONGEST_IDENTITY),
        _ => names::near(rng, private, LONGEST_IDENTITY),
    }
}
