//! Right User-Data-Requests: whom they are about, and what of him.

use super::people::{some_record, unknown_public};
use crate::gen::model::TableModel;
use crate::gen::request::{single, Piece};
use crate::kinds::Kind;
use crate::rng::Rng;
use crate::sh::{NAME, STATE};

/// The own AVPs of a request for an identity of the table, whose server names get markup characters as often as not.
pub fn user_data_request(rng: &mut Rng, table: &mut TableModel) -> Vec<Piece> {
    if rng.coin() {
        put_markup(rng, table);
    }
    let record = some_record(rng, table);
    let public = if rng.once_in(8) { unknown_public(rng, &record) } else { record.public };
    let group = identity_group(rng, public);
    let mut own = vec![Piece::of(rng, Kind::UserIdentity, group)];
    own.extend(references(rng));
    if rng.once_in(3) {
        // It is not used: another's is as good.
        let name = if rng.coin() { record.private } else { some_record(rng, table).private };
        own.push(Piece::of(rng, Kind::UserName, name));
    }
    own
}

/// What 700 holds, rightly: one 601.
pub fn identity_group(rng: &mut Rng, public: Vec<u8>) -> Vec<u8> {
    single(rng, Kind::PublicIdentity.code(), public)
}

/// One of the two that are served, both, one again, or others beside them.
fn references(rng: &mut Rng) -> Vec<Piece> {
    let asked: Vec<u32> = match rng.below(12) {
        0..=2 => vec![STATE],
        3..=5 => vec![NAME],
        6 => vec![NAME, STATE],
        7 => vec![STATE, NAME],
        8 => {
            let one = *rng.pick(&[STATE, NAME]);
            vec![one, *rng.pick(&[STATE, NAME]), one]
        }
        9 => return vec![data_reference(rng)],
        _ => {
            let mut all = vec![data_reference(rng), data_reference(rng)];
            all.push(Piece::number(rng, Kind::DataReference, STATE));
            rng.shuffle(&mut all);
            return all;
        }
    };
    asked.into_iter().map(|one| Piece::number(rng, Kind::DataReference, one)).collect()
}

/// A 703 of any value: served, near that, of source document 001, or the same in fewer bits.
pub fn data_reference(rng: &mut Rng) -> Piece {
    let number = match rng.below(8) {
        0..=2 => *rng.pick(&[STATE, NAME]),
        3 | 4 => *rng.pick(&[0, 10, 13, 14, 15, 16, 17, 18]),
        5 => *rng.pick(&[STATE, NAME]) | 1 << rng.between(8, 31),
        6 => rng.below(40) as u32,
        _ => rng.word(),
    };
    Piece::number(rng, Kind::DataReference, number)
}

/// Every server name with some of its bytes turned into markup characters, controls or bytes that are no UTF-8: equal ones stay equal.
fn put_markup(rng: &mut Rng, table: &mut TableModel) {
    let letters: Vec<u8> = (0..5).map(|_| *rng.pick(b"&&<<>>\"\"''&<>;\0\x1F\x7F\x80\xFF")).collect();
    let every = rng.between(2, 5);
    for record in &mut table.records {
        for (place, byte) in record.server_name.iter_mut().enumerate().filter(|(place, _)| (place + 1) % every == 0) {
            *byte = letters[place % letters.len()];
        }
    }
}
