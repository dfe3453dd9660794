//! Sound vector files: of one name, many and none, used and unused, beside names that are near.

use super::model::VectorModel;
use crate::gen::model::TableModel;
use crate::gen::names;
use crate::rng::Rng;
use crate::table::LONGEST_IDENTITY;
use crate::vectors::{LEAST_XRES, MOST_VECTORS, MOST_XRES};

/// A file of so many vectors of few names.
pub fn file(rng: &mut Rng, count: usize) -> Vec<VectorModel> {
    let mut names = vec![names::any(rng, LONGEST_IDENTITY)];
    for _ in 0..rng.below(4) {
        let near = names::near(rng, &names[0], LONGEST_IDENTITY);
        names.push(if rng.coin() { near } else { names::any(rng, LONGEST_IDENTITY) });
    }
    let mut vectors: Vec<VectorModel> = Vec::with_capacity(count);
    for _ in 0..count {
        let again = vectors.last().filter(|_| rng.once_in(12)).cloned();
        vectors.push(again.unwrap_or_else(|| vector_of(rng, &names)));
    }
    vectors
}

/// A file beside a table: some vectors of its names, and for the name that is asked for as many as a case may want.
pub fn beside(rng: &mut Rng, table: &TableModel, asked: Option<&[u8]>) -> Vec<VectorModel> {
    let mut vectors = some_of_table(rng, table);
    // An empty or overlong name is no vector's.
    if let Some(asked) = asked.filter(|name| (1..=LONGEST_IDENTITY).contains(&name.len())) {
        let name = [asked.to_vec()];
        let unused = unused_wanted(rng);
        let used = if rng.coin() { 0 } else { rng.between(1, 4) };
        for n in 0..unused + used {
            vectors.push(VectorModel { used: n >= unused, ..vector_of(rng, &name) });
        }
        for _ in 0..if rng.once_in(3) { rng.between(1, 3) } else { 0 } {
            let near = [near(rng, asked)];
            vectors.push(vector_of(rng, &near));
        }
        if rng.once_in(40) {
            let most = if rng.once_in(8) { MOST_VECTORS } else { 600 };
            let size = if rng.once_in(6) { MOST_VECTORS } else { rng.between(100, most) };
            let more = file(rng, size - vectors.len());
            vectors.extend(more);
        }
    }
    if rng.below(4) > 0 {
        rng.shuffle(&mut vectors);
    }
    vectors
}

/// A file for a run: of the private identities of a table, of names near them and of one in no record.
pub fn of_people(rng: &mut Rng, table: &TableModel) -> Vec<VectorModel> {
    let mut names: Vec<Vec<u8>> = table.records.iter().map(|record| record.private.clone()).collect();
    let (near, unknown) = (near(rng, &names[0]), names::any(rng, LONGEST_IDENTITY));
    names.extend([near, unknown]);
    let count = rng.between(1, 90);
    (0..count).map(|_| VectorModel { used: rng.once_in(8), ..vector_of(rng, &names) }).collect()
}

/// As often none, one, about 16 and any other number.
fn unused_wanted(rng: &mut Rng) -> usize {
    match rng.below(10) {
        0 | 1 => 0,
        2 | 3 => 1,
        4 => 2,
        5 => 16,
        6 => rng.between(15, 17),
        7 => rng.between(18, 40),
        _ => rng.between(2, 15),
    }
}

/// Up to 4 vectors of private and public identities of the table, or of a name in no record.
fn some_of_table(rng: &mut Rng, table: &TableModel) -> Vec<VectorModel> {
    let count = if rng.coin() { 0 } else { rng.between(1, 4) };
    let mut vectors = Vec::with_capacity(count);
    for _ in 0..count {
        let name = match (table.records.len(), rng.below(4)) {
            (0, _) | (_, 0) => names::any(rng, LONGEST_IDENTITY),
            (records, 1) => table.records[rng.below(records)].public.clone(),
            (records, _) => table.records[rng.below(records)].private.clone(),
        };
        vectors.push(vector_of(rng, &[name]));
    }
    vectors
}

/// Another name that one who looks at too little takes for it.
fn near(rng: &mut Rng, name: &[u8]) -> Vec<u8> {
    let mut other = name.to_vec();
    match rng.below(4) {
        0 => {
            other.make_ascii_uppercase();
            other
        }
        1 if other.len() < LONGEST_IDENTITY => {
            other.resize(rng.between(other.len() + 1, LONGEST_IDENTITY), 0);
            other
        }
        _ => names::near(rng, name, LONGEST_IDENTITY),
    }
}

/// A vector of one of these names.
fn vector_of(rng: &mut Rng, names: &[Vec<u8>]) -> VectorModel {
    let xres = match rng.below(4) {
        0 => LEAST_XRES,
        1 => MOST_XRES,
        _ => rng.between(LEAST_XRES, MOST_XRES),
    };
    let mut rand_and_autn = rng.bytes(32);
    if rng.once_in(8) {
        rand_and_autn[..4].fill(0);
    }
    VectorModel {
        used: rng.once_in(3),
        private: rng.pick(names).clone(),
        rand_and_autn,
        xres: rng.bytes(xres),
        confidentiality_key: rng.bytes(16),
        integrity_key: rng.bytes(16),
    }
}
