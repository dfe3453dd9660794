//! Sound tables of every shape.

use std::collections::BTreeSet;

use super::model::{RecordModel, TableModel};
use super::names;
use super::sets;
use crate::rng::Rng;
use crate::table::{
    BARRED, LONGEST_HOST, LONGEST_IDENTITY, LONGEST_PROFILE, LONGEST_SERVER_NAME, MOST_CAPABILITIES, MOST_NETWORKS,
    MOST_RECORDS, NOT_REGISTERED, PENDING, UNREGISTERED_SERVICES,
};

/// A sound table with its profile file.
pub struct Sound {
    pub model: TableModel,
    pub profile: Vec<u8>,
}

/// Past what 16 bits can say.
pub const FAR: usize = 65_536;

/// A number of records from 13 to 4,096: each power of 2 as often as another, and as often as not the power itself or
/// one beside it, where a look-up by halving would go wrong first.
pub fn many(rng: &mut Rng) -> usize {
    let power = 1 << rng.between(4, 12);
    let many = if rng.coin() { power - 1 + rng.below(3) } else { rng.between(power / 2, power) };
    many.clamp(13, MOST_RECORDS as usize)
}

/// A sound table of so many records.
pub fn sound(rng: &mut Rng, records: usize) -> Sound {
    let profile = profile(rng);
    let model = over(rng, records, &profile);
    Sound { model, profile }
}

/// A sound table of so many records for a profile file.
pub fn over(rng: &mut Rng, records: usize, profile: &[u8]) -> TableModel {
    let mut model = TableModel {
        issue: rng.coin().then(|| issue(rng)),
        keep: rng.coin(),
        host: names::any(rng, LONGEST_HOST),
        realm: names::any(rng, LONGEST_HOST),
        networks: networks(rng),
        records: Vec::with_capacity(records),
    };
    let subscriptions = pool(rng, 1 + records / 3, LONGEST_IDENTITY);
    let servers = pool(rng, 2, LONGEST_SERVER_NAME);
    for public in identities(rng, records) {
        let mut record = record(rng, model.networks.len(), profile);
        record.public = public;
        record.private = rng.pick(&subscriptions).clone();
        if record.state != NOT_REGISTERED || record.is_pending() {
            record.server_name = rng.pick(&servers).clone();
        }
        model.records.push(record);
    }
    if model.issue.is_some() && rng.below(3) > 0 {
        sets::put(rng, &mut model.records);
    }
    model
}

/// An issue number, at an edge as often as not.
pub fn issue(rng: &mut Rng) -> u32 {
    match rng.below(8) {
        0 => 0,
        1 => 1,
        2 => u32::MAX,
        3 => 1 << rng.below(32),
        4 => u32::from(rng.byte()),
        _ => rng.word(),
    }
}

fn profile(rng: &mut Rng) -> Vec<u8> {
    if rng.once_in(200) {
        let length = rng.between(FAR - 1, 2 * FAR + LONGEST_PROFILE);
        return rng.bytes(length);
    }
    let length = match rng.below(40) {
        0 => LONGEST_PROFILE + rng.below(3) - 1,
        1 => 2 * LONGEST_PROFILE,
        2..=6 => rng.below(3),
        7..=15 => rng.between(3, 600),
        _ => rng.between(3, 90),
    };
    rng.bytes(length)
}

fn networks(rng: &mut Rng) -> Vec<Vec<u8>> {
    let wanted = rng.below(MOST_NETWORKS + 1);
    let mut networks: Vec<Vec<u8>> = Vec::new();
    while networks.len() < wanted {
        let name = match networks.last() {
            Some(last) if rng.once_in(3) => names::near(rng, last, 31),
            _ => names::any(rng, 31),
        };
        if !networks.contains(&name) {
            networks.push(name);
        }
    }
    networks
}

/// Some names, near one another as often as not.
fn pool(rng: &mut Rng, most: usize, longest: usize) -> Vec<Vec<u8>> {
    let size = rng.between(1, most);
    let mut pool = vec![names::any(rng, longest)];
    while pool.len() < size {
        let name = if rng.coin() {
            let other = rng.pick(&pool).clone();
            names::near(rng, &other, longest)
        } else {
            names::any(rng, longest)
        };
        pool.push(name);
    }
    pool
}

/// So many public identities, in their order.
fn identities(rng: &mut Rng, count: usize) -> Vec<Vec<u8>> {
    let mut chosen: BTreeSet<Vec<u8>> = BTreeSet::new();
    let mut last: Vec<u8> = names::any(rng, LONGEST_IDENTITY);
    while chosen.len() < count {
        let name = match rng.below(4) {
            0 => names::near(rng, &last, LONGEST_IDENTITY),
            1 => format!("sip:{:05}@isle", rng.below(100_000)).into_bytes(),
            _ => names::any(rng, LONGEST_IDENTITY),
        };
        if chosen.insert(name.clone()) {
            last = name;
        }
    }
    chosen.into_iter().collect()
}

/// A record without its names.
fn record(rng: &mut Rng, networks: usize, profile: &[u8]) -> RecordModel {
    let mut bits = 0;
    if rng.once_in(3) {
        bits |= PENDING;
    }
    if rng.once_in(6) {
        bits |= BARRED;
    }
    if rng.coin() {
        bits |= UNREGISTERED_SERVICES;
    }
    let used = (1u16 << networks) as u8;
    let (profile_start, profile_length) = profile_part(rng, profile.len());
    RecordModel {
        state: rng.below(3) as u8,
        bits,
        roaming: rng.byte() & used.wrapping_sub(1),
        mandatory: capabilities(rng),
        optional: capabilities(rng),
        profile_start,
        profile_length,
        ..RecordModel::default()
    }
}

fn capabilities(rng: &mut Rng) -> Vec<u32> {
    let count = if rng.coin() { 0 } else { rng.between(1, MOST_CAPABILITIES) };
    (0..count).map(|_| if rng.coin() { rng.below(5) as u32 } else { rng.word() }).collect()
}

/// A part within the profile file, at its edges as often as not.
pub fn profile_part(rng: &mut Rng, file: usize) -> (u32, u16) {
    let start = match rng.below(6) {
        0 => 0,
        1 => file,
        2 => file - rng.below(2).min(file),
        _ if file > FAR && rng.coin() => rng.between(FAR, file),
        _ => rng.below(file + 1),
    };
    let longest = (file - start).min(LONGEST_PROFILE);
    let length = match rng.below(4) {
        0 => 0,
        1 => rng.below(longest + 1),
        _ => longest,
    };
    (start as u32, length as u16)
}

#[cfg(test)]
mod tests {
    use crate::gen::model::TableModel;
    use crate::gen::tables::sound;
    use crate::rng::Rng;
    use crate::table::Table;

    #[test]
    fn the_model_of_a_table_has_its_bytes() {
        let mut rng = Rng::new(5);
        for records in [0, 1, 2, 9, 40] {
            let table = sound(&mut rng, records).model.encode();
            assert!(TableModel::of(Table(&table)).encode() == table);
        }
    }
}
