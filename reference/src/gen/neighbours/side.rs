//! One side of a pair: a table with its profile file, another one that agrees with it in what a request is about, and the call over either.

use std::collections::BTreeSet;

use crate::block::{mend, put_word, BLOCK};
use crate::cases::Case;
use crate::gen::areas;
use crate::gen::model::{RecordModel, TableModel};
use crate::gen::names;
use crate::gen::sets;
use crate::gen::tables::{self, Sound, FAR};
use crate::gen::vectors;
use crate::kinds::Dialect;
use crate::message::Message;
use crate::read::{read, read_sh};
use crate::refuse::LEAST_BUFFER;
use crate::rng::Rng;
use crate::slip::Slip;
use crate::stated::Stated;
use crate::table::{header, LONGEST_IDENTITY, MOST_RECORDS};

/// Whom a request is about.
#[derive(Default)]
pub struct Asked {
    pub publics: BTreeSet<Vec<u8>>,
    user_name: Option<Vec<u8>>,
}

impl Asked {
    /// What the walk keeps as named; nothing of a request with a fault in reading, of which nobody is looked up.
    pub fn of(request: &[u8], dialect: Dialect, stated: Stated) -> Asked {
        let message = Message(request);
        let found = match dialect {
            Dialect::Cx => read(message, stated, Slip::NONE).map(|read| Asked {
                publics: read.identities.iter().map(|avp| avp.data.to_vec()).collect(),
                user_name: read.user_name.map(<[u8]>::to_vec),
            }),
            // Its User-Name is not used.
            Dialect::Sh => read_sh(message, stated, Slip::NONE)
                .map(|read| Asked { publics: [read.identity.to_vec()].into(), user_name: None }),
        };
        found.unwrap_or_default()
    }

    /// The private identities that the request names, or that a record of its public identities has.
    pub fn privates(&self, table: &TableModel) -> BTreeSet<Vec<u8>> {
        let named = table.records.iter().filter(|record| self.publics.contains(&record.public));
        named.map(|record| record.private.clone()).chain(self.user_name.clone()).collect()
    }
}

/// Another table beside a sound one: of the records that the request is about all is the same, but where their profile parts are; the others
/// are other ones.
pub fn beside(rng: &mut Rng, of: &Sound, asked: &Asked) -> Sound {
    let privates = asked.privates(&of.model);
    let (mut mine, others): (Vec<RecordModel>, Vec<RecordModel>) =
        of.model.records.iter().cloned().partition(|record| privates.contains(&record.private));
    let profile = moved(rng, &of.profile, &mut mine);
    let mut records = neighbours(rng, &others, of.model.records.len(), &profile);
    let near = Near { publics: asked.publics.iter().cloned().collect(), privates: privates.iter().cloned().collect() };
    let roaming = (1u16 << of.model.networks.len()).wrapping_sub(1) as u8;
    for record in &mut records {
        near.bring(rng, record, &mine);
        record.roaming &= roaming;
        if of.model.issue.is_none() {
            record.set = 0;
        }
    }
    let own: BTreeSet<&Vec<u8>> = mine.iter().map(|record| &record.public).chain(&asked.publics).collect();
    records.retain(|record| !privates.contains(&record.private) && !own.contains(&record.public));
    records.truncate(MOST_RECORDS as usize - mine.len());
    records.extend(mine);
    records.sort_by(|a, b| a.public.cmp(&b.public));
    records.dedup_by(|a, b| a.public == b.public);
    // Mine agree already.
    sets::settle(&mut records);
    let issue = of.model.issue.map(|issue| if rng.once_in(8) { issue } else { tables::issue(rng) });
    Sound { model: TableModel { issue, records, ..of.model.clone() }, profile }
}

/// Those of the other table altered, gone and kept; or new ones, few or many; or none.
fn neighbours(rng: &mut Rng, others: &[RecordModel], size: usize, profile: &[u8]) -> Vec<RecordModel> {
    let fresh = match rng.below(300) {
        0 => tables::many(rng),
        1..=20 => rng.between(13, 40),
        21..=70 => 0,
        _ => rng.between(1, 5),
    };
    let mut records = tables::over(rng, fresh, profile).records;
    if rng.below(5) < 2 {
        let blank = tables::over(rng, others.len(), profile).records;
        for (other, new) in others.iter().zip(blank) {
            match rng.below(5) {
                0 => {}
                1 => records.push(RecordModel { public: other.public.clone(), ..new }),
                _ => records.push(RecordModel { public: other.public.clone(), private: other.private.clone(), ..new }),
            }
        }
    } else if size > 0 && rng.once_in(3) {
        // As they are, but for the profile, of which nothing is left.
        let none = |it: &RecordModel| RecordModel { profile_start: 0, profile_length: 0, ..it.clone() };
        records.extend(others.iter().filter(|_| rng.below(3) > 0).map(none));
    }
    records
}

/// Names to be near to.
struct Near {
    publics: Vec<Vec<u8>>,
    privates: Vec<Vec<u8>>,
}

impl Near {
    /// Now and then a neighbour is next door: a name near mine, my server, my set number.
    fn bring(&self, rng: &mut Rng, record: &mut RecordModel, mine: &[RecordModel]) {
        if !self.publics.is_empty() && rng.once_in(4) {
            record.public = near(rng, &self.publics);
        }
        if !self.privates.is_empty() && rng.once_in(3) {
            record.private = near(rng, &self.privates);
        }
        if mine.is_empty() || rng.coin() {
            return;
        }
        let one = rng.pick(mine);
        if rng.coin() {
            record.set = one.set;
        }
        if !record.server_name.is_empty() && !one.server_name.is_empty() && rng.coin() {
            record.server_name = one.server_name.clone();
        }
    }
}

fn near(rng: &mut Rng, names: &[Vec<u8>]) -> Vec<u8> {
    let name = rng.pick(names).clone();
    names::near(rng, &name[..name.len().min(LONGEST_IDENTITY)], LONGEST_IDENTITY)
}

/// Another profile file in which these records show the same bytes.
fn moved(rng: &mut Rng, profile: &[u8], records: &mut [RecordModel]) -> Vec<u8> {
    let before = if rng.once_in(200) { FAR } else { rng.below(60) };
    if records.len() > 12 || rng.coin() {
        // All of it moved on, and other bytes where none of these records shows any.
        let behind = rng.below(40);
        let mut file = rng.bytes(before + profile.len() + behind);
        for record in records {
            let (start, length) = (record.profile_start as usize, usize::from(record.profile_length));
            file[before + start..][..length].copy_from_slice(&profile[start..][..length]);
            record.profile_start += before as u32;
        }
        return file;
    }
    let mut file = rng.bytes(before);
    for record in records.iter_mut().rev() {
        let part = &profile[record.profile_start as usize..][..usize::from(record.profile_length)];
        record.profile_start = file.len() as u32;
        file.extend(part);
        let gap = rng.below(20);
        file.extend(rng.bytes(gap));
    }
    file
}

/// The area of a table: now and then with blocks past the count, among them records that would be of the table if the count were greater.
fn area(rng: &mut Rng, model: &TableModel, asked: &Asked) -> Vec<u8> {
    match rng.below(5) {
        0 => areas::lengthened(rng, model.encode()),
        1 if !model.records.is_empty() => {
            let mut longer = model.clone();
            for _ in 0..rng.between(1, 3) {
                let record = stale(rng, &longer, asked);
                longer.records.push(record);
            }
            let mut area = longer.encode();
            put_word(&mut area, header::COUNT, model.records.len() as u32);
            mend(&mut area[..BLOCK]);
            if rng.coin() {
                areas::add_piece(rng, &mut area);
            }
            area
        }
        _ => model.encode(),
    }
}

/// A record to stand past the count: one of the table again, in another state, or one of its subscriptions more, with a public identity behind the
/// last, of the request if there is such.
fn stale(rng: &mut Rng, table: &TableModel, asked: &Asked) -> RecordModel {
    let mut record = rng.pick(&table.records).clone();
    areas::another_registration(rng, &mut record);
    let last = table.records.last().map(|record| record.public.clone()).unwrap_or_default();
    if last.len() < LONGEST_IDENTITY && rng.below(4) > 0 {
        record.set = 0;
        record.public = last.clone();
        record.public.push(rng.byte());
        let behind = asked.publics.iter().find(|public| **public > last && public.len() <= LONGEST_IDENTITY);
        if let Some(public) = behind.filter(|_| rng.coin()) {
            record.public = public.clone();
        }
    }
    record
}

/// The call over a side, with vectors, old bytes of the buffer and a length of it that are its own. Few are refused for buffer or vectors.
pub fn call(rng: &mut Rng, dialect: Dialect, side: &Sound, request: Vec<u8>, stated: Stated, few: bool) -> Case {
    let about = Asked::of(&request, dialect, stated);
    let asked = side.model.records.first().filter(|_| rng.once_in(60)).map(|record| record.private.clone());
    let mut vectors = vectors::model::encode(&vectors::beside(rng, &side.model, asked.as_deref()));
    let mut buffer = LEAST_BUFFER;
    match rng.below(200) {
        0 if few && !vectors.is_empty() => {
            vectors::damage::damage(rng, &mut vectors, &mut Vec::new());
        }
        1 if few => buffer -= rng.between(1, 9),
        2..=40 => buffer += rng.below(3000),
        _ => {}
    }
    let area = area(rng, &side.model, &about);
    let profile = side.profile.clone();
    match dialect {
        Dialect::Cx => Case::decide(rng.byte(), request, area, profile, vectors, buffer, stated),
        Dialect::Sh => Case::sh_decide(rng.byte(), request, area, profile, buffer, stated.peer),
    }
}
