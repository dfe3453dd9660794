//! Sound tables of edition 2 whose names can be listed.

use crate::gen::model::{RecordModel, TableModel};
use crate::gen::sets;
use crate::gen::tables::{self, Sound};
use crate::list::is_listable;
use crate::rng::Rng;
use crate::table::{LONGEST_IDENTITY, LONGEST_SERVER_NAME, MOST_RECORDS};

/// How many records a table has: mostly few.
pub fn size(rng: &mut Rng) -> usize {
    match rng.below(3000) {
        0 => MOST_RECORDS as usize,
        1..=6 => tables::many(rng),
        _ => rng.below(9),
    }
}

/// A table of so many records, with quotes, commas and bytes at the edge in its names as often as not.
pub fn sound(rng: &mut Rng, records: usize) -> Sound {
    let mut sound = tables::sound(rng, records);
    sound.model.issue.get_or_insert_with(|| tables::issue(rng));
    sound.model.records.iter_mut().for_each(make_listable);
    if rng.once_in(20) && !sound.model.records.is_empty() {
        let at = rng.below(sound.model.records.len());
        make_long(rng, &mut sound.model.records[at]);
    }
    put_in_order(&mut sound.model);
    fill_up(&mut sound.model, records);
    sound
}

/// Others for those that have become one with another.
fn fill_up(model: &mut TableModel, records: usize) {
    let pattern = match model.records.first() {
        Some(first) => RecordModel { set: 0, ..first.clone() },
        None => return,
    };
    for n in 0.. {
        let lacking = records - model.records.len();
        if lacking == 0 {
            break;
        }
        let record = |at| RecordModel { public: format!("tel:{n}{at:04}").into_bytes(), ..pattern.clone() };
        model.records.extend((0..lacking).map(record));
        put_in_order(model);
    }
}

/// Rising public identities, and sets that agree: two names may have become one.
pub fn put_in_order(model: &mut TableModel) {
    model.records.sort_by(|a, b| a.public.cmp(&b.public));
    model.records.dedup_by(|a, b| a.public == b.public);
    sets::settle(&mut model.records);
}

fn make_listable(record: &mut RecordModel) {
    for name in [&mut record.public, &mut record.private, &mut record.server_name] {
        name.iter_mut().for_each(|byte| *byte = near(*byte));
    }
}

/// A byte that can be listed: the usual ones stay.
fn near(byte: u8) -> u8 {
    match byte {
        byte if is_listable(byte) => byte,
        0 => b'"',
        255 => b'~',
        128..=135 => b',',
        136..=140 => b' ',
        byte => 32 + byte % 95,
    }
}

/// Names as long as their fields, of quotes alone or nearly: a line of 700 bytes and more.
fn make_long(rng: &mut Rng, record: &mut RecordModel) {
    let byte = *rng.pick(b"\"\"\",");
    record.public = vec![byte; LONGEST_IDENTITY - rng.below(2)];
    record.private = vec![byte; LONGEST_IDENTITY - rng.below(2)];
    if !record.server_name.is_empty() {
        record.server_name = vec![byte; LONGEST_SERVER_NAME - rng.below(2)];
    }
}
