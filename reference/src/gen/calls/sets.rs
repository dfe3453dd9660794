//! Requests about the records of sets, over tables in which most are of one.

use super::call::Call;
use crate::gen::asks::{self, assignment};
use crate::gen::made::Made;
use crate::gen::model::TableModel;
use crate::gen::request::RequestModel;
use crate::gen::sets;
use crate::gen::tables;
use crate::kinds::Command;
use crate::rng::Rng;
use crate::table::BARRED;

pub const NOTES: [&str; 4] = ["barring in sets", "an assignment of a set", "several of one set", "a MAR of a set"];

pub fn case(rng: &mut Rng) -> Made {
    let size = rng.between(2, 7);
    let mut sound = tables::sound(rng, size);
    let which = rng.below(NOTES.len());
    in_sets(rng, &mut sound.model);
    let table = &mut sound.model;
    let request = match which {
        0 => {
            let one_in = rng.between(2, 4);
            table.records.iter_mut().for_each(|record| record.bits |= if rng.once_in(one_in) { 0 } else { BARRED });
            asks::authorization(rng, table)
        }
        1 => asks::one_assignment(rng, table),
        2 => several(rng, table),
        _ => asks::authentication(rng, table),
    };
    Call::new(rng, sound, request).noted(NOTES[which]).finish(rng)
}

/// In edition 2, the records of two subscriptions or one, in sets.
fn in_sets(rng: &mut Rng, table: &mut TableModel) {
    table.issue = Some(tables::issue(rng));
    let privates = [table.records[0].private.clone(), table.records[1].private.clone()];
    table.records.iter_mut().for_each(|record| record.private = rng.pick(&privates).clone());
    sets::put(rng, &mut table.records);
}

/// A SAR of any type that names several of one set, if there is such a set, mostly with the stored name.
fn several(rng: &mut Rng, table: &TableModel) -> RequestModel {
    let count = table.records.len();
    let from = rng.below(count);
    let in_turn = (0..count).map(|n| &table.records[(from + n) % count]);
    let record = in_turn.max_by_key(|it| sets::others(table, it).len().min(2)).unwrap_or(&table.records[0]);
    let others = sets::others(table, record);
    let mut identities: Vec<Vec<u8>> = others.iter().map(|it| it.public.clone()).collect();
    identities.truncate(rng.between(1, 3));
    identities.push(record.public.clone());
    if rng.once_in(8) {
        identities.push(record.public.clone());
    }
    rng.shuffle(&mut identities);
    let name = if record.server_name.is_empty() || rng.once_in(8) { b"s".to_vec() } else { record.server_name.clone() };
    let private = rng.coin().then(|| record.private.clone());
    let asked_type = rng.below(12) as u32;
    let mut own = assignment(rng, asked_type, identities, private, name);
    asks::surround(rng, Command::ServerAssignment, &mut own)
}
