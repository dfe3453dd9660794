//! SARs of which several things are wrong at once, each of another identity or record: the order in which document 01
//! asks decides.

use super::call::Call;
use crate::gen::asks::{self, assignment, unknown_private, unknown_public, REMOVALS};
use crate::gen::made::Made;
use crate::gen::model::{RecordModel, TableModel};
use crate::gen::names;
use crate::gen::request::Piece;
use crate::gen::sets;
use crate::gen::tables;
use crate::kinds::Command;
use crate::rng::Rng;
use crate::table::{LONGEST_IDENTITY, LONGEST_SERVER_NAME, NOT_REGISTERED, PENDING};

pub const NOTES: [&str; 3] =
    ["foreign and unknown identities", "too many identities, with unknown ones", "other names and wrong states"];

pub fn case(rng: &mut Rng) -> Made {
    let size = rng.between(2, 12);
    let mut sound = tables::sound(rng, size);
    let which = rng.below(NOTES.len());
    let mut own = match which {
        0 => foreign_and_unknown(rng, &mut sound.model),
        1 => too_many(rng, &mut sound.model),
        _ => names_and_states(rng, &mut sound.model),
    };
    let request = asks::surround(rng, Command::ServerAssignment, &mut own);
    Call::new(rng, sound, request).noted(NOTES[which]).finish(rng)
}

/// Some record, and another that is of another subscription.
fn own_and_foreign(rng: &mut Rng, table: &mut TableModel) -> (RecordModel, RecordModel) {
    let count = table.records.len();
    let own = rng.below(count);
    let foreign = (own + rng.between(1, count - 1)) % count;
    let private = table.records[own].private.clone();
    if table.records[foreign].private == private {
        table.records[foreign].private = names::near(rng, &private, LONGEST_IDENTITY);
        sets::settle(&mut table.records);
    }
    (table.records[own].clone(), table.records[foreign].clone())
}

/// A removal of a foreign identity and an unknown one, either before the other, mostly with one that could be removed.
fn foreign_and_unknown(rng: &mut Rng, table: &mut TableModel) -> Vec<Piece> {
    let (own, foreign) = own_and_foreign(rng, table);
    let mut identities = vec![foreign.public, unknown_public(rng, &own)];
    if rng.below(4) > 0 {
        identities.push(own.public);
    }
    rng.shuffle(&mut identities);
    let user_name = match rng.below(5) {
        0 => Some(own.private),
        1 => Some(foreign.private),
        2 => Some(unknown_private(rng, &own.private)),
        _ => None,
    };
    let asked_type = *rng.pick(&REMOVALS);
    assignment(rng, asked_type, identities, user_name, b"s".to_vec())
}

/// Several identities where one is needed, at least one of them unknown.
fn too_many(rng: &mut Rng, table: &mut TableModel) -> Vec<Piece> {
    let (own, foreign) = own_and_foreign(rng, table);
    let mut identities = vec![unknown_public(rng, &own), own.public.clone()];
    if rng.coin() {
        identities.push(foreign.public);
    }
    if rng.coin() {
        identities.push(unknown_public(rng, &own));
    }
    rng.shuffle(&mut identities);
    let user_name = if rng.coin() { Some(own.private) } else { None };
    let asked_type = *rng.pick(&[0, 1, 2, 3, 9, 10]);
    assignment(rng, asked_type, identities, user_name, b"s".to_vec())
}

/// Records of one subscription, some with another server name, some in a state that the type does not go from.
fn names_and_states(rng: &mut Rng, table: &mut TableModel) -> Vec<Piece> {
    let private = table.records[0].private.clone();
    let name = names::any(rng, LONGEST_SERVER_NAME);
    let other = if rng.coin() { names::near(rng, &name, LONGEST_SERVER_NAME) } else { name.clone() };
    let mut identities = Vec::new();
    for record in &mut table.records {
        if record.private != private && rng.coin() {
            continue;
        }
        record.private = private.clone();
        record.state = if rng.below(3) > 0 { rng.between(1, 2) as u8 } else { NOT_REGISTERED };
        let named = record.state != NOT_REGISTERED || record.bits & PENDING != 0;
        record.server_name = match (named, rng.coin()) {
            (false, _) => vec![],
            (true, true) => name.clone(),
            (true, false) => other.clone(),
        };
        identities.push(record.public.clone());
    }
    sets::settle(&mut table.records);
    rng.shuffle(&mut identities);
    let asked_type = if rng.below(4) > 0 { *rng.pick(&REMOVALS) } else { rng.between(1, 3) as u32 };
    let most = if REMOVALS.contains(&asked_type) { 4 } else { 1 };
    identities.truncate(if rng.once_in(5) { identities.len() } else { most });
    if REMOVALS.contains(&asked_type) && rng.once_in(8) {
        identities.clear();
    }
    let user_name = if identities.is_empty() || rng.coin() { Some(private) } else { None };
    assignment(rng, asked_type, identities, user_name, name)
}
