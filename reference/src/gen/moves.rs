//! Cases of the moves between the editions.

use super::areas;
use super::damage;
use super::made::Made;
use super::model::TableModel;
use super::sets;
use super::tables::{self, Sound};
use crate::cases::Case;
use crate::moves::{back, forward};
use crate::rng::Rng;
use crate::slip::Slip;
use crate::table::MOST_RECORDS;

/// What a case may be noted as.
pub const NOTES: [&str; 8] = [
    "forward",
    "back",
    "there and back",
    "back and there",
    "another issue",
    "the other edition",
    "damaged table",
    "a longer table",
];

/// Mostly a sound table of the edition moved from; now and then one of the other, a damaged one, or one with something past it.
pub fn case(rng: &mut Rng) -> Made {
    let size = match rng.below(2000) {
        0 => MOST_RECORDS as usize,
        1..=10 => tables::many(rng),
        _ => rng.below(13),
    };
    let mut sound = tables::sound(rng, size);
    let is_forward = rng.coin();
    let issue = is_forward.then(|| tables::issue(rng));
    if rng.once_in(5) {
        return returning(rng, sound, is_forward);
    }
    let mut notes = vec![if is_forward { "forward" } else { "back" }];
    let other = rng.once_in(6);
    if other {
        notes.push("the other edition");
    }
    match is_forward == other {
        true => to_edition_2(rng, &mut sound.model),
        false => to_edition_1(&mut sound.model),
    }
    let mut subject = damage::Subject::of(sound.model, sound.profile);
    let mut damaged = None;
    if rng.once_in(4) {
        notes.push("damaged table");
        damaged = damage::damage(rng, &mut subject, &mut notes);
    }
    if rng.once_in(12) {
        notes.push("a longer table");
        subject.bytes = areas::lengthened(rng, subject.bytes);
    }
    Made { case: Case::moved(rng.byte(), subject.bytes, subject.profile, issue), notes, damaged }
}

fn to_edition_1(model: &mut TableModel) {
    model.issue = None;
    model.records.iter_mut().for_each(|record| record.set = 0);
}

/// With no sets, with one in one record alone, or with any.
fn to_edition_2(rng: &mut Rng, model: &mut TableModel) {
    model.issue = Some(tables::issue(rng));
    let which = rng.below(5);
    match which {
        0..=3 => model.records.iter_mut().for_each(|record| record.set = 0),
        _ => sets::put(rng, &mut model.records),
    }
    if which >= 2 && !model.records.is_empty() {
        let last = model.records.len() - 1;
        let any = rng.below(last + 1);
        let one = *rng.pick(&[0, last, any]);
        model.records[one].set = sets::number(rng).max(1);
        sets::settle(&mut model.records);
    }
}

/// The way back of a table that this program moved: it is to have its first bytes again, but for another issue number.
fn returning(rng: &mut Rng, mut sound: Sound, is_forward: bool) -> Made {
    let first = tables::issue(rng);
    to_edition_1(&mut sound.model);
    sound.model.issue = is_forward.then_some(first);
    let (mut bytes, length) = (sound.model.encode(), sound.profile.len());
    let moved = match is_forward {
        true => back(&mut bytes, length, Slip::NONE),
        false => forward(&mut bytes, length, first, Slip::NONE),
    };
    debug_assert!(moved.is_ok());
    let mut notes = vec![if is_forward { "back and there" } else { "there and back" }];
    let mut issue = is_forward.then_some(first);
    if is_forward && rng.once_in(4) {
        notes.push("another issue");
        issue = Some(tables::issue(rng));
    }
    Made { case: Case::moved(rng.byte(), bytes, sound.profile, issue), notes, damaged: None }
}
