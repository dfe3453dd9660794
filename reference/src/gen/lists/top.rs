//! Lists whose public identities are near the last that there is, under header blocks that want more lines than names are left, or just not.

use std::collections::BTreeSet;

use super::spoils::Subject;
use crate::gen::model::RecordModel;
use crate::gen::tables;
use crate::list::names_above;
use crate::rng::Rng;
use crate::slip::Slip;
use crate::table::{LONGEST_IDENTITY, MOST_RECORDS};

/// The list of a few such names, mostly with more lines wanted than there are.
pub fn subject(rng: &mut Rng) -> Subject {
    let mut sound = tables::sound(rng, 0);
    sound.model.issue.get_or_insert_with(|| tables::issue(rng));
    let private = format!("p{}", rng.below(3)).into_bytes();
    let record = |public| RecordModel { public, private: private.clone(), ..RecordModel::default() };
    sound.model.records = names(rng).into_iter().map(record).collect();
    let lines = sound.model.records.len();
    // One of the lines, and how many could follow it.
    let one = rng.between(1, lines);
    let above = names_above(&sound.model.records[one - 1].public, Slip::NONE).min(u64::from(MOST_RECORDS));
    let last = one + above as usize;
    let wanted = match rng.below(8) {
        0 => lines,
        1 => lines + rng.below(4),
        2 | 3 => last,
        4..=6 => last + rng.between(1, 2),
        _ => last.saturating_sub(1),
    };
    let mut subject = Subject::of(sound);
    if wanted != lines {
        subject.want(wanted.min(MOST_RECORDS as usize) as u32);
    }
    subject
}

/// Names that begin with 126 of the greatest byte, or nearly, behind a usual one or none; in their order.
fn names(rng: &mut Rng) -> BTreeSet<Vec<u8>> {
    let mut names = BTreeSet::new();
    if rng.coin() {
        names.insert(b"sip:alice@isle".to_vec());
    }
    if rng.once_in(6) {
        // The last ones that there are, all of them.
        let many = rng.between(1, 12);
        names.extend((0..many).map(|n| [&[b'~'; LONGEST_IDENTITY - 1][..], &[b'~' - n as u8]].concat()));
        return names;
    }
    // As often as not all of one beginning.
    let shared = greatest(rng);
    for _ in 0..rng.between(1, 8) {
        let first = if rng.coin() { shared } else { greatest(rng) };
        let mut name = vec![b'~'; LONGEST_IDENTITY - 2];
        match rng.below(16) {
            0 => {}
            1 => name.truncate(rng.between(100, LONGEST_IDENTITY - 3)),
            2 => name[LONGEST_IDENTITY - 3] = b'}',
            3..=8 => name.push(first),
            _ => name.extend([first, greatest(rng)]),
        }
        names.insert(name);
    }
    names
}

/// Mostly one of the greatest bytes.
fn greatest(rng: &mut Rng) -> u8 {
    match rng.below(4) {
        0 => rng.between(32, 126) as u8,
        _ => rng.between(123, 126) as u8,
    }
}
