//! Sets whose records do not agree, and records that only seem to be of one set. Their check words are right.

use super::fields::{put_name, PRIVATE, SERVER};
use super::shape::{of_whole, Damage, Subject};
use crate::block::{mend, name};
use crate::gen::names;
use crate::gen::sets::number;
use crate::rng::Rng;
use crate::table::{record, Record, BARRED, EDITION, EDITION_2, ISSUE, LONGEST_IDENTITY, LONGEST_SERVER_NAME};
use crate::table::{MOST_NETWORKS, NOT_REGISTERED, PENDING, REGISTERED, UNREGISTERED, UNREGISTERED_SERVICES};

pub const DAMAGES: &[Damage] = &[
    of_whole("set: another state", |rng, s| disagreeing(rng, s, other_state)).never_mended(),
    of_whole("set: pending turned", |rng, s| disagreeing(rng, s, other_pending)).never_mended(),
    of_whole("set: another server name", |rng, s| disagreeing(rng, s, other_name)).never_mended(),
    of_whole("set: another server name of another length", |rng, s| disagreeing(rng, s, other_length)).never_mended(),
    of_whole("set: a server name with a zero behind it", |rng, s| disagreeing(rng, s, longer_by_zero)).never_mended(),
    of_whole("set: one without registration", |rng, s| disagreeing(rng, s, removed)).never_mended(),
    of_whole("set: all that may differ", |rng, s| {
        let members = together(rng, s)?;
        let block = *rng.pick(&members);
        let networks = s.model.networks.len();
        all_else(rng, s.block(block), networks);
        mend(s.block(block));
        Some(block)
    })
    .never_mended(),
    of_whole("set: none, of one subscription", |rng, s| {
        let members = together(rng, s)?;
        members.iter().for_each(|at| put_set(s, *at, 0));
        Some(differing(rng, s, &members))
    })
    .never_mended(),
    of_whole("set: one number in two subscriptions", |rng, s| {
        let members = together(rng, s)?;
        let one = rng.below(members.len());
        let at = members[one];
        let private = names::near(rng, Record(s.block(at)).private(), LONGEST_IDENTITY);
        put_name(s.block(at), PRIVATE, &private)?;
        Some(differing_at(rng, s, &members, one))
    })
    .never_mended(),
    of_whole("set: numbers that share a byte", |rng, s| {
        let members = together(rng, s)?;
        let one = rng.below(members.len());
        let set = Record(s.block(members[one])).set();
        let by = rng.between(1, 255) as u16;
        put_set(s, members[one], set ^ if rng.coin() { by } else { by << 8 });
        Some(differing_at(rng, s, &members, one))
    })
    .never_mended(),
];

/// Changes one thing in a record that agrees with others of a set, so that it is still sound by itself.
type Change = fn(&mut Rng, &mut [u8]);

/// A set in which one record differs from the others by this; the later block.
fn disagreeing(rng: &mut Rng, s: &mut Subject, change: Change) -> Option<usize> {
    let members = together(rng, s)?;
    let one = rng.below(members.len());
    let at = members[one];
    change(rng, s.block(at));
    mend(s.block(at));
    Some(members[one.max(1)])
}

/// One of these records gets another state, pending or server name; the later of it and the first.
fn differing(rng: &mut Rng, s: &mut Subject, members: &[usize]) -> usize {
    let one = rng.below(members.len());
    differing_at(rng, s, members, one)
}

fn differing_at(rng: &mut Rng, s: &mut Subject, members: &[usize], one: usize) -> usize {
    let change = *rng.pick(&[other_state as Change, other_pending, other_name, other_length, removed]);
    change(rng, s.block(members[one]));
    members.iter().for_each(|at| mend(s.block(*at)));
    members[one.max(1)]
}

/// Some records, in their order, made one set of their own that agrees, in any state, with a server name; none if there are not two.
fn together(rng: &mut Rng, s: &mut Subject) -> Option<Vec<usize>> {
    let count = s.records();
    if count < 2 || s.block(0)[EDITION] != EDITION_2 {
        return None;
    }
    let (first, last) = (rng.between(1, count - 1), rng.between(2, count));
    let more = rng.below(4);
    let mut members: Vec<usize> =
        [first, last.max(first + 1)].into_iter().chain((0..more).map(|_| rng.between(1, count))).collect();
    members.sort_unstable();
    members.dedup();
    let pattern = s.block(first).to_vec();
    let private = name(&pattern, PRIVATE.length_at, PRIVATE.at).to_vec();
    let server = names::any(rng, LONGEST_SERVER_NAME);
    let set = unused(rng, s, &private);
    let pending = if rng.coin() { PENDING } else { 0 };
    let state = if pending != 0 { rng.below(3) as u8 } else { rng.between(1, 2) as u8 };
    for at in &members {
        let block = s.block(*at);
        put_name(block, PRIVATE, &private)?;
        put_name(block, SERVER, &server)?;
        block[record::STATE] = state;
        block[record::BITS] = block[record::BITS] & !PENDING | pending;
        put_set(s, *at, set);
        mend(s.block(*at));
    }
    Some(members)
}

/// A number that no record of this subscription has.
fn unused(rng: &mut Rng, s: &mut Subject, private: &[u8]) -> u16 {
    let taken: Vec<u16> = (1..=s.records())
        .filter_map(|at| {
            let it = Record(s.block(at));
            (it.private() == private).then(|| it.set())
        })
        .collect();
    let mut set = number(rng);
    while set == 0 || taken.contains(&set) {
        set = rng.word() as u16;
    }
    set
}

fn put_set(s: &mut Subject, at: usize, set: u16) {
    s.block(at)[record::SET..ISSUE].copy_from_slice(&set.to_be_bytes());
}

/// Only a pending record has a name in state 0.
fn other_state(rng: &mut Rng, block: &mut [u8]) {
    let least = if block[record::BITS] & PENDING != 0 { NOT_REGISTERED } else { REGISTERED };
    let others: Vec<u8> = (least..=UNREGISTERED).filter(|state| *state != block[record::STATE]).collect();
    block[record::STATE] = *rng.pick(&others);
}

/// In state 0 pending goes with the name.
fn other_pending(_: &mut Rng, block: &mut [u8]) {
    block[record::BITS] ^= PENDING;
    if block[record::STATE] == NOT_REGISTERED {
        let _ = put_name(block, SERVER, &[]);
    }
}

fn other_name(rng: &mut Rng, block: &mut [u8]) {
    let length = block[record::SERVER_LENGTH] as usize;
    let at = record::SERVER + *rng.pick(&[0, length / 2, length - 1]);
    block[at] ^= 1 << rng.below(8);
}

/// A byte less, or one or several more.
fn other_length(rng: &mut Rng, block: &mut [u8]) {
    let mut name = name(block, SERVER.length_at, SERVER.at).to_vec();
    if name.len() == LONGEST_SERVER_NAME || (name.len() > 1 && rng.coin()) {
        name.pop();
    } else {
        let more = rng.between(1, LONGEST_SERVER_NAME - name.len());
        let more = if rng.coin() { 1 } else { more };
        name.extend(rng.bytes(more));
    }
    let _ = put_name(block, SERVER, &name);
}

/// The field has the same bytes then, unless it was full.
fn longer_by_zero(_: &mut Rng, block: &mut [u8]) {
    let mut name = name(block, SERVER.length_at, SERVER.at).to_vec();
    name.truncate(LONGEST_SERVER_NAME - 1);
    name.push(0);
    let _ = put_name(block, SERVER, &name);
}

/// In state 0, without pending and server name.
fn removed(_: &mut Rng, block: &mut [u8]) {
    block[record::STATE] = NOT_REGISTERED;
    block[record::BITS] &= !PENDING;
    let _ = put_name(block, SERVER, &[]);
}

/// Barring, services, roaming, capabilities and profile part.
fn all_else(rng: &mut Rng, block: &mut [u8], networks: usize) {
    let which = rng.below(32);
    let fields: [(bool, fn(&mut Rng, &mut [u8], usize)); 5] = [
        (which & 1 == 0, |_, block, _| block[record::BITS] ^= BARRED),
        (which & 2 == 0, |_, block, _| block[record::BITS] ^= UNREGISTERED_SERVICES),
        (which & 4 == 0, |rng, block, networks| {
            block[record::ROAMING] = rng.byte() & (0xFFu16 >> (MOST_NETWORKS - networks)) as u8;
        }),
        (which & 8 == 0, |_, block, _| {
            block[record::MANDATORY_COUNT] = 4;
            block[record::OPTIONAL_COUNT] = 4;
        }),
        (which & 16 == 0, |_, block, _| block[record::PROFILE_START..record::SET].fill(0)),
    ];
    fields.iter().filter(|(chosen, _)| *chosen).for_each(|(_, change)| change(rng, block, networks));
}
