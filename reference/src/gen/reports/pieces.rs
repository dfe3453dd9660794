//! The pieces of a file of requests: right ones, twisted ones, refused ones, and such as end the report.

use super::month::Month;
use crate::gen::asks;
use crate::gen::features;
use crate::gen::request::tell_length;
use crate::gen::tables::FAR;
use crate::gen::twists;
use crate::kinds::{Command, Dialect};
use crate::message::{E, P, R};
use crate::refuse::MOST_REQUEST;
use crate::rng::Rng;
use crate::table::{LONGEST_SERVER_NAME, NOT_REGISTERED};

/// A month of few requests, up to the most, half of them with a broken one at the end or near it.
pub fn month(rng: &mut Rng, most: usize, notes: &mut Vec<&'static str>) -> Month {
    let records = if rng.once_in(30) { 0 } else { rng.between(1, 8) };
    let mut month = Month::new(rng, records);
    let many = match rng.below(20) {
        0 => 0,
        1..=3 => 1,
        4..=14 => rng.between(2, 8),
        15..=18 => rng.between(9, 16),
        _ => rng.between(17, most),
    };
    for _ in 0..many {
        let (piece, note) = piece(rng, &month);
        month.add(piece);
        notes.push(note);
    }
    if rng.coin() {
        let (mut bytes, note) = broken(rng, &month);
        notes.push(note);
        if rng.once_in(4) {
            notes.push("requests behind the broken one");
            for _ in 0..rng.between(1, 3) {
                bytes.extend(right(rng, &month));
            }
        }
        month.requests.extend(bytes);
    }
    month
}

/// So many requests of 20 bytes and a few more, of few kinds.
pub fn headers(rng: &mut Rng, count: usize) -> Vec<u8> {
    let some: Vec<Vec<u8>> = (0..rng.between(1, 4)).map(|_| header(rng)).collect();
    (0..count + rng.below(50)).flat_map(|_| rng.pick(&some).clone()).collect()
}

/// So many registrations of one record that has none and their removals, in turn, of which each removal leaves the bytes that there were;
/// nothing if there is no such record.
pub fn of_one_record(rng: &mut Rng, month: &Month, count: usize) -> Vec<Vec<u8>> {
    let records = month.table().records;
    let fresh: Vec<_> = records.iter().filter(|it| it.state == NOT_REGISTERED && !it.is_pending()).collect();
    if fresh.is_empty() {
        return vec![];
    }
    let public = rng.pick(&fresh).public.clone();
    let name = vec![b's'; rng.between(1, LONGEST_SERVER_NAME)];
    let assignment = |n: usize| {
        let asked_type = if n % 2 == 0 { *rng.pick(&[1, 3]) } else { *rng.pick(&[4, 5, 8, 11]) };
        let mut own = asks::assignment(rng, asked_type, vec![public.clone()], None, name.clone());
        asks::surround(rng, Command::ServerAssignment, &mut own).encode()
    };
    (0..count).map(assignment).collect()
}

/// A MAR, most likely with a vector for it.
pub fn challenge(rng: &mut Rng, month: &Month) -> Vec<u8> {
    asks::authentication(rng, &month.table()).encode()
}

/// A request that is cut out rightly, whatever comes of it.
pub fn piece(rng: &mut Rng, month: &Month) -> (Vec<u8>, &'static str) {
    match rng.below(40) {
        0..=1 => (header(rng), "a header alone"),
        2..=3 => (odd(rng, month), "a length that is no multiple of 4"),
        4 => (unasked(rng, month), "no R bit"),
        5 => (long(rng, month), "over 16,384 bytes"),
        6..=9 if !month.earlier.is_empty() => (rng.pick(&month.earlier).clone(), "the same again"),
        10..=16 => (twisted(rng, month), "a twist"),
        17..=19 => (with_features(rng, month), "628s for the set"),
        _ => (right(rng, month), "right"),
    }
}

/// One that no file refuses but its own bytes do, or a right one.
pub fn refused_or_right(rng: &mut Rng, month: &Month) -> Vec<u8> {
    match rng.below(6) {
        0 => odd(rng, month),
        1 => unasked(rng, month),
        2 => long(rng, month),
        _ => right(rng, month),
    }
}

pub fn right(rng: &mut Rng, month: &Month) -> Vec<u8> {
    let mut table = month.table();
    let request = match rng.below(4) {
        0 => asks::authentication(rng, &table),
        _ => asks::any(rng, &mut table),
    };
    request.encode()
}

/// A removal of all records of the first one's subscription, or a registration of the first.
pub fn all_at_once(rng: &mut Rng, month: &Month) -> Vec<u8> {
    let first = month.table().records.swap_remove(0);
    let name = if first.server_name.is_empty() { b"s".to_vec() } else { first.server_name };
    let (asked_type, identities) = match rng.below(4) {
        0 => (1, vec![first.public]),
        _ => (*rng.pick(&asks::REMOVALS), vec![]),
    };
    let mut own = asks::assignment(rng, asked_type, identities, Some(first.private), name);
    asks::surround(rng, Command::ServerAssignment, &mut own).encode()
}

/// A right request with 628s that ask for what the month's set holds, or for more.
fn with_features(rng: &mut Rng, month: &Month) -> Vec<u8> {
    let mut request = asks::any(rng, &mut month.table());
    features::ask(rng, &mut request, month.stated.features);
    request.encode()
}

fn twisted(rng: &mut Rng, month: &Month) -> Vec<u8> {
    let mut request = match rng.below(4) {
        0 => asks::authentication(rng, &month.table()),
        _ => asks::any(rng, &mut month.table()),
    };
    twists::twist_once(rng, &mut request);
    // Most lengths are the true ones: behind another nothing is cut out rightly.
    if !rng.once_in(4) {
        request.told_length = None;
    }
    request.encode()
}

/// 20 bytes of any command, mostly with a fault.
pub fn header(rng: &mut Rng) -> Vec<u8> {
    let version = if rng.once_in(4) { *rng.pick(&[0, 2, 255]) } else { 1 };
    let flags = R | *rng.pick(&[0, 0, P, E]);
    let command = match rng.below(3) {
        0 => *rng.pick(&[299, 304, 306, 0, 0xFF_FFFF]),
        1 => rng.between(300, 303) as u32 | 1 << rng.between(16, 23),
        _ => rng.between(300, 303) as u32,
    };
    let of = if rng.once_in(4) { Dialect::Sh } else { Dialect::Cx };
    let mut bytes = vec![version, 0, 0, 20];
    for word in [u32::from(flags) << 24 | command, of.application(), rng.word(), rng.word()] {
        bytes.extend(word.to_be_bytes());
    }
    bytes
}

fn odd(rng: &mut Rng, month: &Month) -> Vec<u8> {
    let mut bytes = right(rng, month);
    let more = rng.between(1, 3);
    bytes.extend(rng.bytes(more));
    told(&mut bytes, 0);
    bytes
}

fn unasked(rng: &mut Rng, month: &Month) -> Vec<u8> {
    let mut bytes = right(rng, month);
    bytes[4] &= !R;
    bytes
}

/// Longer than a request may be; now and then so that its length is a request's in 16 bits.
fn long(rng: &mut Rng, month: &Month) -> Vec<u8> {
    let mut bytes = right(rng, month);
    let length = match rng.below(12) {
        0 => FAR + bytes.len(),
        1..=5 => MOST_REQUEST + rng.between(1, 4),
        _ => MOST_REQUEST + rng.between(1, 600),
    };
    bytes.resize(length, 0);
    told(&mut bytes, 0);
    bytes
}

/// As long as 24 bits can say, or a byte less.
pub fn longest(rng: &mut Rng) -> Vec<u8> {
    let mut bytes = header(rng);
    bytes.resize(0xFF_FFFF - rng.below(2), 0);
    told(&mut bytes, 0);
    bytes
}

/// Gives a request a length so much over its own.
fn told(bytes: &mut [u8], over: usize) {
    let length = bytes.len() + over;
    tell_length(bytes, length);
}

/// What ends a report before the file's end, and its name.
pub fn broken(rng: &mut Rng, month: &Month) -> (Vec<u8>, &'static str) {
    let mut bytes = right(rng, month);
    match rng.below(6) {
        0 => {
            bytes.truncate(rng.between(1, 3));
            (bytes, "1 to 3 bytes left")
        }
        1 => {
            bytes.truncate(rng.between(4, 19));
            if rng.once_in(4) {
                told(&mut bytes, 0);
            }
            (bytes, "4 to 19 bytes left")
        }
        2 | 3 => {
            let length = *rng.pick(&[0, 1, 4, 16, 19, 19]);
            tell_length(&mut bytes, length);
            (bytes, "a length under 20")
        }
        4 => {
            bytes.truncate(rng.between(20, bytes.len() - 1));
            (bytes, "a length past the end")
        }
        _ => {
            let over = *rng.pick(&[1, 4, FAR, 1 << 23]);
            told(&mut bytes, over);
            (bytes, "a length past the end")
        }
    }
}
