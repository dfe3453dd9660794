//! Calls that are refused, or only just not.

use super::call::{right, right_over, Call};
use crate::cases::Slice;
use crate::gen::areas;
use crate::gen::damage;
use crate::gen::made::Made;
use crate::gen::peers;
use crate::gen::request::tell_length;
use crate::gen::tables::FAR;
use crate::gen::twists;
use crate::gen::vectors;
use crate::kinds::Dialect;
use crate::message::{HEADER, R};
use crate::refuse::{LEAST_BUFFER, MOST_REQUEST};
use crate::rng::Rng;

/// Several reasons to refuse at once: the first in order counts.
pub fn several(rng: &mut Rng, dialect: Dialect) -> Made {
    let mut call = right(rng, dialect).noted("several refusals");
    let mut why = [false; 6];
    for it in &mut why {
        *it = rng.coin();
    }
    if rng.once_in(4) {
        call.stated = peers::unknown(rng);
    }
    if why[0] {
        call.buffer_length = *rng.pick(&[0, 20, LEAST_BUFFER - 1]);
    }
    if why[3] {
        call.request.flags &= !R;
    }
    let true_length = call.request.length() as u32;
    if why[2] {
        call.request.told_length = Some(*rng.pick(&[20, true_length + 4, true_length ^ 1]));
    }
    let mut bytes = call.request.encode();
    if why[1] {
        match rng.below(4) {
            0 => bytes.truncate(rng.below(HEADER)),
            1 => bytes.truncate(HEADER - 1),
            2 => bytes.resize(FAR + true_length as usize, 0),
            _ => bytes.resize(MOST_REQUEST + *rng.pick(&[1, 4]), 0),
        }
        if !why[2] {
            let length = bytes.len();
            tell_length(&mut bytes, length);
        }
    }
    let mut made = match why[4] {
        true => damage_table(rng, call, bytes),
        false => call.with_request(rng, bytes),
    };
    if why[5] {
        damage_vectors(rng, &mut made);
    }
    made
}

/// Over 65,536 bytes, and in 16 bits the length of a request that would be answered.
pub fn overlong(rng: &mut Rng, dialect: Dialect) -> Made {
    let records = rng.between(4, 12);
    let call = right_over(rng, dialect, records).noted("over 65,536 bytes");
    let mut bytes = call.request.encode();
    bytes.resize(bytes.len() + FAR * rng.between(1, 2), 0);
    if rng.coin() {
        let length = bytes.len();
        tell_length(&mut bytes, length);
    }
    call.with_request(rng, bytes)
}

/// Requests of no, few or 20 bytes and a little more.
pub fn short(rng: &mut Rng, dialect: Dialect) -> Made {
    let call = right(rng, dialect).noted("about 20 bytes");
    let length = if rng.coin() { rng.between(16, 32) } else { rng.below(20) };
    let mut bytes = call.request.encode();
    bytes.truncate(length);
    if rng.below(4) > 0 {
        tell_length(&mut bytes, length);
    }
    call.with_request(rng, bytes)
}

pub fn buffers(rng: &mut Rng, dialect: Dialect) -> Made {
    let mut call = right(rng, dialect).noted("another buffer");
    call.buffer_length =
        *rng.pick(&[0, 1, LEAST_BUFFER - 4, LEAST_BUFFER - 1, LEAST_BUFFER - 1, LEAST_BUFFER + 1, 40_000, 65_536]);
    call.finish(rng)
}

/// A peer that follows neither edition, under any request.
pub fn unknown_peer(rng: &mut Rng, dialect: Dialect) -> Made {
    let mut call = right(rng, dialect).noted("an unknown peer");
    call.stated = peers::unknown(rng);
    if rng.coin() {
        call.notes.push(twists::twist_once(rng, &mut call.request));
    }
    call.finish(rng)
}

/// A damaged table under a request that would be answered, also under one that needs no record; now and then beside a
/// damaged vector file.
pub fn damaged(rng: &mut Rng, dialect: Dialect) -> Made {
    let mut call = right(rng, dialect).noted("damaged table");
    if rng.once_in(3) {
        call.notes.push(twists::twist_once(rng, &mut call.request));
    }
    let bytes = call.request.encode();
    let mut made = damage_table(rng, call, bytes);
    if rng.once_in(5) {
        damage_vectors(rng, &mut made);
    }
    made
}

/// A damaged vector file under any request, also under one with a fault.
pub fn damaged_vectors(rng: &mut Rng) -> Made {
    let mut call = right(rng, Dialect::Cx).noted("damaged vectors");
    if rng.once_in(3) {
        call.notes.push(twists::twist_once(rng, &mut call.request));
    }
    let mut made = call.finish(rng);
    damage_vectors(rng, &mut made);
    made
}

fn damage_vectors(rng: &mut Rng, made: &mut Made) {
    let mut bytes = made.case.held(Slice::Vectors).into_owned();
    vectors::damage::of_any(rng, &mut bytes, &mut made.notes);
    made.case.put(Slice::Vectors, bytes);
}

fn damage_table(rng: &mut Rng, mut call: Call, request: Vec<u8>) -> Made {
    let profile = std::mem::take(&mut call.sound.profile);
    let mut subject = damage::Subject::of(call.sound.model.clone(), profile);
    let damaged = damage::damage(rng, &mut subject, &mut call.notes);
    if rng.once_in(4) {
        subject.bytes = areas::lengthened(rng, subject.bytes);
    }
    let mut made = call.with_request(rng, request);
    made.case.put(Slice::Table, subject.bytes);
    made.case.put(Slice::Profile, subject.profile);
    made.damaged = damaged;
    made
}

/// A right request over an area that a take-over was cut in.
pub fn cut(rng: &mut Rng, dialect: Dialect) -> Made {
    let call = right(rng, dialect).noted("a cut take-over");
    let old = call.sound.model.clone();
    let mut area = old.encode();
    let fresh = areas::successor(rng, &old, &call.sound.profile, &area).encode();
    let mut made = call.finish(rng);
    (_, made.damaged) = areas::written_in_part(rng, &mut area, &fresh);
    made.case.put(Slice::Table, area);
    made
}
