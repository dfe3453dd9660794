//! Twists of features: 628s that are at fault, that stand first, or that only seem to be 628s.

use super::shape::{always, Twist};
use crate::gen::features::{any, members, piece};
use crate::gen::request::{put_together, Piece};
use crate::kinds::{Kind, AUTH_APPLICATION_ID, VENDOR, VENDOR_ID};
use crate::message::{M, V};
use crate::rng::Rng;

pub const TWISTS: &[Twist] = &[
    always("628s of any kind", 4, |rng, r| {
        for _ in 0..rng.between(1, 3) {
            let piece = some(rng);
            r.insert(rng, piece);
        }
    }),
    always("628: its members", 6, |rng, r| {
        let piece = faulty(rng, other_members);
        r.insert(rng, piece);
    }),
    always("628: flags and vendors of its members", 6, |rng, r| {
        let piece = faulty(rng, other_flags);
        r.insert(rng, piece);
    }),
    always("628: its bytes", 4, |rng, r| {
        let piece = faulty(rng, other_bytes);
        r.insert(rng, piece);
    }),
    always("628 with reserved flags", 3, |rng, r| {
        let mut piece = some(rng);
        piece.flags |= 1 << rng.below(5);
        r.insert(rng, piece);
    }),
    always("628 first", 3, |rng, r| {
        let piece = some(rng);
        r.pieces.insert(0, piece);
    }),
    always("628 of another vendor, or without V", 3, |rng, r| {
        let mut piece = some(rng);
        match rng.coin() {
            true => piece.flags &= !V,
            false => piece.vendor = *rng.pick(&[0, 50, VENDOR + 1]),
        }
        r.insert(rng, piece);
    }),
];

/// A 628 that asks for anything, with M or without.
fn some(rng: &mut Rng) -> Piece {
    let (asked, marked) = (any(rng), rng.coin());
    piece(rng, asked, marked)
}

/// A 628 that is at fault, or only seems so.
pub fn broken(rng: &mut Rng) -> Piece {
    let how = *rng.pick(&[other_members as fn(&mut Rng) -> Vec<u8>, other_flags, other_bytes]);
    faulty(rng, how)
}

fn faulty(rng: &mut Rng, data: fn(&mut Rng) -> Vec<u8>) -> Piece {
    let data = data(rng);
    let mut piece = Piece::of(rng, Kind::SupportedFeatures, data);
    piece.flags ^= if rng.coin() { M } else { 0 };
    piece
}

/// One of the three left out, there twice or replaced, or a further one; each passes (a) and (c).
fn other_members(rng: &mut Rng) -> Vec<u8> {
    let asked = any(rng);
    let mut members = members(rng, asked);
    let at = rng.below(3);
    let flags = *rng.pick(&[0, M]);
    match rng.below(9) {
        0 => members.clear(),
        1..=3 => drop(members.remove(at)),
        4..=6 => {
            let mut again = members[at].clone();
            again.data[3] ^= rng.below(2) as u8;
            members.push(again);
        }
        7 => {
            let (of, code) =
                *rng.pick(&[(None, AUTH_APPLICATION_ID), (None, 629), (Some(VENDOR), 601), (Some(50), 631)]);
            members.push(Piece::new(rng, of, code, flags, vec![0, 0, 0, 1]));
        }
        _ => members[at].code = *rng.pick(&[258, 268, 601, 604, 628, 631]),
    }
    if rng.coin() {
        rng.shuffle(&mut members);
    }
    put_together(&members)
}

/// One of the three with reserved flags, with V or without where it should be otherwise, of another vendor, or of a code that is right in 16
/// bits.
fn other_flags(rng: &mut Rng) -> Vec<u8> {
    let asked = any(rng);
    let mut members = members(rng, asked);
    let at = rng.below(3);
    let member = &mut members[at];
    match rng.below(5) {
        0 => member.flags |= 1 << rng.below(5),
        1 | 2 => {
            member.flags ^= V;
            member.vendor = *rng.pick(&[0, VENDOR, VENDOR]);
        }
        3 => match member.code {
            VENDOR_ID => *member = Piece { flags: V | M, vendor: 0, ..member.clone() },
            _ => member.vendor = *rng.pick(&[0, 50, VENDOR + 1, VENDOR | 1 << 24]),
        },
        _ => member.code |= 1 << rng.between(16, 31),
    }
    if rng.coin() {
        rng.shuffle(&mut members);
    }
    put_together(&members)
}

/// Bytes more, bytes less, or a member of another length, told or true.
fn other_bytes(rng: &mut Rng) -> Vec<u8> {
    let asked = any(rng);
    let mut members = members(rng, asked);
    let at = rng.below(3);
    match rng.below(6) {
        0 => {
            let length = *rng.pick(&[0, 1, 3, 5, 6, 7, 8]);
            members[at].data.resize(length, 0);
        }
        1 => members[at].told_length = Some(*rng.pick(&[0, 7, 8, 11, 12, 13, 15, 16, 17, 20])),
        2 => members[at].told_length = Some(members[at].length() as u32 + 65_536),
        _ => {}
    }
    let mut data = put_together(&members);
    match rng.below(4) {
        0 => {
            let more = rng.between(1, 8);
            let bytes = if rng.coin() { vec![0; more] } else { rng.bytes(more) };
            data.extend(bytes);
        }
        1 => data.truncate(data.len() - rng.between(1, 12)),
        2 => {
            let at = rng.below(data.len());
            data[at] ^= 1 << rng.below(8);
        }
        _ => {}
    }
    data
}
