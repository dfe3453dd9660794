//! What a server supports, and the 628s that ask for it.

use super::request::{put_together, Piece, RequestModel};
use crate::kinds::{Kind, FEATURE_LIST, FEATURE_LIST_ID, VENDOR, VENDOR_ID};
use crate::message::M;
use crate::rng::Rng;

/// What a 628 asks for.
#[derive(Clone, Copy)]
pub struct Asked {
    pub vendor: u32,
    pub list: u32,
    pub bits: u32,
}

/// A set of bits: none, few, one, all, or any.
pub fn set(rng: &mut Rng) -> u32 {
    match rng.below(8) {
        0 | 1 => 0,
        2 => *rng.pick(&[1, 2, 3, 7, 0xFF]),
        3 => 1 << rng.below(32),
        4 => *rng.pick(&[1 << 31, u32::MAX - 1, u32::MAX >> 1, 0xFFFF, 0xFFFF_0000]),
        5 => u32::MAX,
        _ => rng.word(),
    }
}

/// Bits of the set: none, all, one or some.
fn within(rng: &mut Rng, set: u32) -> u32 {
    match rng.below(4) {
        0 => 0,
        1 => set,
        2 => set & 1 << rng.below(32),
        _ => set & rng.word(),
    }
}

/// One bit outside the set, alone or beside bits of it; none if there is no such bit.
fn outside(rng: &mut Rng, set: u32) -> Option<u32> {
    let others: Vec<u32> = (0..32).filter(|place| set >> place & 1 == 0).collect();
    if others.is_empty() {
        return None;
    }
    let bit = 1 << *rng.pick(&others);
    Some(match rng.below(3) {
        0 => bit,
        1 => bit | set,
        _ => bit | set & rng.word(),
    })
}

/// What a server with this set supports.
pub fn supported(rng: &mut Rng, set: u32) -> Asked {
    Asked { vendor: VENDOR, list: 1, bits: within(rng, set) }
}

/// What it does not, by one reason or by all.
pub fn unsupported(rng: &mut Rng, set: u32) -> Asked {
    let mut asked = supported(rng, set);
    match rng.below(8) {
        0..=2 => match outside(rng, set) {
            Some(bits) => asked.bits = bits,
            None => asked.list = 2,
        },
        3 => asked.vendor = *rng.pick(&[0, 1, 50, VENDOR + 1, VENDOR | 1 << 24, VENDOR | 1 << 16]),
        4 => asked.list = *rng.pick(&[0, 0, 2, 257, 1 << 24, u32::MAX]),
        5 => asked = Asked { vendor: 50, list: 1, bits: 0 },
        6 => asked = Asked { vendor: VENDOR, list: 2, bits: 0 },
        _ => asked = Asked { vendor: 50, list: 2, bits: rng.word() },
    }
    asked
}

/// Vendor-Id, Feature-List-ID and Feature-List; M and P are free.
pub fn members(rng: &mut Rng, asked: Asked) -> Vec<Piece> {
    let Asked { vendor, list, bits } = asked;
    let mut members = Vec::new();
    for (of, code, number) in
        [(None, VENDOR_ID, vendor), (Some(VENDOR), FEATURE_LIST_ID, list), (Some(VENDOR), FEATURE_LIST, bits)]
    {
        let flags = *rng.pick(&[0, M, M, 0x20, 0x60]);
        members.push(Piece::new(rng, of, code, flags, number.to_be_bytes().to_vec()));
    }
    members
}

/// A 628 in its right form, its members in any order.
pub fn piece(rng: &mut Rng, asked: Asked, marked: bool) -> Piece {
    let mut members = members(rng, asked);
    if rng.once_in(3) {
        rng.shuffle(&mut members);
    }
    let mut piece = Piece::of(rng, Kind::SupportedFeatures, put_together(&members));
    piece.flags ^= if marked { 0 } else { M };
    piece.flags |= if rng.once_in(8) { 0x20 } else { 0 };
    piece
}

/// A 628 of a sender who does not know the set.
pub fn any(rng: &mut Rng) -> Asked {
    let bits = set(rng);
    match rng.once_in(4) {
        true => unsupported(rng, bits),
        false => Asked { vendor: VENDOR, list: 1, bits },
    }
}

/// Puts a 628 anywhere after the first AVP.
pub fn put(rng: &mut Rng, request: &mut RequestModel, asked: Asked, marked: bool) {
    let piece = piece(rng, asked, marked);
    request.insert(rng, piece);
}

/// One or two 628s, as often as not of what the set does not hold.
pub fn ask(rng: &mut Rng, request: &mut RequestModel, set: u32) {
    for _ in 0..rng.between(1, 2) {
        let asked = if rng.coin() { supported(rng, set) } else { unsupported(rng, set) };
        let marked = rng.coin();
        put(rng, request, asked, marked);
    }
}
