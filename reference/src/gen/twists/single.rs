//! Twists of a group that holds one AVP of vendor 10415: others beside it, its flags and vendor, its length and padding.

use crate::gen::request::{put_together, Piece};
use crate::kinds::VENDOR;
use crate::message::{M, V};
use crate::rng::Rng;

/// None, two, or others beside the right one or in its place; each passes (a) and (c).
pub fn other_members(rng: &mut Rng, right: Piece, second: Vec<u8>, beside: &[u32]) -> Vec<u8> {
    let length = rng.below(33);
    let data = rng.bytes(length);
    let flags = if rng.coin() { M } else { 0 };
    let mut pieces = match rng.below(8) {
        0 => return vec![],
        1 => vec![right.clone(), right],
        2 => {
            let second = Piece { data: second, ..right.clone() };
            vec![right, second]
        }
        3..=5 => {
            let code = *rng.pick(beside);
            vec![right, Piece::new(rng, Some(VENDOR), code, flags, data)]
        }
        6 => {
            let vendor = *rng.pick(&[None, Some(13019), Some(0)]);
            let code = *rng.pick(&[502, 1, beside[0]]);
            vec![right, Piece::new(rng, vendor, code, flags, data)]
        }
        _ => vec![Piece { code: *rng.pick(beside), flags: V | flags, ..right }],
    };
    if rng.coin() {
        pieces.reverse();
    }
    put_together(&pieces)
}

/// The right one with reserved flags, without V, of another vendor or code, or with M and P turned.
pub fn other_member(rng: &mut Rng, right: Piece) -> Vec<u8> {
    let mut member = right;
    match rng.below(6) {
        0 => member.flags |= 1 << rng.below(5),
        1 => member.flags &= !V,
        2 => member.vendor = *rng.pick(&[0, 50, VENDOR + 1, VENDOR | 1 << 24]),
        3 => member.code = *rng.pick(&[member.code - 1, member.code + 1, member.code | 1 << 16, member.code | 1 << 16]),
        4 => member.flags = *rng.pick(&[0, 0x20]),
        _ => member.flags = V | *rng.pick(&[0, 0x20, 0x60]),
    }
    put_together(&[member])
}

/// The right one, or one of any data, with 0 to 3 bytes of its padding, with bytes more than that, or with a wrong length.
pub fn other_bytes(rng: &mut Rng, right: Piece) -> Vec<u8> {
    let mut member = right;
    if rng.coin() {
        let length = rng.below(9);
        member.data = rng.bytes(length);
    }
    let whole = member.length();
    let mut data = put_together(&[member]);
    match rng.below(6) {
        0 => data.truncate(whole),
        1 => data.truncate(rng.between(whole, data.len())),
        2 => {
            let more = rng.between(1, 8);
            let bytes = if rng.coin() { vec![0; more] } else { rng.bytes(more) };
            data.extend(bytes);
        }
        3 => data.truncate(rng.below(whole)),
        4 => {
            data[7] =
                *rng.pick(&[0, 8, 11, 12, 13, whole as u8 - 1, whole as u8, whole as u8 + 1, whole as u8 + 2, 255])
        }
        _ => {
            data[5] = *rng.pick(&[1, 255]);
        }
    }
    data
}
