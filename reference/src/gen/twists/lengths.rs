//! Twists of the AVPs' lengths, and headers that are cut off.

use super::shape::{always, one_avp, Twist};
use crate::gen::request::Piece;
use crate::kinds::VENDOR;
use crate::message::V;

pub const TWISTS: &[Twist] = &[
    one_avp("a length too small", 5, |rng, r, at| {
        let piece = &mut r.pieces[at];
        piece.told_length = Some(match rng.below(4) {
            0 => 0,
            1 => piece.header() as u32 - 1,
            2 => 7,
            _ => rng.below(piece.header()) as u32,
        });
    }),
    one_avp("a length past the end", 5, |rng, r, at| {
        let left: usize = r.pieces[at..].iter().map(Piece::padded).sum();
        let told = match rng.below(6) {
            0 => 0xFF_FFFF,
            // The right length in 16 bits.
            1 => r.pieces[at].length() + (1 << rng.between(16, 23)),
            _ => left + *rng.pick(&[1, 2, 3, 4, 5, 1000]),
        };
        r.pieces[at].told_length = Some(told as u32);
    }),
    one_avp("a length that ends with the request", 2, |rng, r, at| {
        let left: usize = r.pieces[at..].iter().map(Piece::padded).sum();
        r.pieces[at].told_length = Some((left - rng.below(4)) as u32);
    }),
    one_avp("a length off by a little", 4, |rng, r, at| {
        let by = rng.between(1, 8) as u32;
        let length = r.pieces[at].length() as u32;
        r.pieces[at].told_length = Some(if rng.coin() { length + by } else { length.saturating_sub(by) });
    }),
    always("a header cut off after 4 bytes", 3, |rng, r| {
        r.tail = rng.pick(&r.dialect.kinds()).code().to_be_bytes().to_vec();
    }),
    always("a header with V cut off after 8 bytes", 3, |rng, r| {
        r.tail = rng.pick(&r.dialect.kinds()).code().to_be_bytes().to_vec();
        let length = *rng.pick(&[0, 7, 8, 9, 12, 16]);
        r.tail.extend((u32::from(V | rng.byte()) << 24 | length).to_be_bytes());
    }),
    always("a header without data at the end", 3, |rng, r| {
        let length = *rng.pick(&[0, 7, 8, 9, 11, 12, 13]);
        let flags = if rng.coin() { V } else { 0 };
        r.tail = rng.pick(&r.dialect.kinds()).code().to_be_bytes().to_vec();
        r.tail.extend((u32::from(flags) << 24 | length).to_be_bytes());
        if flags == V {
            r.tail.extend(VENDOR.to_be_bytes());
        }
    }),
];
