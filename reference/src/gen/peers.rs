//! What is stated of a peer and of the server.

use super::features;
use crate::rng::Rng;
use crate::stated::{Stated, RFC_3588, RFC_6733};

/// One of the two editions, and any set of features.
pub fn known(rng: &mut Rng) -> Stated {
    let peer = if rng.coin() { RFC_3588 } else { RFC_6733 };
    Stated { peer, features: features::set(rng) }
}

/// Mostly one of the two; rarely another number.
pub fn any(rng: &mut Rng) -> Stated {
    if rng.once_in(150) {
        return unknown(rng);
    }
    known(rng)
}

/// Beside the two or between them, theirs in 16 bits, small ones, or any.
pub fn unknown(rng: &mut Rng) -> Stated {
    let either = if rng.coin() { RFC_3588 } else { RFC_6733 };
    let peer = match rng.below(6) {
        0 => rng.below(3) as u32,
        1 => *rng.pick(&[either - 1, either + 1]),
        2 => either | 1 << rng.between(16, 31),
        3 => rng.between(RFC_3588 as usize + 1, RFC_6733 as usize - 1) as u32,
        4 => *rng.pick(&[u32::MAX, 10_415, 16_777_216, either.swap_bytes(), either << 16]),
        _ => RFC_6733 + 1 + (rng.word() >> 1),
    };
    Stated { peer, features: features::set(rng) }
}
