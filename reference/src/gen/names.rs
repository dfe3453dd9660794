//! Names: short and long ones, prefixes of one another, with zero bytes, and plain readable ones.

use crate::rng::Rng;

const FEW: &[u8] = b"\0ab\xFF";
const PEOPLE: &[&str] = &["alice", "bob", "carol", "dave", "erin", "frank", "grace", "user0", "user1"];

/// A name of 1 to `most` bytes.
pub fn any(rng: &mut Rng, most: usize) -> Vec<u8> {
    match rng.below(8) {
        0..=2 => {
            // Few letters and few places: equal names, and prefixes, come up by themselves.
            let length = rng.between(1, most.min(4));
            (0..length).map(|_| *rng.pick(FEW)).collect()
        }
        3..=5 => {
            let mut name = format!("sip:{}@isle", rng.pick(PEOPLE)).into_bytes();
            name.truncate(most);
            name
        }
        6 => {
            let length = most - rng.below(2.min(most));
            let mut name = vec![*rng.pick(FEW); length];
            // Alike up to the last byte.
            name[length - 1] = *rng.pick(FEW);
            name
        }
        _ => {
            let length = rng.between(1, most);
            rng.bytes(length)
        }
    }
}

/// A name near `name`: a byte more, a byte less, or a byte different. Never empty, never over `most`.
pub fn near(rng: &mut Rng, name: &[u8], most: usize) -> Vec<u8> {
    let mut other = name.to_vec();
    match rng.below(4) {
        _ if other.is_empty() => other.push(*rng.pick(FEW)),
        0 if other.len() < most => other.push(*rng.pick(FEW)),
        1 if other.len() < most => other.push(0),
        2 if other.len() > 1 => {
            other.pop();
        }
        _ => {
            let at = rng.below(other.len());
            other[at] ^= 1 << rng.below(8);
        }
    }
    other
}

/// A name that is `name` only to one who looks at too little: zeros up to a field's end, or 256 bytes more, so that
/// its length is the same in 8 bits.
pub fn alike(rng: &mut Rng, name: &[u8], field: usize) -> Vec<u8> {
    let mut other = name.to_vec();
    if rng.coin() {
        other.resize(field.max(name.len() + 1), 0);
    } else {
        other.resize(name.len() + 256, b'a');
    }
    other
}
