//! What is done to the fields of a block.

use crate::block::{put_word, word_at};
use crate::rng::Rng;
use crate::table::{header, record, EDITION, ISSUE, LONGEST_HOST, LONGEST_IDENTITY, LONGEST_SERVER_NAME};

/// Where a name stands in a block, where its length, and the most that this may be.
#[derive(Clone, Copy)]
pub struct Name {
    pub length_at: usize,
    pub at: usize,
    pub most: usize,
}

pub const HOST: Name = Name { length_at: header::HOST_LENGTH, at: header::HOST, most: LONGEST_HOST };
pub const REALM: Name = Name { length_at: header::REALM_LENGTH, at: header::REALM, most: LONGEST_HOST };
pub const PUBLIC: Name = Name { length_at: record::PUBLIC_LENGTH, at: record::PUBLIC, most: LONGEST_IDENTITY };
pub const PRIVATE: Name = Name { length_at: record::PRIVATE_LENGTH, at: record::PRIVATE, most: LONGEST_IDENTITY };
pub const SERVER: Name = Name { length_at: record::SERVER_LENGTH, at: record::SERVER, most: LONGEST_SERVER_NAME };

pub fn other_byte(rng: &mut Rng, block: &mut [u8], at: usize, values: &[u8]) -> Option<()> {
    let before = block[at];
    while block[at] == before {
        block[at] = if rng.once_in(4) { rng.byte() } else { *rng.pick(values) };
    }
    Some(())
}

pub fn other_word(rng: &mut Rng, block: &mut [u8], at: usize) -> Option<()> {
    let word = word_at(block, at);
    let changed = match rng.below(4) {
        0 => word.wrapping_add(1),
        1 => word.wrapping_sub(1),
        2 => word ^ 1 << rng.below(32),
        _ => rng.word(),
    };
    put_word(block, at, changed);
    Some(())
}

/// The block of another edition; of one that there is not, as often as not.
pub fn other_edition(rng: &mut Rng, block: &mut [u8]) -> Option<()> {
    other_byte(rng, block, EDITION, &[0, 1, 2, 1, 2, 3])
}

/// Another issue number: in one byte, in 16 bits, by one, or anything else.
pub fn other_issue(rng: &mut Rng, block: &mut [u8]) -> Option<()> {
    match rng.below(4) {
        0 => {
            let at = ISSUE + rng.below(4);
            other_byte(rng, block, at, &[0, 1, 255])
        }
        1 => {
            block.swap(ISSUE, ISSUE + 2);
            block.swap(ISSUE + 1, ISSUE + 3);
            Some(())
        }
        _ => other_word(rng, block, ISSUE),
    }
}

pub fn other_bit(rng: &mut Rng, block: &mut [u8], at: usize) -> Option<()> {
    block[at] ^= 1 << rng.below(8);
    Some(())
}

/// A byte that is to be zero gets another value; at an edge of its field as often as not.
pub fn stray_byte(rng: &mut Rng, block: &mut [u8], from: usize, to: usize) -> Option<()> {
    if from >= to {
        return None;
    }
    let at = match rng.below(4) {
        0 => from,
        1 => to - 1,
        _ => rng.between(from, to - 1),
    };
    block[at] = rng.nonzero_byte();
    Some(())
}

/// A length or count becomes 0, one more, one less, the most, or one over it.
pub fn other_count(rng: &mut Rng, block: &mut [u8], at: usize, most: usize) -> Option<()> {
    let byte = &mut block[at];
    *byte = match rng.below(7) {
        0 => 0,
        1 => byte.wrapping_add(1),
        2 => byte.wrapping_sub(1),
        3 => most as u8,
        4 => most as u8 + 1,
        5 => 255,
        _ => rng.byte(),
    };
    Some(())
}

pub fn other_length(rng: &mut Rng, block: &mut [u8], name: Name) -> Option<()> {
    other_count(rng, block, name.length_at, name.most)
}

pub fn stray_tail(rng: &mut Rng, block: &mut [u8], name: Name) -> Option<()> {
    let used = block[name.length_at] as usize;
    stray_byte(rng, block, name.at + used, name.at + name.most)
}

/// A length, the name and zeros after it.
pub fn put_name(block: &mut [u8], name: Name, bytes: &[u8]) -> Option<()> {
    block[name.length_at] = bytes.len() as u8;
    block[name.at..][..name.most].fill(0);
    block[name.at..][..bytes.len()].copy_from_slice(bytes);
    Some(())
}
