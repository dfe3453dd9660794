//! Vector files damaged in one place: every field, the length, with and without a mended check word.

use crate::block::{mend, put_word, word_at, BLOCK, CHECK_WORD};
use crate::gen::damage::fields::{other_byte, other_length, other_word, put_name, stray_byte, stray_tail, Name};
use crate::rng::Rng;
use crate::table::{BEHIND_ISSUE, ISSUE, LONGEST_IDENTITY};
use crate::vectors::{vector, LEAST_XRES, MOST_VECTORS, MOST_XRES};

const PRIVATE: Name = Name { length_at: vector::PRIVATE_LENGTH, at: vector::PRIVATE, most: LONGEST_IDENTITY };
const XRES: Name = Name { length_at: vector::XRES_LENGTH, at: vector::XRES, most: MOST_XRES };

pub struct Damage {
    pub name: &'static str,
    doing: Doing,
    /// Whether mending the block's check word makes sense: it is what is damaged in some.
    mendable: bool,
}

/// Each does nothing and gives none if this file has no place for it.
enum Doing {
    Block(fn(&mut Rng, &mut [u8]) -> Option<()>),
    /// To the whole; says which block is the worse for it.
    Whole(fn(&mut Rng, &mut Vec<u8>) -> Option<usize>),
}

const fn of_block(name: &'static str, doing: fn(&mut Rng, &mut [u8]) -> Option<()>) -> Damage {
    Damage { name, doing: Doing::Block(doing), mendable: true }
}

const fn of_whole(name: &'static str, doing: fn(&mut Rng, &mut Vec<u8>) -> Option<usize>) -> Damage {
    Damage { name, doing: Doing::Whole(doing), mendable: false }
}

impl Damage {
    const fn never_mended(self) -> Damage {
        Damage { name: self.name, doing: self.doing, mendable: false }
    }
}

pub const OVER_THE_MOST: [&str; 2] = ["vectors: 4,097 blocks", "vectors: 4,096 blocks and a piece"];

pub const DAMAGES: &[Damage] = &[
    of_block("vector: kind", |rng, block| other_byte(rng, block, 0, &[0, 1, 2, 4])),
    of_block("vector: used", |rng, block| other_byte(rng, block, vector::USED, &[2, 3, 255])),
    of_block("vector: used turned", |_, block| {
        block[vector::USED] ^= 1;
        Some(())
    }),
    of_block("vector: XRES length", |rng, block| other_length(rng, block, XRES)),
    of_block("vector: XRES of 3, 4 or 5 bytes", |rng, block| {
        let bytes = block[XRES.at..][..LEAST_XRES - 1 + rng.below(3)].to_vec();
        put_name(block, XRES, &bytes)
    }),
    of_block("vector: XRES of 15, 16 or 17 bytes", |rng, block| {
        block[XRES.length_at] = (MOST_XRES - 1 + rng.below(3)) as u8;
        block[XRES.at + MOST_XRES - 1] = 0;
        Some(())
    }),
    of_block("vector: XRES tail", |rng, block| stray_tail(rng, block, XRES)),
    of_block("vector: name length", |rng, block| other_length(rng, block, PRIVATE)),
    of_block("vector: name taken away", |_, block| put_name(block, PRIVATE, &[])),
    of_block("vector: name of 127, 128 or 129 bytes", |rng, block| {
        let length = LONGEST_IDENTITY - 1 + rng.below(3);
        put_name(block, PRIVATE, &vec![b'n'; length.min(LONGEST_IDENTITY)])?;
        block[PRIVATE.length_at] = length as u8;
        Some(())
    }),
    of_block("vector: name tail", |rng, block| stray_tail(rng, block, PRIVATE)),
    of_block("vector: RAND, AUTN and keys", |rng, block| {
        let places = [vector::RAND_AND_AUTN..vector::XRES, vector::CONFIDENTIALITY_KEY..vector::REST];
        block[rng.pick(&places).clone()].fill(0);
        Some(())
    }),
    of_block("vector: bytes 212 to 507", |rng, block| stray_byte(rng, block, vector::REST, CHECK_WORD)),
    of_block("vector: bytes 408 to 411", |rng, block| stray_byte(rng, block, ISSUE, BEHIND_ISSUE)),
    of_block("vector: check word", |rng, block| other_word(rng, block, CHECK_WORD)).never_mended(),
    of_block("vector: zeros", |_, block| {
        block.fill(0);
        Some(())
    })
    .never_mended(),
    of_block("vector: one bit", |rng, block| {
        block[rng.below(BLOCK)] ^= 1 << rng.below(8);
        Some(())
    }),
    of_block("vector: two words that keep the sum", |rng, block| {
        let (up, down) = (4 * rng.below(128), 4 * rng.below(128));
        let by = *rng.pick(&[1, 1 << 24, 1 << 31, 0x0101_0101]);
        put_word(block, up, word_at(block, up).wrapping_add(by));
        put_word(block, down, word_at(block, down).wrapping_sub(by));
        Some(())
    })
    .never_mended(),
    of_whole("vectors: the first block again at the end", |_, bytes| {
        bytes.extend_from_within(..BLOCK);
        Some(bytes.len() / BLOCK - 1)
    }),
    of_whole("vectors: cut in a block", |rng, bytes| {
        let less = *rng.pick(&[1, 2, 4, 256, 508, 511]);
        bytes.truncate(bytes.len() - less);
        Some(bytes.len() / BLOCK)
    }),
    of_whole("vectors: cut after a block", |rng, bytes| {
        let blocks = rng.below(bytes.len() / BLOCK);
        bytes.truncate(blocks * BLOCK);
        Some(blocks)
    }),
    of_whole("vectors: bytes appended", |rng, bytes| {
        let more = *rng.pick(&[1, 3, 4, 256, 511]);
        bytes.extend(rng.bytes(more));
        Some(bytes.len() / BLOCK)
    }),
    of_whole("vectors: a block of zeros appended", |_, bytes| {
        bytes.resize(bytes.len() + BLOCK, 0);
        Some(bytes.len() / BLOCK - 1)
    }),
    of_whole(OVER_THE_MOST[0], |rng, bytes| {
        let more = rng.below(2);
        brought_to(bytes, MOST_VECTORS + 1 + more);
        Some(MOST_VECTORS)
    }),
    of_whole(OVER_THE_MOST[1], |rng, bytes| {
        brought_to(bytes, MOST_VECTORS);
        let more = *rng.pick(&[1, 511]);
        bytes.resize(bytes.len() + more, 0);
        Some(MOST_VECTORS)
    }),
];

/// The file with its first block repeated until it has so many.
fn brought_to(bytes: &mut Vec<u8>, blocks: usize) {
    let first = bytes[..BLOCK].to_vec();
    while bytes.len() < blocks * BLOCK {
        bytes.extend(&first);
    }
    bytes.truncate(blocks * BLOCK);
}

/// Does one damage to any file; an empty one gets a piece of a block.
pub fn of_any(rng: &mut Rng, bytes: &mut Vec<u8>, notes: &mut Vec<&'static str>) {
    match bytes.is_empty() {
        true => bytes.resize(rng.between(1, BLOCK), 0),
        false => drop(damage(rng, bytes, notes)),
    }
}

/// Does one damage to a file of one block or more; `notes` learns which.
pub fn damage(rng: &mut Rng, bytes: &mut Vec<u8>, notes: &mut Vec<&'static str>) -> Option<usize> {
    if bytes.len() < BLOCK {
        return None;
    }
    loop {
        let damage = rng.pick(DAMAGES);
        // 2 MiB each: they are few.
        if OVER_THE_MOST.contains(&damage.name) && !rng.once_in(40) {
            continue;
        }
        let done = match damage.doing {
            Doing::Block(doing) => {
                let number = rng.below(bytes.len() / BLOCK);
                doing(rng, &mut bytes[number * BLOCK..][..BLOCK]).map(|()| number)
            }
            Doing::Whole(doing) => doing(rng, bytes),
        };
        if let Some(number) = done {
            notes.push(damage.name);
            if damage.mendable && rng.below(10) < 8 {
                mend(&mut bytes[number * BLOCK..][..BLOCK]);
            }
            return Some(number);
        }
    }
}
