//! Damages of the whole: the order of the records, the table's length, the profile file; and of any byte.

use super::fields::{put_name, PUBLIC};
use super::shape::{of_whole, Damage, Subject};
use crate::block::{mend, put_word, word_at, BLOCK};
use crate::rng::Rng;
use crate::table::{header, LONGEST_IDENTITY};

pub const OVER_THE_MOST: &str = "length: over 4,096 records";

pub const DAMAGES: &[Damage] = &[
    of_whole("order: public identity of the block before", |rng, s| {
        let block = s.later_record(rng)?;
        let before = public(s, block - 1);
        put_public(s, block, &before)
    }),
    of_whole("order: public identity of any other block", |rng, s| {
        let block = s.some_record(rng)?;
        let other = s.some_record(rng)?;
        let other = public(s, other);
        put_public(s, block, &other)
    }),
    of_whole("order: two neighbours swapped", |rng, s| {
        let block = s.later_record(rng)?;
        let (first, second) = (public(s, block - 1), public(s, block));
        put_public(s, block - 1, &second)?;
        put_public(s, block, &first)?;
        mend(s.block(block - 1));
        mend(s.block(block));
        Some(block)
    })
    .never_mended(),
    of_whole("order: a byte more than the block before", |rng, s| {
        let block = s.later_record(rng)?;
        let mut longer = public(s, block - 1);
        if longer.len() == LONGEST_IDENTITY {
            return None;
        }
        longer.push(*rng.pick(&[0, 1, 255]));
        put_public(s, block, &longer)
    }),
    of_whole("order: a byte less than the block before", |rng, s| {
        let block = s.later_record(rng)?;
        let mut shorter = public(s, block - 1);
        shorter.pop();
        if shorter.is_empty() {
            return None;
        }
        put_public(s, block, &shorter)
    }),
    of_whole("length: a complete prefix", |rng, s| {
        let block = s.some_record(rng)?;
        s.bytes.truncate(block * BLOCK);
        Some(0)
    })
    .never_mended(),
    of_whole("length: a complete prefix, count put right", |rng, s| {
        let block = s.some_record(rng)?;
        s.bytes.truncate(block * BLOCK);
        put_word(&mut s.bytes, header::COUNT, block as u32 - 1);
        mend(s.block(0));
        Some(0)
    })
    .never_mended(),
    of_whole("length: a block of zeros appended", |_, s| {
        s.bytes.resize(s.bytes.len() + BLOCK, 0);
        Some(0)
    })
    .never_mended(),
    of_whole("length: the last block appended again", |_, s| {
        let last = s.bytes.len() - BLOCK;
        s.bytes.extend_from_within(last..);
        Some(0)
    })
    .never_mended(),
    of_whole("length: bytes appended", |rng, s| {
        let more = *rng.pick(&[1, 2, 3, 4, 256, 511]);
        s.bytes.extend(rng.bytes(more));
        Some(0)
    })
    .never_mended(),
    of_whole("length: bytes cut off", |rng, s| {
        let less = *rng.pick(&[1, 2, 3, 4, 256, 511]);
        s.bytes.truncate(s.bytes.len() - less);
        Some(0)
    })
    .never_mended(),
    of_whole("length: nothing", |_, s| {
        s.bytes.clear();
        Some(0)
    })
    .never_mended(),
    of_whole("length: under 512", |rng, s| {
        s.bytes.truncate(rng.below(512));
        Some(0)
    })
    .never_mended(),
    of_whole(OVER_THE_MOST, over_the_most).never_mended(),
    of_whole("profile: one byte shorter than needed", |_, s| {
        let needed = profile_needed(s);
        if needed == 0 {
            return None;
        }
        s.profile.truncate(needed - 1);
        Some(first_reaching(s, needed))
    })
    .never_mended(),
    of_whole("profile: as short as may be", |_, s| {
        s.profile.truncate(profile_needed(s));
        Some(0)
    })
    .never_mended(),
    of_whole("profile: nothing", |_, s| {
        s.profile.clear();
        Some(first_reaching(s, 1))
    })
    .never_mended(),
    of_whole("anywhere: one bit", |rng, s| {
        let at = rng.below(s.bytes.len());
        s.bytes[at] ^= 1 << rng.below(8);
        Some(at / BLOCK)
    }),
    of_whole("anywhere: one byte", |rng, s| {
        let at = rng.below(s.bytes.len());
        s.bytes[at] = rng.byte();
        Some(at / BLOCK)
    }),
    of_whole("anywhere: two words that keep the sum", |rng, s| {
        let block = rng.below(s.bytes.len() / BLOCK);
        let (up, down) = (4 * rng.below(128), 4 * rng.below(128));
        let by = *rng.pick(&[1, 1 << 24, 1 << 31, 0x0101_0101]);
        let bytes = s.block(block);
        put_word(bytes, up, word_at(bytes, up).wrapping_add(by));
        put_word(bytes, down, word_at(bytes, down).wrapping_sub(by));
        Some(block)
    })
    .never_mended(),
];

/// The public identity that a record had when the table was sound.
fn public(s: &Subject, block: usize) -> Vec<u8> {
    s.model.records[block - 1].public.clone()
}

fn put_public(s: &mut Subject, block: usize, public: &[u8]) -> Option<usize> {
    put_name(s.block(block), PUBLIC, public).map(|()| block)
}

/// Where the profile parts end, by record.
fn ends(s: &Subject) -> impl Iterator<Item = usize> + '_ {
    s.model.records.iter().map(|record| record.profile_start as usize + record.profile_length as usize)
}

fn profile_needed(s: &Subject) -> usize {
    ends(s).max().unwrap_or(0)
}

/// The first block whose profile part ends at `end` or later; 0 if none does.
fn first_reaching(s: &Subject, end: usize) -> usize {
    ends(s).position(|it| it >= end).map_or(0, |index| index + 1)
}

/// Sound in all but its count: 4,097 records or a few more.
fn over_the_most(rng: &mut Rng, s: &mut Subject) -> Option<usize> {
    let count = 4097 + rng.below(2);
    let mut record = s.model.records.first()?.clone();
    s.model.records.clear();
    for n in 0..count {
        record.public = format!("sip:{n:05}").into_bytes();
        s.model.records.push(record.clone());
    }
    s.bytes = s.model.encode();
    Some(0)
}
