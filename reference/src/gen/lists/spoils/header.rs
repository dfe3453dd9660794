//! The header block that a list is imported under, and the list as a whole.

use super::shape::{of_whole, Spoil};
use crate::block::{mend, put_word, BLOCK};
use crate::gen::damage::{self, damages};
use crate::table::{EDITION, EDITION_1, ISSUE};

pub const SPOILS: &[Spoil] = &[
    of_whole("header block: damaged", |rng, s| {
        let all: Vec<_> = damages().filter(|damage| damage.name.starts_with("header:")).collect();
        let mut subject =
            damage::Subject { bytes: s.header.clone(), profile: s.profile.clone(), model: s.model.clone() };
        if subject.bytes.len() != BLOCK {
            return None;
        }
        let damage = *rng.pick(&all);
        damage.done(rng, &mut subject)?;
        if damage.mendable && rng.below(4) > 0 {
            mend(&mut subject.bytes);
        }
        s.header = subject.bytes;
        Some(())
    }),
    of_whole("header block: of edition 1", |_, s| {
        s.header.get_mut(..BLOCK).map(|block| {
            block[EDITION] = EDITION_1;
            put_word(block, ISSUE, 0);
            mend(block);
        })
    }),
    of_whole("header block: of another length", |rng, s| {
        let length = *rng.pick(&[0, 1, 20, BLOCK - 1, BLOCK + 1, BLOCK + 1, 2 * BLOCK]);
        s.header.resize(length, 0);
        Some(())
    }),
    of_whole("header block: with its records", |_, s| {
        s.header = s.model.encode();
        (s.header.len() > BLOCK).then_some(())
    }),
    of_whole("header block: another issue", |rng, s| {
        let issue = rng.word();
        s.header.get_mut(..BLOCK).map(|block| {
            put_word(block, ISSUE, issue);
            mend(block);
        })
    }),
    of_whole("header block: more wanted", |rng, s| {
        let more = if rng.coin() { 1 } else { rng.between(2, 40) };
        let count = s.lines.len() + more;
        s.want(count.checked_sub(1)? as u32);
        Some(())
    }),
    of_whole("header block: fewer wanted", |rng, s| {
        let count = s.lines.len().checked_sub(1).filter(|count| *count > 0)?;
        s.want(rng.below(count) as u32);
        Some(())
    }),
    of_whole("header block: 4,096 and more wanted", |rng, s| {
        let count = *rng.pick(&[4096, 4097, 4097, 65_536, 1 << 23, u32::MAX]);
        s.want(count);
        Some(())
    }),
    of_whole("list: nothing", |_, s| {
        s.lines.clear();
        Some(())
    }),
];
