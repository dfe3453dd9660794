//! Damages of one record.

use super::fields::{
    other_bit, other_byte, other_count, other_edition, other_issue, other_length, other_word, put_name, stray_byte,
    stray_tail, PRIVATE, PUBLIC, SERVER,
};
use super::shape::{of_record, Damage, Subject};
use crate::block::{put_word, BLOCK, CHECK_WORD};
use crate::gen::tables::{profile_part, FAR};
use crate::table::{record, BEHIND_ISSUE, ISSUE, LONGEST_PROFILE, MOST_CAPABILITIES, MOST_NETWORKS, PENDING};

pub const DAMAGES: &[Damage] = &[
    of_record("record: kind", |rng, s, n| other_byte(rng, s.block(n), 0, &[0, 1, 3])),
    of_record("record: edition", |rng, s, n| other_edition(rng, s.block(n))),
    of_record("record: bytes 2 and 3", |rng, s, n| stray_byte(rng, s.block(n), 2, 4)),
    of_record("record: block number", |rng, s, n| other_word(rng, s.block(n), 4)),
    of_record("record: state", |rng, s, n| {
        let value = rng.between(3, 255) as u8;
        other_byte(rng, s.block(n), record::STATE, &[0, 1, 2, 3, value])
    }),
    of_record("record: bits", |rng, s, n| other_bit(rng, s.block(n), record::BITS)),
    of_record("record: roaming", |rng, s, n| other_bit(rng, s.block(n), record::ROAMING)),
    of_record("record: roaming at the first unused network", |_, s, n| {
        let used = s.model.networks.len();
        if used == MOST_NETWORKS {
            return None;
        }
        s.block(n)[record::ROAMING] |= 1 << used;
        Some(())
    }),
    of_record("record: count of mandatory capabilities", |rng, s, n| {
        other_count(rng, s.block(n), record::MANDATORY_COUNT, MOST_CAPABILITIES)
    }),
    of_record("record: count of optional capabilities", |rng, s, n| {
        other_count(rng, s.block(n), record::OPTIONAL_COUNT, MOST_CAPABILITIES)
    }),
    of_record("record: unused mandatory capability", |rng, s, n| {
        let used = s.model.records[n - 1].mandatory.len();
        stray_byte(rng, s.block(n), record::MANDATORY + 4 * used, record::OPTIONAL)
    }),
    of_record("record: unused optional capability", |rng, s, n| {
        let used = s.model.records[n - 1].optional.len();
        stray_byte(rng, s.block(n), record::OPTIONAL + 4 * used, record::PROFILE_START)
    }),
    of_record("record: public identity length", |rng, s, n| other_length(rng, s.block(n), PUBLIC)),
    of_record("record: public identity tail", |rng, s, n| stray_tail(rng, s.block(n), PUBLIC)),
    of_record("record: private identity length", |rng, s, n| other_length(rng, s.block(n), PRIVATE)),
    of_record("record: private identity tail", |rng, s, n| stray_tail(rng, s.block(n), PRIVATE)),
    of_record("record: an identity taken away", |rng, s, n| {
        put_name(s.block(n), if rng.coin() { PUBLIC } else { PRIVATE }, &[])
    }),
    of_record("record: server name length", |rng, s, n| other_length(rng, s.block(n), SERVER)),
    of_record("record: server name tail", |rng, s, n| stray_tail(rng, s.block(n), SERVER)),
    of_record("record: server name taken away", |_, s, n| put_name(s.block(n), SERVER, &[])),
    of_record("record: server name put in", |_, s, n| put_name(s.block(n), SERVER, b"s")),
    of_record("record: pending turned", |_, s, n| {
        s.block(n)[record::BITS] ^= PENDING;
        Some(())
    }),
    of_record("record: profile part ends one past the file", |rng, s, n| {
        let end = s.profile.len() + 1;
        let length = rng.below(end.min(LONGEST_PROFILE) + 1);
        put_part(s, n, (end - length) as u32, length as u16)
    }),
    of_record("record: profile part ends with the file", |rng, s, n| {
        let end = s.profile.len();
        let length = rng.below(end.min(LONGEST_PROFILE) + 1);
        put_part(s, n, (end - length) as u32, length as u16)
    }),
    of_record("record: profile part wraps", |rng, s, n| {
        let length = rng.between(1, LONGEST_PROFILE) as u16;
        let wrapped = rng.below(s.profile.len() + 1).min(length as usize - 1) as u32;
        put_part(s, n, wrapped.wrapping_sub(u32::from(length)), length)
    }),
    of_record("record: profile part that lies in the file by 16 bits of its start", |rng, s, n| {
        let (start, length) = profile_part(rng, s.profile.len().min(FAR - 1));
        put_part(s, n, start + FAR as u32 * rng.between(1, 0xFFFF) as u32, length)
    }),
    of_record("record: empty profile part past the file", |rng, s, n| {
        let past = *rng.pick(&[1, 2, 1000]);
        put_part(s, n, (s.profile.len() + past) as u32, 0)
    }),
    of_record("record: profile part over 4,096", |rng, s, n| {
        let length = *rng.pick(&[4096, 4097, 4352, 8192, 65_535]);
        if s.profile.len() < length && rng.below(8) > 0 {
            s.profile.resize(length + rng.below(2), 0x2A);
        }
        put_part(s, n, 0, length as u16)
    }),
    of_record("record: any profile part", |rng, s, n| put_part(s, n, rng.word(), rng.word() as u16)),
    of_record("record: set", |rng, s, n| stray_byte(rng, s.block(n), record::SET, ISSUE)),
    of_record("record: issue", |rng, s, n| other_issue(rng, s.block(n))),
    of_record("record: bytes 412 to 507", |rng, s, n| stray_byte(rng, s.block(n), BEHIND_ISSUE, CHECK_WORD)),
    of_record("record: check word", |rng, s, n| other_word(rng, s.block(n), CHECK_WORD)).never_mended(),
    of_record("record: zeros", |_, s, n| {
        s.block(n).fill(0);
        Some(())
    })
    .never_mended(),
    of_record("record: the block before again", |rng, s, n| {
        s.bytes.copy_within((n - 1) * BLOCK..n * BLOCK, n * BLOCK);
        if rng.coin() {
            put_word(s.block(n), 4, n as u32);
        }
        Some(())
    }),
];

fn put_part(s: &mut Subject, n: usize, start: u32, length: u16) -> Option<()> {
    let block = s.block(n);
    put_word(block, record::PROFILE_START, start);
    block[record::PROFILE_LENGTH..record::SET].copy_from_slice(&length.to_be_bytes());
    Some(())
}
