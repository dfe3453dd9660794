//! Damages of the header.

use super::fields::{
    other_byte, other_count, other_edition, other_issue, other_length, other_word, put_name, stray_byte, stray_tail,
    Name, HOST, REALM,
};
use super::shape::{of_header, Damage, Subject};
use crate::block::{mend, put_word, word_at, BLOCK, CHECK_WORD};
use crate::rng::Rng;
use crate::table::{header, record, BEHIND_ISSUE, ISSUE, MOST_NETWORKS, NETWORK_PLACE};

pub const DAMAGES: &[Damage] = &[
    of_header("header: kind", |rng, s| other_byte(rng, s.block(0), 0, &[0, 2, 3])),
    of_header("header: edition", |rng, s| other_edition(rng, s.block(0))),
    of_header("header: bytes 2 and 3", |rng, s| stray_byte(rng, s.block(0), 2, 4)),
    of_header("header: block number", |rng, s| other_word(rng, s.block(0), 4)),
    of_header("header: count", other_record_count),
    of_header("header: keep", |rng, s| {
        let value = rng.between(2, 255) as u8;
        other_byte(rng, s.block(0), header::KEEP, &[2, value])
    }),
    of_header("header: keep turned", |_, s| {
        s.bytes[header::KEEP] ^= 1;
        Some(())
    }),
    of_header("header: host length", |rng, s| other_length(rng, s.block(0), HOST)),
    of_header("header: host tail", |rng, s| stray_tail(rng, s.block(0), HOST)),
    of_header("header: realm length", |rng, s| other_length(rng, s.block(0), REALM)),
    of_header("header: realm tail", |rng, s| stray_tail(rng, s.block(0), REALM)),
    of_header("header: number of networks", |rng, s| other_count(rng, s.block(0), header::NETWORKS, MOST_NETWORKS)),
    of_header("header: a name taken away", |rng, s| {
        let name = match rng.below(3) {
            0 => HOST,
            1 => REALM,
            _ => some_network(rng, s)?,
        };
        put_name(s.block(0), name, &[])
    }),
    of_header("header: network length", |rng, s| {
        let network = some_network(rng, s)?;
        other_length(rng, s.block(0), network)
    }),
    of_header("header: network tail", |rng, s| {
        let network = some_network(rng, s)?;
        stray_tail(rng, s.block(0), network)
    }),
    of_header("header: unused network place", |rng, s| {
        let used = s.model.networks.len();
        stray_byte(rng, s.block(0), header::NETWORK_PLACES + used * NETWORK_PLACE, header::REST)
    }),
    of_header("header: two networks alike", alike_networks),
    of_header("header: bytes 400 to 405", |rng, s| stray_byte(rng, s.block(0), header::REST, record::SET)),
    of_header("header: bytes 406 and 407", |rng, s| stray_byte(rng, s.block(0), record::SET, ISSUE)),
    of_header("header: issue", |rng, s| other_issue(rng, s.block(0))),
    of_header("header: bytes 412 to 507", |rng, s| stray_byte(rng, s.block(0), BEHIND_ISSUE, CHECK_WORD)),
    of_header("header: check word", |rng, s| other_word(rng, s.block(0), CHECK_WORD)).never_mended(),
    of_header("header: zeros", |_, s| {
        s.block(0).fill(0);
        Some(())
    })
    .never_mended(),
    of_header("header: zeros, count kept", |_, s| {
        s.bytes[..header::COUNT].fill(0);
        s.bytes[header::KEEP..BLOCK].fill(0);
        mend(s.block(0));
        Some(())
    })
    .never_mended(),
];

fn some_network(rng: &mut Rng, s: &Subject) -> Option<Name> {
    let used = s.model.networks.len();
    (used > 0).then(|| {
        let place = header::NETWORK_PLACES + rng.below(used) * NETWORK_PLACE;
        Name { length_at: place, at: place + 1, most: NETWORK_PLACE - 1 }
    })
}

fn other_record_count(rng: &mut Rng, s: &mut Subject) -> Option<()> {
    let count = word_at(&s.bytes, header::COUNT);
    let changed = match rng.below(6) {
        0 => count.wrapping_add(1),
        1 => count.wrapping_sub(1),
        // 512 x (count + 1) is the same modulo 2^32.
        2 => count.wrapping_add(1 << 23),
        3 => count | 1 << 31,
        4 => 4097,
        _ => rng.word(),
    };
    put_word(&mut s.bytes, header::COUNT, changed);
    Some(())
}

fn alike_networks(rng: &mut Rng, s: &mut Subject) -> Option<()> {
    let used = s.model.networks.len();
    if used < 2 {
        return None;
    }
    let from = rng.below(used);
    let to = (from + rng.between(1, used - 1)) % used;
    let place = |n| header::NETWORK_PLACES + n * NETWORK_PLACE;
    s.bytes.copy_within(place(from)..place(from) + NETWORK_PLACE, place(to));
    Some(())
}
