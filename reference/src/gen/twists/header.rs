//! Twists of the header.

use super::shape::{always, Twist};
use crate::message::{E, R};

pub const TWISTS: &[Twist] = &[
    always("header: version", 2, |rng, r| {
        r.version = *rng.pick(&[0, 2, 255]);
    }),
    always("header: E bit", 2, |_, r| {
        r.flags |= E;
    }),
    always("header: T and reserved bits", 3, |rng, r| {
        r.flags |= rng.between(1, 31) as u8;
    }),
    always("header: command", 3, |rng, r| {
        r.command = match rng.below(3) {
            0 => *rng.pick(&[299, 304, 305, 306, 307, 307, 0, 0xFF_FFFF]),
            1 => rng.word() & 0xFF_FFFF,
            _ => r.command | 1 << rng.between(9, 23),
        };
    }),
    always("header: another command that is served", 2, |rng, r| {
        r.command = rng.between(300, 303) as u32;
    }),
    always("header: application", 2, |rng, r| {
        r.application = *rng.pick(&[0, 1, r.application ^ 1, 167_772_151, 0xFFFF_FFFF]);
    }),
    always("header: several faults", 4, |rng, r| {
        for _ in 0..3 {
            match rng.below(4) {
                0 => r.version = 2,
                1 => r.flags |= E,
                2 => r.command = *rng.pick(&[304, 305]),
                _ => r.application = 0,
            }
        }
    }),
    always("header: R bit", 1, |_, r| {
        r.flags &= !R;
    }),
    always("header: length", 2, |rng, r| {
        let length = r.length() as u32;
        r.told_length = Some(match rng.below(7) {
            0 => length + 1,
            1 => length - 1,
            2 => length + 4,
            3 => length - 4,
            4 => 20,
            5 => length + (1 << rng.between(16, 23)),
            _ => rng.word() & 0xFF_FFFF,
        });
    }),
    always("header: bytes after the last AVP, counted", 1, |rng, r| {
        let more = rng.between(1, 3);
        r.tail = rng.bytes(more);
    }),
];
