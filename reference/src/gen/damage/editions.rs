//! Tables that mix editions or issue numbers, and such as say another edition throughout. Their check words are right.

use super::fields::other_issue;
use super::shape::{of_whole, Damage, Subject};
use crate::block::{mend, put_word, word_at};
use crate::gen::sets;
use crate::gen::tables::issue;
use crate::rng::Rng;
use crate::table::{record, EDITION, EDITION_1, EDITION_2, ISSUE};
use std::ops::RangeInclusive;

pub const DAMAGES: &[Damage] = &[
    of_whole("mixed: the other edition from a block on", |rng, s| {
        let block = s.some_record(rng)?;
        let last = s.records();
        to_other_edition(rng, s, block..=last);
        Some(block)
    })
    .never_mended(),
    of_whole("mixed: the other edition up to a block", |rng, s| {
        let block = s.some_record(rng)?;
        to_other_edition(rng, s, 0..=block - 1);
        Some(block)
    })
    .never_mended(),
    of_whole("mixed: one block of the other edition", |rng, s| {
        let block = s.some_record(rng)?;
        to_other_edition(rng, s, block..=block);
        Some(block)
    })
    .never_mended(),
    of_whole("mixed: another issue from a block on", |rng, s| {
        let block = s.some_record(rng)?;
        let last = s.records();
        to_other_issue(rng, s, block..=last)?;
        Some(block)
    })
    .never_mended(),
    of_whole("mixed: another issue up to a block", |rng, s| {
        let block = s.some_record(rng)?;
        to_other_issue(rng, s, 0..=block - 1)?;
        Some(block)
    })
    .never_mended(),
    of_whole("mixed: one block of another issue", |rng, s| {
        let block = s.some_record(rng)?;
        to_other_issue(rng, s, block..=block)?;
        Some(block)
    })
    .never_mended(),
    of_whole("edition: the other one throughout", |rng, s| {
        let last = s.records();
        to_other_edition(rng, s, 0..=last);
        Some(0)
    })
    .never_mended(),
    of_whole("edition: another byte throughout", |rng, s| {
        let edition = *rng.pick(&[0, 0, 1, 2, 3, 3, 255]);
        throughout(s, |block| block[EDITION] = edition);
        Some(0)
    })
    .never_mended(),
    of_whole("edition: 1 with an issue throughout", |rng, s| {
        let number = issue(rng).max(1);
        throughout(s, |block| {
            block[EDITION] = EDITION_1;
            put_word(block, ISSUE, number);
        });
        Some(0)
    })
    .never_mended(),
    of_whole("edition: 1 with issues in records alone", |rng, s| {
        let (block, number) = (s.some_record(rng)?, issue(rng).max(1));
        throughout(s, |block| {
            block[EDITION] = EDITION_1;
            put_word(block, ISSUE, 0);
        });
        put_word(s.block(block), ISSUE, number);
        mend(s.block(block));
        Some(block)
    })
    .never_mended(),
    of_whole("edition: 1 with a set", |rng, s| {
        let (block, number) = (s.some_record(rng)?, sets::number(rng).max(1));
        to_edition_1(s);
        s.block(block)[record::SET..ISSUE].copy_from_slice(&number.to_be_bytes());
        mend(s.block(block));
        Some(block)
    })
    .never_mended(),
];

fn throughout(s: &mut Subject, mut doing: impl FnMut(&mut [u8])) {
    for number in 0..=s.records() {
        doing(s.block(number));
        mend(s.block(number));
    }
}

fn to_edition_1(s: &mut Subject) {
    throughout(s, |block| {
        block[EDITION] = EDITION_1;
        block[ISSUE..ISSUE + 4].fill(0);
        if block[0] == 2 {
            block[record::SET..ISSUE].fill(0);
        }
    });
}

/// These blocks as they would be in a table of the other edition; a set moved back is lost now and then only.
fn to_other_edition(rng: &mut Rng, s: &mut Subject, blocks: RangeInclusive<usize>) {
    let (number, sets) = (issue(rng), rng.below(4) > 0);
    for at in blocks {
        let block = s.block(at);
        if block[EDITION] == EDITION_2 {
            block[EDITION] = EDITION_1;
            put_word(block, ISSUE, 0);
            if at > 0 && sets {
                block[record::SET..ISSUE].fill(0);
            }
        } else {
            block[EDITION] = EDITION_2;
            put_word(block, ISSUE, number);
        }
        mend(block);
    }
}

/// These blocks with one issue number that is not theirs.
fn to_other_issue(rng: &mut Rng, s: &mut Subject, blocks: RangeInclusive<usize>) -> Option<()> {
    let first = *blocks.start();
    let before = word_at(s.block(first), ISSUE);
    other_issue(rng, s.block(first))?;
    let number = word_at(s.block(first), ISSUE);
    for at in blocks {
        put_word(s.block(at), ISSUE, number);
        mend(s.block(at));
    }
    (number != before).then_some(())
}
