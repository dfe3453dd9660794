//! Working areas: a table with what may stand past it, and what a take-over leaves that was cut.

use super::model::{RecordModel, TableModel};
use super::names;
use super::sets;
use super::tables;
use crate::block::{mend, put_word, word_at, BLOCK};
use crate::rng::Rng;
use crate::table::{header, EDITION, ISSUE, LONGEST_SERVER_NAME, MOST_RECORDS, NOT_REGISTERED, PENDING};
use crate::take;

/// The area of a table: mostly the table alone, once in so many times a longer one.
pub fn of(rng: &mut Rng, model: &TableModel, one_in: usize) -> Vec<u8> {
    match rng.below(2 * one_in) {
        0 => with_lesser_count(rng, model),
        1 => lengthened(rng, model.encode()),
        _ => model.encode(),
    }
}

/// The last records of a table stand past its count, some of them in another state than the others of their sets.
pub fn with_lesser_count(rng: &mut Rng, model: &TableModel) -> Vec<u8> {
    let mut model = model.clone();
    let most = model.records.len();
    let count = most - rng.below(most.min(4) + 1);
    for record in &mut model.records[count..] {
        if rng.coin() {
            another_registration(rng, record);
        }
    }
    let mut area = model.encode();
    put_word(&mut area, header::COUNT, count as u32);
    mend(&mut area[..BLOCK]);
    if rng.once_in(4) {
        add_piece(rng, &mut area);
    }
    area
}

pub fn another_registration(rng: &mut Rng, record: &mut RecordModel) {
    record.state = rng.below(3) as u8;
    record.server_name = names::any(rng, LONGEST_SERVER_NAME);
    if record.state == NOT_REGISTERED {
        record.bits &= !PENDING;
        record.server_name.clear();
    }
}

/// With blocks past what is there, a last piece, or both.
pub fn lengthened(rng: &mut Rng, mut area: Vec<u8>) -> Vec<u8> {
    let blocks = match rng.below(10) {
        0..=2 => 0,
        3..=7 => rng.between(1, 3),
        _ => rng.between(4, 9),
    };
    add_blocks(rng, &mut area, blocks);
    if blocks == 0 || rng.coin() {
        add_piece(rng, &mut area);
    }
    area
}

/// More blocks than any table has, the last of them like those that stand past a count; as often as not with a byte more.
pub fn over_the_most(rng: &mut Rng, area: &[u8]) -> Vec<u8> {
    let mut longer = area.to_vec();
    longer.resize(area.len().max(BLOCK * (MOST_RECORDS as usize + 1)), 0);
    for _ in 0..rng.between(1, 3) {
        longer.extend(stale(rng, area));
    }
    if rng.coin() {
        longer.push(0);
    }
    longer
}

/// So many blocks; a last piece becomes a block first.
pub fn add_blocks(rng: &mut Rng, area: &mut Vec<u8>, blocks: usize) {
    area.resize((area.len() + BLOCK - 1) / BLOCK * BLOCK, 0);
    for _ in 0..blocks {
        let block = stale(rng, area);
        area.extend(block);
    }
}

/// A last piece: the beginning of a block.
pub fn add_piece(rng: &mut Rng, area: &mut Vec<u8>) {
    let length = match rng.below(6) {
        0 => 1,
        1 => BLOCK - 1,
        2 | 3 => rng.between(ISSUE + 4, BLOCK - 1),
        _ => rng.between(1, BLOCK - 1),
    };
    let mut block = stale(rng, area);
    if rng.once_in(3) {
        block[0] = rng.between(1, 2) as u8;
        put_word(&mut block, ISSUE, u32::MAX - rng.below(2) as u32);
    }
    area.extend(&block[..length]);
}

/// A block to stand past the count: zeros, rubbish, or one of the area again, now and then with another issue number, edition or kind.
fn stale(rng: &mut Rng, area: &[u8]) -> Vec<u8> {
    let blocks = area.len() / BLOCK;
    if blocks == 0 || rng.once_in(3) {
        return match rng.below(3) {
            0 => vec![0; BLOCK],
            _ => rubbish(rng),
        };
    }
    let number = if rng.coin() { blocks - 1 } else { rng.below(blocks) };
    let mut block = area[number * BLOCK..][..BLOCK].to_vec();
    if rng.coin() {
        put_word(&mut block, 4, blocks as u32);
    }
    let issue = word_at(&block, ISSUE);
    match rng.below(8) {
        0 | 1 => put_word(&mut block, ISSUE, issue.wrapping_add(1)),
        2 => put_word(&mut block, ISSUE, issue.saturating_sub(1)),
        3 => put_word(&mut block, ISSUE, tables::issue(rng)),
        4 => block[EDITION] = rng.below(4) as u8,
        5 => block[0] = rng.below(5) as u8,
        _ => {}
    }
    if rng.below(3) > 0 {
        mend(&mut block);
    }
    block
}

/// Any bytes, mostly with a kind that blocks have, and with an issue number that is small or great.
pub fn rubbish(rng: &mut Rng) -> Vec<u8> {
    let mut block = rng.bytes(BLOCK);
    block[0] = *rng.pick(&[0, 1, 1, 2, 2, 3, 3, 129, 255]);
    match rng.below(4) {
        0 => put_word(&mut block, ISSUE, 0),
        1 => put_word(&mut block, ISSUE, rng.below(60) as u32),
        2 => put_word(&mut block, ISSUE, tables::issue(rng)),
        _ => {}
    }
    if rng.coin() {
        mend(&mut block);
    }
    block
}

/// A new table to be taken over into this area after an old one: its issue number is the one behind the greatest found.
pub fn successor(rng: &mut Rng, old: &TableModel, profile: &[u8], area: &[u8]) -> TableModel {
    let issue = take::issues_found(area).max().map_or(0, |greatest| greatest.saturating_add(1));
    TableModel { issue: Some(issue), ..changed(rng, old, profile) }
}

/// A table of edition 2 for an old one: records gone, added and altered.
pub fn changed(rng: &mut Rng, old: &TableModel, profile: &[u8]) -> TableModel {
    let mut new = old.clone();
    let (gone_in, altered_in) = (rng.between(2, 8), rng.between(2, 6));
    new.records.retain(|_| !rng.once_in(gone_in));
    for record in &mut new.records {
        if rng.once_in(altered_in) {
            another_registration(rng, record);
        }
    }
    let more = rng.below(4);
    let roaming = (1u16 << new.networks.len()).wrapping_sub(1) as u8;
    for mut record in tables::over(rng, more, profile).records {
        record.roaming &= roaming;
        if new.records.iter().all(|it| it.public != record.public) {
            new.records.push(record);
        }
    }
    new.records.sort_by(|a, b| a.public.cmp(&b.public));
    new.records.truncate(MOST_RECORDS as usize);
    new.issue = Some(old.issue.unwrap_or(0).saturating_add(1));
    if rng.coin() {
        sets::put(rng, &mut new.records);
    }
    sets::settle(&mut new.records);
    new
}

/// Writes a new table in part: its first blocks (0), or any of them (1). Gives which, and the block that is bad then.
pub fn written_in_part(rng: &mut Rng, area: &mut Vec<u8>, fresh: &[u8]) -> (usize, Option<usize>) {
    area.resize(area.len().max(fresh.len()), 0);
    match rng.coin() {
        true => (0, cut(rng, area, fresh)),
        false => (1, scattered(rng, area, fresh)),
    }
}

/// Writes the first blocks of a new table, as a take-over that is cut does: none, some or all of them. Gives the block that is bad then.
pub fn cut(rng: &mut Rng, area: &mut [u8], fresh: &[u8]) -> Option<usize> {
    let blocks = fresh.len() / BLOCK;
    let written = rng.below(blocks + 1);
    take::write(area, fresh, |block| block < written);
    (0 < written && written < blocks).then_some(written)
}

/// Writes any blocks of a new table. Gives the block that is bad then: under the new header the first that is not written, under the old
/// one the first that is, up to its count.
pub fn scattered(rng: &mut Rng, area: &mut [u8], fresh: &[u8]) -> Option<usize> {
    let (count, one_in) = (word_at(area, header::COUNT) as usize, rng.between(2, 4));
    let past = rng.once_in(4);
    let mut written: Vec<bool> = (0..fresh.len() / BLOCK).map(|_| rng.once_in(one_in)).collect();
    if past {
        written.iter_mut().take(count + 1).for_each(|it| *it = false);
    }
    take::write(area, fresh, |block| written[block]);
    match written[0] {
        true => written.iter().position(|it| !it),
        false => written.iter().position(|it| *it).filter(|block| *block <= count),
    }
}
