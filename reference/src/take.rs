//! The take-over of a new table: written over the front of the working area, block by block from block 0.

use crate::block::{sum, word_at, BLOCK};
use crate::moves::Refusal;
use crate::slip::{Fault, Slip};
use crate::table::{check, check_exactly_with, header, rewrite, Record, Rewriting, Table};
use crate::table::{EDITION, EDITION_1, EDITION_2, ISSUE, LONGEST_PROFILE, MOST_RECORDS, PENDING};

/// The new record count, or why not, and nothing is written. Blocks past the new count, and a last piece, stay.
pub fn take(area: &mut [u8], fresh: &[u8], profile_length: usize, slip: Slip) -> Result<u32, Refusal> {
    if let Some((number, value)) = refusal(area, fresh, profile_length, slip) {
        match (slip.0, number) {
            (Some(Fault::RefusedTakeWrites), 11) if area.len() >= BLOCK => write(area, fresh, |block| block == 0),
            (Some(Fault::RefusedTakeClears), 10) => area.fill(0),
            _ => {}
        }
        return Err((number, value));
    }
    let (old, count) = (area.to_vec(), word_at(fresh, header::COUNT));
    let last = count as usize;
    write(area, fresh, |block| match slip.0 {
        Some(Fault::TakeWritesNothing | Fault::FreshWrittenBehind) => false,
        Some(Fault::FreshHeaderNotWritten) => block > 0,
        Some(Fault::FreshHeaderWrittenAlone) => block == 0,
        Some(Fault::LastFreshNotWritten) => block == 0 || block < last,
        Some(Fault::OldBlocksWrittenAlone) => block <= told_count(&old),
        _ => true,
    });
    if slip.0.is_some() {
        astray(area, &old, fresh, profile_length, slip);
    }
    Ok(match slip.0 {
        Some(Fault::TakeReturnsZero) => 0,
        Some(Fault::TakeReturnsBlocks) => count + 1,
        Some(Fault::TakeReturnsIssue) => word_at(fresh, ISSUE),
        Some(Fault::TakeReturnsOldCount) => told_count(&old) as u32,
        _ => count,
    })
}

/// Writes these blocks of a new table over an area, as many as there are in both, each whole.
pub fn write(area: &mut [u8], fresh: &[u8], mut is_written: impl FnMut(usize) -> bool) {
    let both = area.chunks_exact_mut(BLOCK).zip(fresh.chunks_exact(BLOCK));
    for (block, (old, new)) in both.enumerate() {
        if is_written(block) {
            old.copy_from_slice(new);
        }
    }
}

/// The issue numbers found in an area: those of its whole blocks of kind 1 or 2, whatever else they hold.
pub fn issues_found(area: &[u8]) -> impl Iterator<Item = u32> + '_ {
    area.chunks_exact(BLOCK).filter(|block| [1, 2].contains(&block[0])).map(|block| word_at(block, ISSUE))
}

/// The first refusal in their order: its number, and what is returned besides.
fn refusal(area: &[u8], fresh: &[u8], profile_length: usize, slip: Slip) -> Option<Refusal> {
    let order = match slip.0 {
        Some(Fault::IssueBeforeFresh) => [10, 9, 11],
        Some(Fault::ShortAreaFirst) => [11, 9, 10],
        Some(Fault::ShortAreaBeforeIssue) => [9, 11, 10],
        _ => [9, 10, 11],
    };
    order.into_iter().find_map(|number| match number {
        9 => is_no_new_table(fresh, profile_length, slip),
        10 => has_no_new_issue(area, fresh, profile_length, slip),
        _ => is_too_short(area, fresh, slip),
    })
}

/// 9: a new table is sound with the profile file, of exact length and of edition 2.
fn is_no_new_table(fresh: &[u8], profile_length: usize, slip: Slip) -> Option<Refusal> {
    let found = match slip.0 {
        Some(Fault::FreshUnchecked) => match check_exactly_with(fresh, profile_length, slip) {
            Err(block) if block > 0 => Ok(0),
            found => found,
        },
        Some(Fault::FreshWithoutProfile) => check_exactly_with(fresh, usize::MAX - LONGEST_PROFILE, slip),
        Some(Fault::FreshAgreementNotAsked) => {
            check_exactly_with(fresh, profile_length, Slip::of(Fault::SetsMayDisagree))
        }
        Some(Fault::LongerFreshTaken | Fault::LongerFreshWritten) => check(fresh, profile_length),
        Some(Fault::PrefixOfFreshTaken) => check_exactly_with(fresh, profile_length, Slip::of(Fault::PrefixTaken)),
        _ => check_exactly_with(fresh, profile_length, slip),
    };
    match (found, slip.0) {
        (Err(block), Some(Fault::UnsoundFreshTold)) => Some((9, block)),
        (Err(block), Some(Fault::UnsoundFreshIsFive)) => Some((5, block)),
        (Err(_), _) => Some((9, 0)),
        (Ok(_), _) if fresh[EDITION] == EDITION_2 => None,
        (Ok(_), Some(Fault::FreshOfEdition1Taken)) => None,
        (Ok(_), Some(Fault::FreshOfEdition1IsFive)) => Some((5, 0)),
        (Ok(_), _) => Some((9, 0)),
    }
}

/// 10: the new issue number is greater than each that is found in the area.
fn has_no_new_issue(area: &[u8], fresh: &[u8], profile_length: usize, slip: Slip) -> Option<Refusal> {
    // Only a faulty program asks this of less than a block.
    let new = if fresh.len() < BLOCK { 0 } else { word_at(fresh, ISSUE) };
    if slip.0.is_none() {
        return issues_found(area).any(|issue| issue >= new).then_some((10, 0));
    }
    let found = astray_found(area, fresh, profile_length, slip);
    let asked = match slip.0 {
        Some(Fault::FirstFoundAsked) => &found[..found.len().min(1)],
        Some(Fault::LastFoundAsked) => &found[found.len().saturating_sub(1)..],
        _ => &found[..],
    };
    let refused = match slip.0 {
        Some(Fault::NextIssueAlone) => asked.iter().max().map_or(false, |(issue, _)| issue.checked_add(1) != Some(new)),
        Some(Fault::NoneFoundIsZero) if asked.is_empty() => new == 0,
        Some(Fault::GreatestFoundWraps) => asked.iter().max().map_or(false, |(issue, _)| new < issue.wrapping_add(1)),
        _ => asked.iter().any(|(issue, _)| !is_greater(new, *issue, slip)),
    };
    let told = match slip.0 {
        Some(Fault::UnsoundAreaNotTaken) => {
            return check(area, profile_length).err().map(|block| (5, block)).or(refused.then_some((10, 0)))
        }
        Some(Fault::TenTellsBlock) => asked.iter().find(|(issue, _)| *issue >= new).map_or(0, |(_, block)| *block),
        Some(Fault::TenTellsIssue) => asked.iter().map(|(issue, _)| *issue).max().unwrap_or(0),
        _ => 0,
    };
    refused.then_some((10, told))
}

fn is_greater(new: u32, found: u32, slip: Slip) -> bool {
    match slip.0 {
        Some(Fault::FoundIssueNotAsked) => true,
        Some(Fault::EqualIssueTaken) => new >= found,
        Some(Fault::LesserIssueTaken) => new != found,
        Some(Fault::FoundLittleEndian) => new.swap_bytes() > found.swap_bytes(),
        Some(Fault::FoundIn16Bits) => new as u16 > found as u16,
        Some(Fault::FoundWithSign) => new as i32 > found as i32,
        Some(Fault::FoundAround) => new.wrapping_sub(found) as i32 > 0,
        _ => new > found,
    }
}

/// The issue numbers that a faulty program finds, each with its block.
fn astray_found(area: &[u8], fresh: &[u8], profile_length: usize, slip: Slip) -> Vec<(u32, u32)> {
    if slip.is(Fault::FoundInSoundAreaAlone) && check(area, profile_length).is_err() {
        return vec![];
    }
    let (last, old, new) = ((area.len() / BLOCK) as u32, told_count(area) as u32, told_count(fresh) as u32);
    let blocks = area.chunks_exact(BLOCK);
    let piece = Some(blocks.remainder()).filter(|piece| piece.len() >= ISSUE + 4 && slip.is(Fault::FoundInLastPiece));
    let finds = |number: u32, block: &[u8]| {
        let of_kind = [1, 2].contains(&block[0]);
        match slip.0 {
            Some(Fault::FoundInHeaderAlone) => of_kind && number == 0,
            Some(Fault::FoundUpToOldCount) => of_kind && number <= old,
            Some(Fault::FoundUpToNewCount) => of_kind && number <= new,
            Some(Fault::FoundUpToMost) => of_kind && number <= MOST_RECORDS,
            Some(Fault::FoundInSummedBlocks) => of_kind && sum(block) == 0,
            Some(Fault::FoundInEdition2Alone) => of_kind && block[EDITION] == EDITION_2,
            Some(Fault::FoundInEditionsAlone) => of_kind && [EDITION_1, EDITION_2].contains(&block[EDITION]),
            Some(Fault::FoundInKind1Alone) => block[0] == 1,
            Some(Fault::FoundInKind2Alone) => block[0] == 2,
            Some(Fault::FoundInKind3Too) => of_kind || block[0] == 3,
            Some(Fault::FoundInAnyKind) => true,
            Some(Fault::FoundInKindOfPlace) => block[0] == if number == 0 { 1 } else { 2 },
            Some(Fault::FoundInPlaceAlone) => of_kind && word_at(block, 4) == number,
            Some(Fault::LastBlockNotAsked) => of_kind && number + 1 != last,
            Some(Fault::SameTableTakenAgain) => {
                of_kind && fresh.chunks_exact(BLOCK).nth(number as usize) != Some(block)
            }
            _ => of_kind,
        }
    };
    let all = (0..).zip(blocks.chain(piece));
    all.filter(|(number, block)| finds(*number, block)).map(|(number, block)| (word_at(block, ISSUE), number)).collect()
}

/// 11: the area holds the new table.
fn is_too_short(area: &[u8], fresh: &[u8], slip: Slip) -> Option<Refusal> {
    let needed = match slip.0 {
        Some(Fault::LongerFreshTaken) => BLOCK * (told_count(fresh) + 1),
        _ => fresh.len(),
    };
    let too_short = match slip.0 {
        Some(Fault::ShortAreaTaken) => false,
        Some(Fault::AreaABlockShortTaken) => area.len() + BLOCK < needed,
        Some(Fault::CutAreaTaken) => area.len() + BLOCK <= needed,
        Some(Fault::ExactAreaRefused) => area.len() <= needed,
        Some(Fault::AreaOfPieceRefused) => area.len() < needed || area.len() % BLOCK != 0,
        Some(Fault::LongAreaNotTaken) => area.len() < needed || area.len() / BLOCK > MOST_RECORDS as usize + 1,
        Some(Fault::AreaAsLongAsOldTable) => area.len() < needed.max(BLOCK.saturating_mul(told_count(area) + 1)),
        _ => area.len() < needed,
    };
    too_short.then(|| match slip.0 {
        Some(Fault::ElevenTellsCount) => (11, told_count(fresh) as u32),
        Some(Fault::ShortAreaIsFive) => (5, 0),
        _ => (11, 0),
    })
}

/// What block 0 says, whatever it is; 0 if there is none.
fn told_count(area: &[u8]) -> usize {
    if area.len() < BLOCK {
        0
    } else {
        word_at(area, header::COUNT) as usize
    }
}

/// What a faulty program leaves otherwise.
fn astray(area: &mut [u8], old: &[u8], fresh: &[u8], profile_length: usize, slip: Slip) {
    let end = fresh.len().min(area.len());
    let whole = area.len() / BLOCK * BLOCK;
    match slip.0 {
        Some(Fault::LongerFreshWritten | Fault::CutAreaTaken) => area[..end].copy_from_slice(&fresh[..end]),
        Some(Fault::RestOfAreaCleared) => area[end..].fill(0),
        Some(Fault::OldBlocksCleared) => area[end..whole].fill(0),
        Some(Fault::OldTableCleared) => {
            let old_end = BLOCK.saturating_mul(told_count(old) + 1).min(whole);
            area[end..old_end.max(end)].fill(0);
        }
        Some(Fault::LastPieceCleared) => area[whole..].fill(0),
        Some(Fault::FreshWrittenBehind) => {
            let from = BLOCK.saturating_mul(told_count(old) + 1).min(area.len());
            let length = (area.len() - from).min(fresh.len());
            area[from..from + length].copy_from_slice(&fresh[..length]);
        }
        Some(Fault::TakenStatesKept) if check(old, profile_length).is_ok() => keep_states(area, old),
        _ => {}
    }
}

/// A record that was there keeps state, pending and server name.
fn keep_states(area: &mut [u8], old: &[u8]) {
    let last = told_count(area);
    for block in area.chunks_exact_mut(BLOCK).skip(1).take(last) {
        let before = Table(old).records().map(|(_, it)| it).find(|it| it.public() == Record(block).public());
        if let Some(before) = before {
            let server_name = Some(before.server_name().to_vec());
            let with = Rewriting { state: before.state(), pending: before.has(PENDING), server_name };
            rewrite(block, &with, Slip::NONE);
        }
    }
}
