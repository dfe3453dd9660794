//! The moves of a table between its editions, in place.

use crate::block::{mend, put_word, word_at, BLOCK};
use crate::slip::{Fault, Slip};
use crate::table::{check_exactly_with, header, record, EDITION, EDITION_1, EDITION_2, ISSUE, NOT_REGISTERED, PENDING};
use crate::table::{Record, LONGEST_PROFILE, LONGEST_SERVER_NAME};

/// Its number, and what it returns besides.
pub type Refusal = (u32, u32);

/// From edition 1 to 2, with this issue number and every set 0: the record count, or why not, and nothing is written.
pub fn forward(table: &mut [u8], profile_length: usize, issue: u32, slip: Slip) -> Result<u32, Refusal> {
    if slip.is(Fault::SetsTestedForward) && table.len() >= BLOCK {
        has_no_set(table, slip)?;
    }
    let count = is_of_edition(EDITION_1, table, profile_length, slip)?;
    write(table, EDITION_2, written_issue(issue, slip), slip);
    Ok(told(count, issue, slip))
}

/// From edition 2 to 1, if no record has a set number.
pub fn back(table: &mut [u8], profile_length: usize, slip: Slip) -> Result<u32, Refusal> {
    if slip.is(Fault::SetsBeforeSoundness) && table.len() >= BLOCK {
        has_no_set(table, slip)?;
    }
    let issue = if table.len() < BLOCK { 0 } else { word_at(table, ISSUE) };
    let count = is_of_edition(EDITION_2, table, profile_length, slip)?;
    if let Err((number, block)) = has_no_set(table, slip) {
        if slip.is(Fault::RefusedMoveWrites) {
            write(&mut table[..block as usize * BLOCK], EDITION_1, 0, slip);
        }
        return Err((number, block));
    }
    write(table, EDITION_1, if slip.is(Fault::IssueStaysOnTheWayBack) { issue } else { 0 }, slip);
    Ok(told(count, issue, slip))
}

/// The record count of a sound table of this edition, or refusal 5: the first bad block, or 0 for the other edition.
fn is_of_edition(edition: u8, table: &mut [u8], profile_length: usize, slip: Slip) -> Result<u32, Refusal> {
    let other = table.len() >= BLOCK && table[EDITION] != edition;
    if other && slip.is(Fault::EditionBeforeSoundness) {
        return Err((5, 0));
    }
    match sound(edition, table, profile_length, slip) {
        Err(block) => {
            if slip.is(Fault::RefusedMoveWrites) && block > 0 && !other {
                write(&mut table[..block as usize * BLOCK], EDITION_1 + EDITION_2 - edition, 0, slip);
            }
            Err((5, if slip.is(Fault::UnsoundMoveReturnsZero) { 0 } else { block }))
        }
        Ok(count) if !other => Ok(count),
        Ok(count) => match slip.0 {
            Some(Fault::OtherEditionIsMoved | Fault::OtherEditionMovedAgain) => Ok(count),
            Some(Fault::OtherEditionBlamesFirstRecord) => Err((5, 1)),
            Some(Fault::OtherEditionBlamesEnd) => Err((5, count + 1)),
            Some(Fault::OtherEditionIsEight) if edition == EDITION_2 => Err((8, 0)),
            _ => Err((5, 0)),
        },
    }
}

/// The check, with the profile file, for a move from this edition.
fn sound(edition: u8, table: &[u8], profile_length: usize, slip: Slip) -> Result<u32, u32> {
    let needed = || (word_at(table, header::COUNT) as usize).saturating_add(1).saturating_mul(BLOCK);
    match slip.0 {
        Some(Fault::AgreementNotAskedForward) if edition == EDITION_1 => {
            check_exactly_with(table, profile_length, Slip::of(Fault::SetsMayDisagree))
        }
        Some(Fault::AgreementAskedAfterSets) if edition == EDITION_2 => {
            check_exactly_with(table, profile_length, Slip::of(Fault::SetsMayDisagree))
        }
        Some(Fault::MoveWithoutProfile) => check_exactly_with(table, u32::MAX as usize + LONGEST_PROFILE, slip),
        Some(Fault::MoveUnchecked) => match check_exactly_with(table, profile_length, slip) {
            Err(block) if block > 0 => Ok(word_at(table, header::COUNT)),
            found => found,
        },
        Some(Fault::LongerTableMoved) if table.len() >= BLOCK && table.len() > needed() => {
            check_exactly_with(&table[..needed()], profile_length, slip)
        }
        _ => check_exactly_with(table, profile_length, slip),
    }
}

/// Refusal 8 with the first block whose set number is not 0.
fn has_no_set(table: &[u8], slip: Slip) -> Result<(), Refusal> {
    let last = table.len() / BLOCK - 1;
    let has = |block: usize, it: &Record| match slip.0 {
        Some(Fault::SetsNotTested | Fault::SetsLost) => false,
        Some(Fault::SetsTestedIn8Bits) => it.set() as u8 != 0,
        Some(Fault::SetsTestedByFirstByte) => it.set() >> 8 != 0,
        Some(Fault::FirstSetNotTested) => it.set() != 0 && block != 1,
        Some(Fault::LastSetNotTested) => it.set() != 0 && block != last,
        _ => it.set() != 0,
    };
    let blocks = table.chunks_exact(BLOCK).map(Record).enumerate().skip(1);
    let mut found = blocks.filter(|(block, it)| has(*block, it));
    let first = match slip.0 {
        Some(Fault::LastSetTold) => found.last(),
        _ => found.next(),
    };
    first.map_or(Ok(()), |(block, it)| {
        Err(match slip.0 {
            Some(Fault::SetTold) => (8, u32::from(it.set())),
            Some(Fault::SetFromZero) => (8, block as u32 - 1),
            Some(Fault::EightReturnsZero) => (8, 0),
            Some(Fault::SetsAreFive) => (5, block as u32),
            _ => (8, block as u32),
        })
    })
}

/// Byte 1, the issue number and the check word of every block, nothing else.
fn write(table: &mut [u8], edition: u8, issue: u32, slip: Slip) {
    let last = table.len() / BLOCK - 1;
    for (number, block) in table.chunks_exact_mut(BLOCK).enumerate() {
        let left = match slip.0 {
            Some(Fault::MoveWritesNothing) => true,
            Some(Fault::OtherEditionIsMoved) => block[EDITION] == edition,
            Some(Fault::HeaderNotMoved) => number == 0,
            Some(Fault::HeaderMovedAlone) => number > 0,
            Some(Fault::LastRecordNotMoved) => number > 0 && number == last,
            _ => false,
        };
        if left {
            continue;
        }
        if !slip.is(Fault::MoveLeavesEdition) {
            block[EDITION] = edition;
        }
        if !(slip.is(Fault::IssueInHeaderAlone) && number > 0) {
            put_word(block, ISSUE, issue);
        }
        astray(block, number, edition, slip);
        let mended = match slip.0 {
            Some(Fault::MoveLeavesHeaderCheckWord) => number > 0,
            Some(Fault::MoveLeavesRecordCheckWord) => number == 0,
            _ => true,
        };
        if mended {
            mend(block);
        }
    }
}

/// What a faulty program writes besides.
fn astray(block: &mut [u8], number: usize, edition: u8, slip: Slip) {
    match slip.0 {
        Some(Fault::MoveForgetsBlockNumbers) => put_word(block, 4, number as u32 + 1),
        Some(Fault::SetsLost) if number > 0 => block[record::SET..ISSUE].fill(0),
        Some(Fault::SetsGivenForward) if number > 0 && edition == EDITION_2 => {
            block[record::SET..ISSUE].copy_from_slice(&(number as u16).to_be_bytes());
        }
        Some(Fault::MoveClearsPending) if number > 0 => block[record::BITS] &= !PENDING,
        Some(Fault::MoveUnregisters) if number > 0 => {
            block[record::STATE] = NOT_REGISTERED;
            block[record::BITS] &= !PENDING;
            block[record::SERVER_LENGTH] = 0;
            block[record::SERVER..record::SERVER + LONGEST_SERVER_NAME].fill(0);
        }
        _ => {}
    }
}

fn written_issue(issue: u32, slip: Slip) -> u32 {
    match slip.0 {
        Some(Fault::IssueNotWritten) => 0,
        Some(Fault::IssueWrittenIn16Bits) => issue & 0xFFFF,
        Some(Fault::IssueLittleEndian) => issue.swap_bytes(),
        Some(Fault::IssueCountsUp) => issue.wrapping_add(1),
        Some(Fault::IssueNeverZero) => issue.max(1),
        _ => issue,
    }
}

/// The value of a move's word.
fn told(count: u32, issue: u32, slip: Slip) -> u32 {
    match slip.0 {
        Some(Fault::MoveReturnsZero) => 0,
        Some(Fault::MoveReturnsBlocks) => count + 1,
        Some(Fault::MoveReturnsIssue) => issue,
        _ => count,
    }
}
