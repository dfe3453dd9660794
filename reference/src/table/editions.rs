//! What the editions of the table differ in: the bytes that a block of each names, and that the blocks of a table agree.
//! All inlined, as the check is.

use super::layout::{header, record, BEHIND_ISSUE, EDITION, EDITION_1, EDITION_2, ISSUE};
use crate::block::{word_at, zero, BLOCK, CHECK_WORD};
use crate::slip::{Fault, Slip};

#[inline(always)]
pub fn is_an_edition(block: &[u8], slip: Slip) -> bool {
    match (slip.0, block[EDITION]) {
        (Some(Fault::Edition1Refused), edition) => edition == EDITION_2,
        (Some(Fault::Edition2Refused), edition) => edition == EDITION_1,
        (Some(Fault::Edition0Taken), 0) | (Some(Fault::Edition3Taken), 3) => true,
        (_, edition) => edition == EDITION_1 || edition == EDITION_2,
    }
}

/// Whether the block is to be read as one of edition 2.
#[inline(always)]
fn is_second(block: &[u8], slip: Slip) -> bool {
    block[EDITION] == EDITION_2 || (block[EDITION] == 3 && slip.is(Fault::Edition3Taken))
}

/// Edition 2 names the issue number.
#[inline(always)]
pub fn header_rest_is_zero(block: &[u8], slip: Slip) -> bool {
    let before = match slip.0 {
        Some(Fault::HeaderRestNotAsked) => return true,
        Some(Fault::SetInHeaderTaken) if is_second(block, slip) => zero(&block[header::REST..record::SET]),
        Some(Fault::HeaderBytes400To405NotAsked) if is_second(block, slip) => zero(&block[record::SET..ISSUE]),
        _ => zero(&block[header::REST..ISSUE]),
    };
    let issue = match (is_second(block, slip), slip.0) {
        (true, Some(Fault::IssueZeroRefused)) => word_at(block, ISSUE) != 0,
        (true, Some(Fault::GreatIssueRefused)) => word_at(block, ISSUE) >> 31 == 0,
        (true, _) | (false, Some(Fault::HeaderIssueOfEdition1Taken)) => true,
        (false, _) => zero(&block[ISSUE..BEHIND_ISSUE]),
    };
    let behind = (is_second(block, slip) && slip.is(Fault::HeaderRestOfEdition2NotAsked))
        || zero(&block[BEHIND_ISSUE..CHECK_WORD]);
    before && issue && behind
}

/// Edition 2 names the set number and the issue number.
#[inline(always)]
pub fn record_rest_is_zero(block: &[u8], slip: Slip) -> bool {
    let second = is_second(block, slip);
    let set = match (second, slip.0) {
        (_, Some(Fault::RecordRestNotAsked)) => return true,
        (true, Some(Fault::SetsRefused)) => zero(&block[record::SET..ISSUE]),
        (true, Some(Fault::GreatSetsRefused)) => block[record::SET] == 0,
        (true, _) | (false, Some(Fault::SetOfEdition1Taken)) => true,
        (false, _) => zero(&block[record::SET..ISSUE]),
    };
    let issue = second || zero(&block[ISSUE..BEHIND_ISSUE]) || slip.is(Fault::IssueOfEdition1Taken);
    let behind = (second && slip.is(Fault::RecordRestOfEdition2NotAsked)) || zero(&block[BEHIND_ISSUE..CHECK_WORD]);
    set && issue && behind
}

/// A table has one edition and one issue number throughout, the header's.
#[inline(always)]
pub fn is_like_header(table: &[u8], block: &[u8], slip: Slip) -> bool {
    let edition = block[EDITION] == table[EDITION]
        || matches!(slip.0, Some(Fault::RecordEditionNotAsked | Fault::MixedEditionsTaken));
    let (issue, headers) = (word_at(block, ISSUE), word_at(table, ISSUE));
    let issue = match slip.0 {
        Some(Fault::IssueNotCompared) => true,
        Some(Fault::IssueOfEdition1Taken) if block[EDITION] == EDITION_1 => true,
        Some(Fault::HeaderIssueOfEdition1Taken) if block[EDITION] == EDITION_1 => true,
        Some(Fault::MixedEditionsTaken) if block[EDITION] != table[EDITION] => true,
        Some(Fault::IssueComparedIn8Bits) => issue as u8 == headers as u8,
        Some(Fault::IssueComparedIn16Bits) => issue as u16 == headers as u16,
        Some(Fault::IssueComparedBy16Bits) => issue >> 16 == headers >> 16,
        Some(Fault::LaterIssueTaken) => issue >= headers,
        Some(Fault::OlderIssueTaken) => issue <= headers,
        Some(Fault::HeaderIssueNotCompared) => issue == word_at(table, BLOCK + ISSUE),
        Some(Fault::FirstRecordIssueNotCompared) => issue == headers || word_at(block, 4) == 1,
        _ => issue == headers,
    };
    edition && issue
}

/// Which block a faulty program blames where block `number` is not like the header.
#[inline(always)]
pub fn mixing_blames(head: &[u8], block: &[u8], number: u32, slip: Slip) -> u32 {
    let editions = block[EDITION] != head[EDITION];
    match slip.0 {
        Some(Fault::EarlierIssueBlamed) if !editions => number - 1,
        Some(Fault::EarlierEditionBlamed) if editions => number - 1,
        Some(Fault::MixingBlamesHeader) => 0,
        _ => number,
    }
}
