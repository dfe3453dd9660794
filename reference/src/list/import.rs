//! Import: a table out of a list, its header block and the profile file.

use super::columns::{is_listable, Fields};
use super::read::{lines, Blame, Lines, Reason};
use super::room::has_room;
use crate::block::{mend, put_word, sum, word_at, BLOCK};
use crate::moves::Refusal;
use crate::slip::{Fault, Slip};
use crate::table::{check_exactly_with, header, EDITION, EDITION_2, ISSUE, LONGEST_PROFILE, MOST_RECORDS};

/// The table's length, or why not, and nothing is written.
pub fn import(list: &[u8], head: &[u8], profile_length: usize, area: &mut [u8], slip: Slip) -> Result<u32, Refusal> {
    let block = match head.get(..BLOCK) {
        Some(block) => block,
        None => return Err((5, 0)),
    };
    let judged = judge(list, block, profile_length, slip);
    let order = match slip.0 {
        Some(Fault::LinesBeforeHeaderBlock) => [14, 5, 15],
        Some(Fault::ShortAreaBeforeLines) => [5, 15, 14],
        Some(Fault::ShortAreaBeforeHeaderBlock) => [15, 5, 14],
        _ => [5, 14, 15],
    };
    let refusal = order.into_iter().find_map(|number| match number {
        5 => is_no_header_block(head, slip),
        14 => judged.as_ref().err().map(|blame| told(*blame, list, block, slip)),
        _ => is_too_short(area, block, slip),
    });
    match (refusal, judged) {
        (None, Ok(records)) => Ok(write(area, &records, block, list, slip)),
        (refusal, judged) => {
            // Where nothing refuses, judging did not fail.
            let (number, value) = refusal.unwrap_or((14, 0));
            if let Some(written) = astray(list, block, area.len(), judged.err(), number, slip) {
                area.iter_mut().zip(written).for_each(|(byte, new)| *byte = new);
            }
            Err((number, value))
        }
    }
}

/// 5: the header block is not of 512 bytes, unsound or of edition 1.
fn is_no_header_block(head: &[u8], slip: Slip) -> Option<Refusal> {
    let block = &head[..BLOCK];
    let is_long = head.len() != BLOCK && !slip.is(Fault::LongerHeaderBlockTaken);
    let is_old = block[EDITION] != EDITION_2 && !slip.is(Fault::HeaderBlockOfEdition1Taken);
    (is_long || is_old || !is_sound(block, slip)).then(|| match slip.0 {
        Some(Fault::UnsoundHeaderBlockIsLine1) => (14, 1),
        Some(Fault::UnsoundHeaderBlockIsNine) => (9, 0),
        _ => (5, 0),
    })
}

/// All that is asked of a table's header, but that its records are there.
fn is_sound(block: &[u8], slip: Slip) -> bool {
    let sums = sum(block) == 0 || slip.is(Fault::HeaderBlockSumNotAsked);
    let is_few = word_at(block, header::COUNT) <= MOST_RECORDS || slip.is(Fault::HeaderBlockCountNotLimited);
    sums && is_few && check_exactly_with(&counting(block, 0), 0, slip).is_ok()
}

/// The header block with another count, and a check word for it.
fn counting(block: &[u8], count: u32) -> Vec<u8> {
    let mut block = block.to_vec();
    put_word(&mut block, header::COUNT, count);
    mend(&mut block);
    block
}

/// What the lines say, if an export under this header block can hold them; else the first line that it cannot.
pub fn judge(list: &[u8], head: &[u8], profile_length: usize, slip: Slip) -> Result<Vec<Fields>, Blame> {
    let Lines { records, end, .. } = lines(list, head, slip);
    let by_itself = end.err();
    let by_rule = first_against_a_rule(&records, head, profile_length, slip);
    let by_room = first_without_room(&records, word_at(head, header::COUNT), by_itself, slip);
    let first = match slip.0 {
        Some(Fault::LineCountFirst) => wrong_count(list, head).or(by_itself),
        Some(Fault::LaterFormFirst) => by_itself,
        Some(Fault::RoomBeforeRules) => by_room,
        _ => None,
    };
    match first.or_else(|| [by_itself, by_rule, by_room].into_iter().flatten().min()) {
        Some(blame) => Err(blame),
        None => Ok(records),
    }
}

/// The first record that breaks a rule of the table, given those before.
fn first_against_a_rule(records: &[Fields], head: &[u8], profile_length: usize, slip: Slip) -> Option<Blame> {
    let mut table = counting(head, records.len() as u32);
    table.extend(blocks(records, head, Slip::NONE));
    let profile_length = match slip.0 {
        Some(Fault::ListProfileNotAsked) => u32::MAX as usize + LONGEST_PROFILE,
        _ => profile_length,
    };
    let slip_of_check = match slip.0 {
        Some(Fault::ListOrderNotAsked) => Slip::of(Fault::OrderNotAsked),
        Some(Fault::ListEqualIdentitiesTaken) => Slip::of(Fault::EqualIdentitiesTaken),
        Some(Fault::ListSetsMayDisagree) => Slip::of(Fault::SetsMayDisagree),
        Some(Fault::ListRoamingNotAsked) => Slip::of(Fault::RoamingPastLastTaken),
        Some(Fault::ListPendingNotAsked) => Slip::of(Fault::PendingNameNotAsked),
        Some(Fault::ListStateNotAsked) => Slip::of(Fault::StateNameNotAsked),
        Some(Fault::ListCapabilitiesNotAsked) => Slip::of(Fault::UnusedCapabilityNotAsked),
        _ => slip,
    };
    let block = check_exactly_with(&table, profile_length, slip_of_check).err().filter(|block| *block > 0)?;
    let line = if slip.is(Fault::EarlierLineBlamed) { block.max(2) } else { block + 1 };
    Some(Blame { line, reason: Reason::Rule })
}

/// The first record above whose name there are too few for the lines that must follow.
fn first_without_room(records: &[Fields], count: u32, other: Option<Blame>, slip: Slip) -> Option<Blame> {
    let is_missing = other.map_or(false, |blame| blame.reason == Reason::Missing);
    if slip.is(Fault::RoomAskedWhereMissing) && !is_missing {
        return None;
    }
    let mut lacking = (1..).zip(records).filter(|(number, fields)| {
        let followers = u64::from(count.saturating_sub(*number));
        !has_room(&fields.names[0], followers, slip)
    });
    let (number, _) = if slip.is(Fault::RoomBlamesLast) { lacking.last()? } else { lacking.next()? };
    let line = if slip.is(Fault::RoomBlamesNext) { number + 2 } else { number + 1 };
    Some(Blame { line, reason: Reason::Room })
}

/// By the number of line ends alone.
fn wrong_count(list: &[u8], head: &[u8]) -> Option<Blame> {
    let (told, wanted) = (line_ends(list), word_at(head, header::COUNT).saturating_add(1));
    match told {
        _ if told < wanted => Some(Blame { line: told + 1, reason: Reason::Missing }),
        _ if told > wanted => Some(Blame { line: wanted + 1, reason: Reason::Surplus }),
        _ => None,
    }
}

fn line_ends(list: &[u8]) -> u32 {
    list.iter().filter(|byte| **byte == b'\n').count() as u32
}

/// 14 with the line.
fn told(blame: Blame, list: &[u8], head: &[u8], slip: Slip) -> Refusal {
    let Blame { line, reason } = blame;
    let place = || lines(list, head, Slip::NONE).places.get(line as usize - 1).copied().unwrap_or(list.len());
    let cut = || reason == Reason::Form && !list[place()..].contains(&b'\n');
    let unlistable = || {
        let rest = &list[place()..];
        let end = rest.iter().position(|byte| *byte == b'\r').unwrap_or(rest.len());
        reason == Reason::Form && rest[..end].iter().any(|byte| !is_listable(*byte))
    };
    let line = match (slip.0, reason) {
        (Some(Fault::FourteenReturnsZero), _) => 0,
        (Some(Fault::FourteenTellsBlock), _) => line - 1,
        (Some(Fault::FourteenTellsByte), _) => place() as u32,
        (Some(Fault::UnlistableInListIsThirteen), _) if unlistable() => return (13, line - 1),
        (Some(Fault::MissingTellsLastThere), Reason::Missing) => line - 1,
        (Some(Fault::MissingTellsLastMissing), Reason::Missing) => word_at(head, header::COUNT) + 1,
        (Some(Fault::SurplusTellsLastWanted), Reason::Surplus) => line - 1,
        (Some(Fault::SurplusTellsLastThere), Reason::Surplus) => line_ends(list),
        (Some(Fault::CutLineTellsNext), _) if cut() => line + 1,
        _ => line,
    };
    (14, line)
}

/// 15: the area is shorter than the table.
fn is_too_short(area: &[u8], head: &[u8], slip: Slip) -> Option<Refusal> {
    let needed = BLOCK as u64 * (u64::from(word_at(head, header::COUNT)) + 1);
    let length = area.len() as u64;
    let is_short = match slip.0 {
        Some(Fault::ExactTableAreaRefused) => length <= needed,
        Some(Fault::TableCutToArea) => false,
        Some(Fault::TableAreaBlockShortTaken) => length + (BLOCK as u64) < needed,
        _ => length < needed,
    };
    is_short.then(|| match slip.0 {
        Some(Fault::ShortTableTold) => (15, needed as u32),
        Some(Fault::ShortTableIsEleven) => (11, 0),
        _ => (15, 0),
    })
}

/// The records' blocks, with the header block's issue number.
fn blocks(records: &[Fields], head: &[u8], slip: Slip) -> Vec<u8> {
    let issue = word_at(head, ISSUE);
    (1..).zip(records).flat_map(|(number, fields)| fields.block(number, issue, slip)).collect()
}

/// Writes the table, and says how many bytes of it.
fn write(area: &mut [u8], records: &[Fields], head: &[u8], list: &[u8], slip: Slip) -> u32 {
    let mut table = match slip.0 {
        Some(Fault::CountedByLines) => counting(head, records.len() as u32),
        _ => head.to_vec(),
    };
    if slip.is(Fault::ImportedHeaderRewritten) {
        table[header::KEEP] = 0;
        mend(&mut table);
    }
    table.extend(blocks(records, head, slip));
    let from = if slip.is(Fault::HeaderBlockNotImported) { BLOCK } else { 0 };
    let left = if slip.is(Fault::LastLineNotImported) && !records.is_empty() { BLOCK } else { 0 };
    let end = (table.len() - left).min(area.len());
    area[from.min(end)..end].copy_from_slice(&table[from.min(end)..end]);
    if slip.is(Fault::RestOfTableAreaCleared) {
        area[end..].fill(0);
    }
    match slip.0 {
        Some(Fault::ImportReturnsCount) => records.len() as u32,
        Some(Fault::ImportReturnsLines) => records.len() as u32 + 1,
        Some(Fault::ImportReturnsListLength) => list.len() as u32,
        Some(Fault::TableLengthIn16Bits) => table.len() as u32 & 0xFFFF,
        _ => table.len() as u32,
    }
}

/// What a faulty program has written before it refuses.
fn astray(list: &[u8], head: &[u8], length: usize, blame: Option<Blame>, number: u32, slip: Slip) -> Option<Vec<u8>> {
    let up_to = |most: usize| {
        let records = lines(list, head, slip).records;
        [head, &blocks(&records[..most.min(records.len())], head, slip)].concat()
    };
    Some(match (slip.0?, number, blame) {
        (Fault::RefusedImportClears, 14 | 15, _) => vec![0; length],
        (Fault::RefusedImportWritesHeader, 14, _) => head.to_vec(),
        (Fault::RefusedImportWritesLines, 14, Some(blame)) => up_to((blame.line as usize).saturating_sub(2)),
        (Fault::ShortImportWritten, 15, _) => up_to(usize::MAX),
        _ => return None,
    })
}
