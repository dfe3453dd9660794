//! Export: a sound table of edition 2 as a list.

use super::columns::FIRST_LINE;
use super::write::{is_taken, lines, unlistable};
use crate::block::BLOCK;
use crate::moves::Refusal;
use crate::slip::{Fault, Slip};
use crate::table::{
    check, check_exactly_with, record, Table, EDITION, EDITION_2, LONGEST_PROFILE, LONGEST_SERVER_NAME,
};

/// The list's length, or why not, and nothing is written.
pub fn export(table: &[u8], profile_length: usize, area: &mut [u8], slip: Slip) -> Result<u32, Refusal> {
    if slip.is(Fault::ShortListFirst) && area.len() < FIRST_LINE.len() {
        return Err((15, 0));
    }
    if slip.is(Fault::UnlistableBeforeSoundness) && has_names(table) {
        can_be_listed(Table(table), slip)?;
    }
    is_to_be_exported(table, profile_length, slip)?;
    let table = Table(table);
    let list = lines(table, slip).concat();
    if slip.is(Fault::ShortListBeforeUnlistable) {
        has_room(area, &list, slip)?;
    }
    if let Err(refusal) = can_be_listed(table, slip) {
        if slip.is(Fault::UnlistableLinesWritten) {
            put(area, &lines(table, slip)[..refusal.1 as usize].concat(), slip);
        }
        return Err(refusal);
    }
    if let Err(refusal) = has_room(area, &list, slip) {
        if slip.is(Fault::ShortListWritten) {
            put(area, &list, slip);
        }
        return Err(refusal);
    }
    let written = put(area, &list, slip);
    Ok(match slip.0 {
        Some(Fault::ExportReturnsCount) => table.records().count() as u32,
        Some(Fault::ExportReturnsLines) => table.records().count() as u32 + 1,
        Some(Fault::ListAreaByteShortTaken) => list.len() as u32,
        Some(Fault::ListLengthIn16Bits) => written as u32 & 0xFFFF,
        _ => written as u32,
    })
}

/// The list of a sound table whose names can be listed.
pub fn list(table: Table) -> Vec<Vec<u8>> {
    lines(table, Slip::NONE)
}

/// 5: the table is unsound, or not of exact length, or of edition 1.
fn is_to_be_exported(table: &[u8], profile_length: usize, slip: Slip) -> Result<(), Refusal> {
    let found = match slip.0 {
        Some(Fault::ExportAgreementNotAsked) => {
            check_exactly_with(table, profile_length, Slip::of(Fault::SetsMayDisagree))
        }
        Some(Fault::ExportWithoutProfile) => check_exactly_with(table, u32::MAX as usize + LONGEST_PROFILE, slip),
        Some(Fault::LongerTableExported) => check(table, profile_length),
        Some(Fault::PrefixExported) => check_exactly_with(table, profile_length, Slip::of(Fault::PrefixTaken)),
        _ => check_exactly_with(table, profile_length, slip),
    };
    match (found, slip.0) {
        (Err(_), Some(Fault::UnsoundExportReturnsZero)) => Err((5, 0)),
        (Err(block), _) => Err((5, block)),
        (Ok(_), _) if table[EDITION] == EDITION_2 => Ok(()),
        (Ok(_), Some(Fault::ExportOfEdition1Taken)) => Ok(()),
        (Ok(_), Some(Fault::ExportOfEdition1BlamesFirstRecord)) => Err((5, 1)),
        (Ok(_), Some(Fault::ExportOfEdition1IsNine)) => Err((9, 0)),
        (Ok(_), _) => Err((5, 0)),
    }
}

/// 13, with the first block that has a name which cannot be listed.
fn can_be_listed(table: Table, slip: Slip) -> Result<(), Refusal> {
    let header = table.header();
    let networks = (0..header.networks()).any(|n| header.network(n).iter().any(|byte| !is_taken(*byte, slip)));
    let own = [header.host(), header.realm()].concat().iter().any(|byte| !is_taken(*byte, slip));
    match slip.0 {
        Some(Fault::UnlistableHostAsked) if own => return Err((13, 0)),
        Some(Fault::UnlistableNetworksAsked) if networks => return Err((13, 0)),
        _ => {}
    }
    let mut found = table.records().filter_map(|(block, it)| Some((block as u32, unlistable(it, slip)?)));
    let first = match slip.0 {
        Some(Fault::LastUnlistableTold) => found.last(),
        _ => found.next(),
    };
    first.map_or(Ok(()), |(block, byte)| {
        Err(match slip.0 {
            Some(Fault::ThirteenReturnsZero) => (13, 0),
            Some(Fault::ThirteenTellsLine) => (13, block + 1),
            Some(Fault::ThirteenTellsByte) => (13, byte.into()),
            Some(Fault::UnlistableIsFive) => (5, block),
            _ => (13, block),
        })
    })
}

/// Whether the header's and the records' names, sound or not, can be looked at.
fn has_names(table: &[u8]) -> bool {
    let fits = |block: &[u8]| usize::from(block[record::SERVER_LENGTH]) <= LONGEST_SERVER_NAME;
    table.len() >= BLOCK && check(table, usize::MAX - LONGEST_PROFILE) != Err(0) && table.chunks_exact(BLOCK).all(fits)
}

/// 15: the area is shorter than the list.
fn has_room(area: &[u8], list: &[u8], slip: Slip) -> Result<(), Refusal> {
    let is_short = match slip.0 {
        Some(Fault::ExactListAreaRefused) => area.len() <= list.len(),
        Some(Fault::ListAreaByteShortTaken) => area.len() + 1 < list.len(),
        Some(Fault::ListCutToArea) => false,
        _ => area.len() < list.len(),
    };
    match (is_short, slip.0) {
        (false, _) => Ok(()),
        (true, Some(Fault::ShortListTold)) => Err((15, list.len() as u32)),
        (true, Some(Fault::ShortListIsEleven)) => Err((11, 0)),
        (true, _) => Err((15, 0)),
    }
}

/// How many bytes were written: all, but for a faulty program.
fn put(area: &mut [u8], list: &[u8], slip: Slip) -> usize {
    let end = list.len().min(area.len());
    area[..end].copy_from_slice(&list[..end]);
    match slip.0 {
        Some(Fault::RestOfListAreaCleared) => area[end..].fill(0),
        Some(Fault::ZeroBehindList) => area[end..].iter_mut().take(1).for_each(|byte| *byte = 0),
        _ => {}
    }
    end
}
