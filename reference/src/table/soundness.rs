//! The check: what document 01 says of a sound table, and document 02 of its two editions and of sets.

use super::editions::{header_rest_is_zero, is_an_edition, is_like_header, mixing_blames, record_rest_is_zero};
use super::layout::{
    header, record, Header, Record, BARRED, EDITION, EDITION_1, EDITION_2, LONGEST_HOST, LONGEST_IDENTITY,
    LONGEST_PROFILE, LONGEST_SERVER_NAME, MOST_CAPABILITIES, MOST_NETWORKS, MOST_RECORDS, NETWORK_PLACE,
    NOT_REGISTERED, PENDING, UNREGISTERED, UNREGISTERED_SERVICES,
};
use super::sets::Sets;
use crate::block::{sum, word_at, zero, BLOCK};
use crate::slip::{Fault, Slip};

/// The record count of the sound table at the front of an area, or the number of the first bad block. What is past the table is not
/// looked at.
pub fn check(area: &[u8], profile_length: usize) -> Result<u32, u32> {
    checked(area, profile_length, Length::Least, Slip::NONE)
}

/// `check`, or as a program with a deliberate fault does it.
pub fn check_with(area: &[u8], profile_length: usize, slip: Slip) -> Result<u32, u32> {
    match slip.0 {
        None => check(area, profile_length),
        Some(_) => checked(area, profile_length, Length::Least, slip),
    }
}

/// The check where the length stays exact: nothing may stand past the table.
pub fn check_exactly(table: &[u8], profile_length: usize) -> Result<u32, u32> {
    checked(table, profile_length, Length::Exact, Slip::NONE)
}

/// `check_exactly`, or as a program with a deliberate fault does it.
pub fn check_exactly_with(table: &[u8], profile_length: usize, slip: Slip) -> Result<u32, u32> {
    match slip.0 {
        None => check_exactly(table, profile_length),
        Some(_) => checked(table, profile_length, Length::Exact, slip),
    }
}

/// Whether 512 x (count + 1) is the least length, or the only one.
#[derive(Clone, Copy, PartialEq)]
enum Length {
    Least,
    Exact,
}

/// Inlined with all that it calls, so that the true check has no trace of the faults.
#[inline(always)]
fn checked(table: &[u8], profile_length: usize, length: Length, slip: Slip) -> Result<u32, u32> {
    if table.len() < BLOCK {
        return Err(0);
    }
    let head = &table[..BLOCK];
    let count = count_of(head, table.len(), slip);
    let fits = match length {
        Length::Least => is_long_enough(head, table.len(), count, slip),
        Length::Exact => table.len() as u64 == needed(count),
    };
    if !fits || !count_fits(count, slip) || !header_is_sound(head, slip) {
        return Err(0);
    }
    let networks = head[header::NETWORKS] as usize;
    let mut before: &[u8] = &[];
    let mut sets = Sets::default();
    let mut last_bad = None;
    for (number, block) in (1..=count).zip(table.chunks_exact(BLOCK).skip(1)) {
        let sound = record_is_sound(block, number, networks, profile_length, slip);
        let alike = is_like_header(table, block, slip);
        let public = Record(block).public();
        let in_order = rises(before, public, slip);
        let agreed = if sound { sets.agree(number, Record(block), slip) } else { Ok(()) };
        if !sound || !alike || !in_order || agreed.is_err() {
            let blamed = match (slip.0, agreed) {
                (Some(Fault::EarlierBlockBlamed), _) if sound && alike && !in_order => number - 1,
                (Some(_), _) if !alike => mixing_blames(head, block, number, slip),
                (_, Err(of_set)) if sound && alike && in_order => of_set,
                _ => number,
            };
            if !slip.is(Fault::LastBadBlockTold) {
                return Err(blamed);
            }
            last_bad = Some(blamed);
        }
        before = public;
    }
    if slip.0.is_some() && length == Length::Least && last_bad.is_none() {
        last_bad = bad_past(table, count, networks, profile_length, sets, slip);
    }
    last_bad.map_or(Ok(count), Err)
}

/// The first bad block past the count, which only a faulty program looks for.
#[inline(never)]
fn bad_past<'a>(
    area: &'a [u8],
    count: u32,
    networks: usize,
    profile_length: usize,
    mut sets: Sets<'a>,
    slip: Slip,
) -> Option<u32> {
    let blocks = area.chunks_exact(BLOCK);
    if slip.is(Fault::LastPieceZero) {
        return (!zero(blocks.remainder())).then_some(0);
    }
    let sound = |block, number, slip| record_is_sound(block, number, networks, profile_length, slip);
    let mut past = (0..).zip(blocks).skip(count as usize + 1);
    let bad = past.find(|(number, block)| match slip.0 {
        Some(Fault::BlocksPastCountSummed) => sum(block) != 0,
        Some(Fault::BlocksPastCountZero) => !zero(block),
        Some(Fault::StaleIssueMixes) => [1, 2].contains(&block[0]) && !is_like_header(area, block, slip),
        Some(Fault::StaleRecordsChecked) => block[0] == 2 && !sound(block, *number, slip),
        Some(Fault::StaleRecordsMustAgree) => {
            sound(block, word_at(block, 4), slip) && sets.agree(*number, Record(block), slip).is_err()
        }
        _ => false,
    });
    bad.map(|(number, _)| number)
}

#[inline(always)]
fn count_of(head: &[u8], length: usize, slip: Slip) -> u32 {
    let count = word_at(head, header::COUNT);
    match slip.0 {
        Some(Fault::PrefixTaken) if length % BLOCK == 0 => count.min((length / BLOCK - 1) as u32),
        Some(Fault::CountIn16Bits) => count & 0xFFFF,
        _ => count,
    }
}

fn needed(count: u32) -> u64 {
    BLOCK as u64 * (u64::from(count) + 1)
}

#[inline(always)]
fn count_fits(count: u32, slip: Slip) -> bool {
    match slip.0 {
        Some(Fault::CountNotLimited) => true,
        Some(Fault::MostRecordsRefused) => count < MOST_RECORDS,
        _ => count <= MOST_RECORDS,
    }
}

/// An area holds the table; it may be longer.
#[inline(always)]
fn is_long_enough(head: &[u8], length: usize, count: u32, slip: Slip) -> bool {
    let (length, block, needed) = (length as u64, BLOCK as u64, needed(count));
    match slip.0 {
        Some(Fault::LongerAreaRefused | Fault::LongerAreaNotChecked) => length == needed,
        Some(Fault::LongerAreaOfEdition1Refused) if head[EDITION] == EDITION_1 => length == needed,
        Some(Fault::LongerAreaOfEdition2Refused) if head[EDITION] == EDITION_2 => length == needed,
        Some(Fault::LastPieceRefused) => length >= needed && length % block == 0,
        Some(Fault::LastPieceAloneTaken) => length / block == needed / block,
        Some(Fault::LongAreaRefused) => length >= needed && length / block <= u64::from(MOST_RECORDS) + 1,
        Some(Fault::BlockPastTableNeeded) => length >= needed + block,
        Some(Fault::BlockTooFewTaken) => length + block >= needed,
        Some(Fault::CutLastRecordTaken) => length + block > needed,
        _ => length >= needed,
    }
}

#[inline(always)]
fn header_is_sound(block: &[u8], slip: Slip) -> bool {
    (sum(block) == 0 || slip.is(Fault::HeaderSumNotAsked))
        && (block[0] == 1 || slip.is(Fault::HeaderKindNotAsked))
        && (is_an_edition(block, slip) || slip.is(Fault::HeaderEditionNotAsked))
        && (zero(&block[2..4]) || slip.is(Fault::HeaderBytes2And3NotAsked))
        && (word_at(block, 4) == 0 || slip.is(Fault::HeaderNumberNotAsked))
        && (block[header::KEEP] <= 1 || slip.is(Fault::KeepNotLimited))
        && name_fits(block, header::HOST_LENGTH, header::HOST, 1, LONGEST_HOST, slip)
        && name_fits(block, header::REALM_LENGTH, header::REALM, 1, LONGEST_HOST, slip)
        && networks_are_sound(block, slip)
        && header_rest_is_zero(block, slip)
}

/// A length within its bounds, and the field's unused places zero.
#[inline(always)]
fn name_fits(block: &[u8], length_at: usize, at: usize, least: usize, most: usize, slip: Slip) -> bool {
    let length = block[length_at] as usize;
    let unused = block[at..at + most].get(length..).unwrap_or(&[]);
    let fits = match slip.0 {
        Some(Fault::EmptyNameTaken) => length <= most,
        Some(Fault::LongerNameTaken) => least <= length && length <= most + 1,
        Some(Fault::LongestNameRefused) => least <= length && length < most,
        _ => least <= length && length <= most,
    };
    fits && (zero(unused) || slip.is(Fault::NameTailNotAsked))
}

#[inline(always)]
fn networks_are_sound(block: &[u8], slip: Slip) -> bool {
    let used = block[header::NETWORKS] as usize;
    let few = match slip.0 {
        Some(Fault::NineNetworksTaken) => used <= MOST_NETWORKS + 1,
        Some(Fault::MostNetworksRefused) => used < MOST_NETWORKS,
        _ => used <= MOST_NETWORKS,
    };
    if !few {
        return false;
    }
    for n in 0..MOST_NETWORKS {
        let place = &block[header::NETWORK_PLACES + n * NETWORK_PLACE..][..NETWORK_PLACE];
        let fits =
            if n < used { network_fits(place, slip) } else { zero(place) || slip.is(Fault::UnusedNetworkNotAsked) };
        if !fits {
            return false;
        }
    }
    for n in 1..used.min(MOST_NETWORKS) {
        for earlier in 0..n {
            if Header(block).network(earlier) == Header(block).network(n) && !slip.is(Fault::AlikeNetworksTaken) {
                return false;
            }
        }
    }
    true
}

#[inline(always)]
fn network_fits(place: &[u8], slip: Slip) -> bool {
    let most = if slip.is(Fault::LongestNetworkRefused) { NETWORK_PLACE - 2 } else { NETWORK_PLACE - 1 };
    let length = place[0] as usize;
    1 <= length && length <= most && (zero(&place[1 + length..]) || slip.is(Fault::NetworkTailNotAsked))
}

#[inline(always)]
fn record_is_sound(block: &[u8], number: u32, networks: usize, profile_length: usize, slip: Slip) -> bool {
    let this = Record(block);
    let state = block[record::STATE];
    let bits = block[record::BITS];
    (sum(block) == 0 || slip.is(Fault::RecordSumNotAsked))
        && (block[0] == 2 || slip.is(Fault::RecordKindNotAsked))
        && (is_an_edition(block, slip) || slip.is(Fault::RecordEditionNotAsked))
        && (zero(&block[2..4]) || slip.is(Fault::RecordBytes2And3NotAsked))
        && number_fits(word_at(block, 4), number, slip)
        && (state <= UNREGISTERED || slip.is(Fault::StateNotLimited))
        && (bits <= PENDING | BARRED | UNREGISTERED_SERVICES || slip.is(Fault::OtherBitsTaken))
        && (block[record::ROAMING] as u32 >> networks == 0 || slip.is(Fault::RoamingPastLastTaken))
        && capabilities_fit(block, record::MANDATORY_COUNT, record::MANDATORY, slip)
        && capabilities_fit(block, record::OPTIONAL_COUNT, record::OPTIONAL, slip)
        && name_fits(block, record::PUBLIC_LENGTH, record::PUBLIC, 1, LONGEST_IDENTITY, slip)
        && name_fits(block, record::PRIVATE_LENGTH, record::PRIVATE, 1, LONGEST_IDENTITY, slip)
        && name_fits(block, record::SERVER_LENGTH, record::SERVER, 0, LONGEST_SERVER_NAME, slip)
        && server_name_fits_state(state, bits & PENDING != 0, !this.server_name().is_empty(), slip)
        && profile_part_fits(this, profile_length, slip)
        && record_rest_is_zero(block, slip)
}

#[inline(always)]
fn number_fits(told: u32, number: u32, slip: Slip) -> bool {
    match slip.0 {
        Some(Fault::RecordNumberNotAsked) => true,
        Some(Fault::RecordNumberIn8Bits) => told as u8 == number as u8,
        _ => told == number,
    }
}

#[inline(always)]
fn capabilities_fit(block: &[u8], count_at: usize, at: usize, slip: Slip) -> bool {
    let count = block[count_at] as usize;
    let unused = block[at..at + 4 * MOST_CAPABILITIES].get(4 * count..).unwrap_or(&[]);
    let few = match slip.0 {
        Some(Fault::FiveCapabilitiesTaken) => count <= MOST_CAPABILITIES + 1,
        Some(Fault::MostCapabilitiesRefused) => count < MOST_CAPABILITIES,
        _ => count <= MOST_CAPABILITIES,
    };
    few && (zero(unused) || slip.is(Fault::UnusedCapabilityNotAsked))
}

#[inline(always)]
fn server_name_fits_state(state: u8, pending: bool, stored: bool, slip: Slip) -> bool {
    match state {
        NOT_REGISTERED => stored == pending || slip.is(Fault::PendingNameNotAsked),
        UNREGISTERED if slip.is(Fault::State2NameNotAsked) => true,
        _ => stored || slip.is(Fault::StateNameNotAsked),
    }
}

/// As numbers, without a wrap.
#[inline(always)]
fn profile_part_fits(this: Record, profile_length: usize, slip: Slip) -> bool {
    let start = this.profile_start() as u64;
    let length = this.profile_length() as u64;
    let end = match slip.0 {
        Some(Fault::ProfileEndWraps) => (start + length) & 0xFFFF_FFFF,
        Some(Fault::ProfileEndOffByOne) => start + length + 1,
        Some(Fault::EmptyPartAnywhere) if length == 0 => 0,
        Some(Fault::PartStartIn16Bits) => (start & 0xFFFF) + length,
        _ => start + length,
    };
    let short = match slip.0 {
        Some(Fault::PartNotLimited) => true,
        Some(Fault::LongestPartRefused) => length < LONGEST_PROFILE as u64,
        _ => length <= LONGEST_PROFILE as u64,
    };
    short && end <= profile_length as u64
}

/// Strictly greater: unsigned bytes over the true lengths, a prefix first.
#[inline(always)]
fn rises(before: &[u8], public: &[u8], slip: Slip) -> bool {
    match slip.0 {
        Some(Fault::EqualIdentitiesTaken) => before <= public,
        Some(Fault::OrderNotAsked) => true,
        Some(Fault::OrderSigned) => before.iter().map(|byte| *byte as i8).lt(public.iter().map(|byte| *byte as i8)),
        Some(Fault::ShorterIdentityFirst) => (before.len(), before) < (public.len(), public),
        _ => before < public,
    }
}
