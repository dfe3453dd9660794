//! The table's layout, and the rewriting of a record.

use crate::block::{mend, name, word_at, BLOCK};
use crate::slip::{Fault, Slip};

pub const MOST_RECORDS: u32 = 4096;

pub const PENDING: u8 = 1;
pub const BARRED: u8 = 2;
pub const UNREGISTERED_SERVICES: u8 = 4;

pub const NOT_REGISTERED: u8 = 0;
pub const REGISTERED: u8 = 1;
pub const UNREGISTERED: u8 = 2;

pub const EDITION_1: u8 = 1;
pub const EDITION_2: u8 = 2;

/// Offsets in every block: the edition, and the issue number, which edition 1 does not have, with the bytes behind it.
pub const EDITION: usize = 1;
pub const ISSUE: usize = 408;
pub const BEHIND_ISSUE: usize = 412;

pub const LONGEST_HOST: usize = 64;
pub const MOST_NETWORKS: usize = 8;
pub const NETWORK_PLACE: usize = 32;
pub const LONGEST_IDENTITY: usize = 128;
pub const LONGEST_SERVER_NAME: usize = 96;
pub const MOST_CAPABILITIES: usize = 4;
pub const LONGEST_PROFILE: usize = 4096;

/// Offsets in the header block.
pub mod header {
    pub const COUNT: usize = 8;
    pub const KEEP: usize = 12;
    pub const HOST_LENGTH: usize = 13;
    pub const REALM_LENGTH: usize = 14;
    pub const NETWORKS: usize = 15;
    pub const HOST: usize = 16;
    pub const REALM: usize = 80;
    pub const NETWORK_PLACES: usize = 144;
    pub const REST: usize = 400;
}

/// Offsets in a record block.
pub mod record {
    pub const STATE: usize = 8;
    pub const BITS: usize = 9;
    pub const ROAMING: usize = 10;
    pub const MANDATORY_COUNT: usize = 11;
    pub const OPTIONAL_COUNT: usize = 12;
    pub const PUBLIC_LENGTH: usize = 13;
    pub const PRIVATE_LENGTH: usize = 14;
    pub const SERVER_LENGTH: usize = 15;
    pub const PUBLIC: usize = 16;
    pub const PRIVATE: usize = 144;
    pub const SERVER: usize = 272;
    pub const MANDATORY: usize = 368;
    pub const OPTIONAL: usize = 384;
    pub const PROFILE_START: usize = 400;
    pub const PROFILE_LENGTH: usize = 404;
    /// Of edition 2; edition 1 names nothing from here on.
    pub const SET: usize = 406;
}

/// The words at `at`, as many as `count_at` says.
fn words(block: &[u8], count_at: usize, at: usize) -> Vec<u32> {
    (0..block[count_at] as usize).map(|n| word_at(block, at + 4 * n)).collect()
}

/// The header of a table that was found sound.
#[derive(Clone, Copy)]
pub struct Header<'a>(pub &'a [u8]);

impl<'a> Header<'a> {
    /// The issue number of edition 2; none of edition 1.
    pub fn issue(&self) -> Option<u32> {
        (self.0[EDITION] == EDITION_2).then(|| word_at(self.0, ISSUE))
    }

    pub fn keep(&self) -> bool {
        self.0[header::KEEP] == 1
    }

    pub fn host(&self) -> &'a [u8] {
        name(self.0, header::HOST_LENGTH, header::HOST)
    }

    pub fn realm(&self) -> &'a [u8] {
        name(self.0, header::REALM_LENGTH, header::REALM)
    }

    pub fn networks(&self) -> usize {
        self.0[header::NETWORKS] as usize
    }

    pub fn network(&self, n: usize) -> &'a [u8] {
        let place = header::NETWORK_PLACES + n * NETWORK_PLACE;
        name(self.0, place, place + 1)
    }
}

/// A record of a table that was found sound.
#[derive(Clone, Copy)]
pub struct Record<'a>(pub &'a [u8]);

impl<'a> Record<'a> {
    pub fn state(&self) -> u8 {
        self.0[record::STATE]
    }

    pub fn has(&self, bit: u8) -> bool {
        self.0[record::BITS] & bit != 0
    }

    pub fn roams_in(&self, network: usize) -> bool {
        u32::from(self.0[record::ROAMING]) >> network & 1 == 1
    }

    pub fn public(&self) -> &'a [u8] {
        name(self.0, record::PUBLIC_LENGTH, record::PUBLIC)
    }

    pub fn private(&self) -> &'a [u8] {
        name(self.0, record::PRIVATE_LENGTH, record::PRIVATE)
    }

    /// The stored server name; empty if there is none.
    pub fn server_name(&self) -> &'a [u8] {
        name(self.0, record::SERVER_LENGTH, record::SERVER)
    }

    pub fn mandatory(&self) -> Vec<u32> {
        words(self.0, record::MANDATORY_COUNT, record::MANDATORY)
    }

    pub fn optional(&self) -> Vec<u32> {
        words(self.0, record::OPTIONAL_COUNT, record::OPTIONAL)
    }

    pub fn profile_start(&self) -> usize {
        word_at(self.0, record::PROFILE_START) as usize
    }

    pub fn profile_length(&self) -> usize {
        usize::from(self.0[record::PROFILE_LENGTH]) << 8 | usize::from(self.0[record::PROFILE_LENGTH + 1])
    }

    /// The number of its implicit set; 0 for none, as in all of edition 1.
    pub fn set(&self) -> u16 {
        u16::from(self.0[record::SET]) << 8 | u16::from(self.0[record::SET + 1])
    }
}

/// A sound table, to be read.
#[derive(Clone, Copy)]
pub struct Table<'a>(pub &'a [u8]);

impl<'a> Table<'a> {
    pub fn header(&self) -> Header<'a> {
        Header(&self.0[..BLOCK])
    }

    /// The records in table order, each with its block number.
    pub fn records(&self) -> impl Iterator<Item = (usize, Record<'a>)> {
        let count = word_at(self.0, header::COUNT) as usize;
        self.0.chunks_exact(BLOCK).map(Record).enumerate().skip(1).take(count)
    }

    pub fn record(&self, block: usize) -> Record<'a> {
        Record(&self.0[block * BLOCK..][..BLOCK])
    }
}

/// What an effect leaves in a record.
#[derive(Clone, PartialEq, Debug)]
pub struct Rewriting {
    pub state: u8,
    pub pending: bool,
    /// The new server name, empty for none; `None` keeps the stored one.
    pub server_name: Option<Vec<u8>>,
}

/// Rewrites state, the pending bit, the server name's length and field and the check word, nothing else.
pub fn rewrite(block: &mut [u8], with: &Rewriting, slip: Slip) {
    block[record::STATE] = with.state;
    if !slip.is(Fault::PendingStays) {
        block[record::BITS] = block[record::BITS] & !PENDING | if with.pending { PENDING } else { 0 };
    }
    if let Some(name) = &with.server_name {
        block[record::SERVER_LENGTH] = name.len() as u8;
        let field = &mut block[record::SERVER..record::SERVER + LONGEST_SERVER_NAME];
        if !slip.is(Fault::OldNameTailStays) {
            field.fill(0);
        }
        field[..name.len()].copy_from_slice(name);
    }
    match slip.0 {
        Some(Fault::RewritingResetsEdition) => block[EDITION] = EDITION_1,
        Some(Fault::RewritingLosesSet) => block[record::SET..ISSUE].fill(0),
        Some(Fault::RewritingLosesIssue) => block[ISSUE..BEHIND_ISSUE].fill(0),
        _ => {}
    }
    if !slip.is(Fault::CheckWordStays) {
        mend(block);
    }
}
