//! A table as its maker thinks of it, and its bytes.

use crate::block::{mend, put_word, BLOCK};
use crate::table::{self, header, record, Record, Table, EDITION, EDITION_1, EDITION_2, ISSUE, NETWORK_PLACE};

#[derive(Clone, Debug)]
pub struct TableModel {
    /// The issue number of edition 2; none of edition 1.
    pub issue: Option<u32>,
    pub keep: bool,
    pub host: Vec<u8>,
    pub realm: Vec<u8>,
    pub networks: Vec<Vec<u8>>,
    /// In the order of their public identities.
    pub records: Vec<RecordModel>,
}

#[derive(Clone, Debug, Default)]
pub struct RecordModel {
    pub state: u8,
    pub bits: u8,
    pub roaming: u8,
    pub mandatory: Vec<u32>,
    pub optional: Vec<u32>,
    pub public: Vec<u8>,
    pub private: Vec<u8>,
    pub server_name: Vec<u8>,
    pub profile_start: u32,
    pub profile_length: u16,
    /// 0 for none, as all are in edition 1.
    pub set: u16,
}

impl TableModel {
    /// The table of document 01's examples, without records.
    pub fn of_the_isle() -> TableModel {
        TableModel {
            issue: None,
            keep: false,
            host: b"hss.isle".to_vec(),
            realm: b"isle".to_vec(),
            networks: vec![],
            records: vec![],
        }
    }

    /// The model of a sound table.
    pub fn of(table: Table) -> TableModel {
        let header = table.header();
        TableModel {
            issue: header.issue(),
            keep: header.keep(),
            host: header.host().to_vec(),
            realm: header.realm().to_vec(),
            networks: (0..header.networks()).map(|n| header.network(n).to_vec()).collect(),
            records: table.records().map(|(_, record)| RecordModel::of(record)).collect(),
        }
    }

    pub fn encode(&self) -> Vec<u8> {
        let mut bytes = vec![0; BLOCK * (self.records.len() + 1)];
        self.encode_header(&mut bytes[..BLOCK]);
        for (index, record) in self.records.iter().enumerate() {
            record.encode(&mut bytes[BLOCK * (index + 1)..][..BLOCK], index as u32 + 1, self.issue);
        }
        bytes
    }

    fn encode_header(&self, block: &mut [u8]) {
        block[0] = 1;
        put_edition(block, self.issue);
        put_word(block, header::COUNT, self.records.len() as u32);
        block[header::KEEP] = self.keep as u8;
        block[header::NETWORKS] = self.networks.len() as u8;
        put_name(block, header::HOST_LENGTH, header::HOST, &self.host);
        put_name(block, header::REALM_LENGTH, header::REALM, &self.realm);
        for (n, name) in self.networks.iter().enumerate() {
            let place = header::NETWORK_PLACES + n * NETWORK_PLACE;
            put_name(block, place, place + 1, name);
        }
        mend(block);
    }
}

impl RecordModel {
    fn of(record: Record) -> RecordModel {
        RecordModel {
            state: record.state(),
            bits: record.0[record::BITS],
            roaming: record.0[record::ROAMING],
            mandatory: record.mandatory(),
            optional: record.optional(),
            public: record.public().to_vec(),
            private: record.private().to_vec(),
            server_name: record.server_name().to_vec(),
            profile_start: record.profile_start() as u32,
            profile_length: record.profile_length() as u16,
            set: record.set(),
        }
    }

    pub fn has(&self, bit: u8) -> bool {
        self.bits & bit != 0
    }

    pub fn is_pending(&self) -> bool {
        self.has(table::PENDING)
    }

    fn encode(&self, block: &mut [u8], number: u32, issue: Option<u32>) {
        block[0] = 2;
        put_edition(block, issue);
        put_word(block, 4, number);
        block[record::STATE] = self.state;
        block[record::BITS] = self.bits;
        block[record::ROAMING] = self.roaming;
        block[record::MANDATORY_COUNT] = self.mandatory.len() as u8;
        block[record::OPTIONAL_COUNT] = self.optional.len() as u8;
        put_name(block, record::PUBLIC_LENGTH, record::PUBLIC, &self.public);
        put_name(block, record::PRIVATE_LENGTH, record::PRIVATE, &self.private);
        put_name(block, record::SERVER_LENGTH, record::SERVER, &self.server_name);
        for (n, capability) in self.mandatory.iter().enumerate() {
            put_word(block, record::MANDATORY + 4 * n, *capability);
        }
        for (n, capability) in self.optional.iter().enumerate() {
            put_word(block, record::OPTIONAL + 4 * n, *capability);
        }
        put_word(block, record::PROFILE_START, self.profile_start);
        block[record::PROFILE_LENGTH..record::SET].copy_from_slice(&self.profile_length.to_be_bytes());
        block[record::SET..ISSUE].copy_from_slice(&self.set.to_be_bytes());
        mend(block);
    }
}

fn put_edition(block: &mut [u8], issue: Option<u32>) {
    block[EDITION] = if issue.is_some() { EDITION_2 } else { EDITION_1 };
    put_word(block, ISSUE, issue.unwrap_or(0));
}

fn put_name(block: &mut [u8], length_at: usize, at: usize, name: &[u8]) {
    block[length_at] = name.len() as u8;
    block[at..at + name.len()].copy_from_slice(name);
}
