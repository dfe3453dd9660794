//! The hypotheses of document 02's request 9, asked of two calls from their bytes alone: how they were made does not count.

use std::collections::BTreeSet;

use crate::cases::{Case, Slice};
use crate::kinds::{Command, Dialect};
use crate::message::Message;
use crate::read::fault_of;
use crate::slip::Slip;
use crate::stated::Stated;
use crate::table::check;

#[derive(Clone, Copy, PartialEq, Eq, PartialOrd, Ord, Debug)]
pub enum Hypothesis {
    /// The request is the same.
    Request,
    /// It is no MAR.
    Command,
    /// The same is stated of the peer and of the server.
    Stated,
    /// Both tables are sound.
    Sound,
    /// The headers have the same edition.
    Edition,
    /// And the same in all other bytes but count, issue and check word.
    Header,
    /// For each public identity in the request both tables have none or the same record.
    Public,
    /// For each private identity, of the request or of such a record, the same list of records.
    Private,
    /// These records show the same profile bytes.
    Profile,
}

/// Bytes from one place to before another.
type Part = (usize, usize);

const EDITION: Part = (1, 2);
const COUNT: Part = (8, 12);
const NUMBER: Part = (4, 8);
const START: Part = (400, 404);
const ISSUE: Part = (408, 412);
const CHECK: Part = (508, 512);

/// A block without these parts.
fn without(block: &[u8], parts: &[Part]) -> Vec<u8> {
    let mut block = block.to_vec();
    parts.iter().for_each(|(from, to)| block[*from..*to].fill(0));
    block
}

/// A record: all of it but block number, profile start, issue and check word, and the bytes that it shows.
#[derive(PartialEq)]
struct Shown {
    kept: Vec<u8>,
    bytes: Vec<u8>,
}

struct Files<'a> {
    table: &'a [u8],
    profile: &'a [u8],
}

impl<'a> Files<'a> {
    fn records(&self) -> impl Iterator<Item = &'a [u8]> {
        let count = u32::from_be_bytes([self.table[8], self.table[9], self.table[10], self.table[11]]);
        self.table.chunks_exact(512).skip(1).take(count as usize)
    }

    fn of_public(&self, name: &[u8]) -> Vec<&'a [u8]> {
        self.records().filter(|block| block[16..][..usize::from(block[13])] == *name).collect()
    }

    fn of_private(&self, name: &[u8]) -> Vec<&'a [u8]> {
        self.records().filter(|block| private(block) == name).collect()
    }

    /// The records without what may differ, with what they show.
    fn shown(&self, blocks: &[&[u8]]) -> Vec<Shown> {
        let number =
            |block: &[u8], at: usize| block[at..][..4].iter().fold(0, |sum, byte| sum << 8 | usize::from(*byte));
        let shown = |block: &&[u8]| {
            let (start, length) = (number(block, 400), number(block, 402) & 0xFFFF);
            let bytes = self.profile[start..][..length].to_vec();
            Shown { kept: without(block, &[NUMBER, START, ISSUE, CHECK, EDITION]), bytes }
        };
        blocks.iter().map(shown).collect()
    }
}

fn private(block: &[u8]) -> &[u8] {
    &block[144..][..usize::from(block[14])]
}

/// The hypotheses that do not hold of two calls of the decision.
pub fn broken(calls: &[Case; 2]) -> BTreeSet<Hypothesis> {
    let mut broken = BTreeSet::new();
    let [one, other] = calls;
    let request = one.held(Slice::Request);
    if request != other.held(Slice::Request) {
        broken.insert(Hypothesis::Request);
    }
    if Message(&request).command() == Command::MultimediaAuth.code() {
        broken.insert(Hypothesis::Command);
    }
    if one.stated() != other.stated() {
        broken.insert(Hypothesis::Stated);
    }
    let tables = [one.held(Slice::Table), other.held(Slice::Table)];
    let profiles = [one.held(Slice::Profile), other.held(Slice::Profile)];
    if (0..2).any(|side| check(&tables[side], profiles[side].len()).is_err()) {
        broken.insert(Hypothesis::Sound);
        return broken;
    }
    let [header, another] = [&tables[0][..512], &tables[1][..512]];
    if header[1] != another[1] {
        broken.insert(Hypothesis::Edition);
    }
    if without(header, &[EDITION, COUNT, ISSUE, CHECK]) != without(another, &[EDITION, COUNT, ISSUE, CHECK]) {
        broken.insert(Hypothesis::Header);
    }
    let sides = [0, 1].map(|side| Files { table: &tables[side], profile: &profiles[side] });
    let mut compare = |of: [Vec<&[u8]>; 2], hypothesis| {
        let [one, other] = [sides[0].shown(&of[0]), sides[1].shown(&of[1])];
        if one.len() != other.len() || one.iter().zip(&other).any(|(a, b)| a.kept != b.kept) {
            broken.insert(hypothesis);
        } else if one != other {
            broken.insert(Hypothesis::Profile);
        }
    };
    let (publics, mut privates) = match one.entry.dialect() {
        Dialect::Cx => asked(&request, [one.stated(), other.stated()]),
        Dialect::Sh => (asked_of_sh(&request, [one.stated(), other.stated()]), BTreeSet::new()),
    };
    for public in &publics {
        let found = [sides[0].of_public(public), sides[1].of_public(public)];
        privates.extend(found.iter().flatten().map(|block| private(block).to_vec()));
        compare(found, Hypothesis::Public);
    }
    for name in &privates {
        compare([sides[0].of_private(name), sides[1].of_private(name)], Hypothesis::Private);
    }
    broken
}

/// Whether a request has a fault in reading on both sides.
fn is_faulty(request: &[u8], dialect: Dialect, stated: [Stated; 2]) -> bool {
    stated.iter().all(|stated| fault_of(Message(request), dialect, *stated, Slip::NONE).is_some())
}

/// The public identity that a User-Data-Request names: what the 601 at the front of its 700 holds.
fn asked_of_sh(request: &[u8], stated: [Stated; 2]) -> BTreeSet<Vec<u8>> {
    if is_faulty(request, Dialect::Sh, stated) {
        return BTreeSet::new();
    }
    let number = |at: usize| u32::from_be_bytes([request[at], request[at + 1], request[at + 2], request[at + 3]]);
    let length = |at: usize| (number(at + 4) & 0xFF_FFFF) as usize;
    let mut at = 20;
    while !(number(at) == 700 && request[at + 4] & 0x80 != 0 && number(at + 8) == 10415) {
        at = (at + length(at) + 3) / 4 * 4;
    }
    [request[at + 24..at + 12 + length(at + 12)].to_vec()].into()
}

/// The public and the private identities that a request names: every 601 of vendor 10415, and every 1 but in a LIR. In one that has no fault
/// in reading these are those that the walk keeps; of one that has on both sides, none is looked up.
fn asked(request: &[u8], stated: [Stated; 2]) -> (BTreeSet<Vec<u8>>, BTreeSet<Vec<u8>>) {
    let (mut publics, mut privates) = (BTreeSet::new(), BTreeSet::new());
    if is_faulty(request, Dialect::Cx, stated) {
        return (publics, privates);
    }
    let mut at = 20;
    while at < request.len() {
        let number = |at: usize| u32::from_be_bytes([request[at], request[at + 1], request[at + 2], request[at + 3]]);
        let (code, has_vendor) = (number(at), request[at + 4] & 0x80 != 0);
        let end = at + (number(at + 4) & 0xFF_FFFF) as usize;
        if code == 601 && has_vendor && number(at + 8) == 10415 {
            publics.insert(request[at + 12..end].to_vec());
        }
        if code == 1 && !has_vendor && Message(request).command() != 302 {
            privates.insert(request[at + 8..end].to_vec());
        }
        at = (end + 3) / 4 * 4;
    }
    (publics, privates)
}
