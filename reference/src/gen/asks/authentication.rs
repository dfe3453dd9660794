//! Right MARs: whom they are about, the scheme, how many vectors, and the server's name beside the stored one.

use super::people::{other_private, some_record, unknown_private, unknown_public};
use crate::gen::model::{RecordModel, TableModel};
use crate::gen::names;
use crate::gen::request::{single, Piece};
use crate::kinds::{Kind, SCHEME, SIP_AUTHENTICATION_SCHEME, VENDOR};
use crate::message::M;
use crate::rng::Rng;
use crate::table::LONGEST_SERVER_NAME;

pub fn multimedia_auth(rng: &mut Rng, table: &TableModel) -> Vec<Piece> {
    let record = some_record(rng, table);
    let public = if rng.once_in(16) { unknown_public(rng, &record) } else { record.public.clone() };
    let private = match rng.below(16) {
        0 => unknown_private(rng, &record.private),
        1 | 2 => other_private(rng, table, &record.private),
        _ => record.private.clone(),
    };
    let scheme = if rng.once_in(10) { other_scheme(rng) } else { SCHEME.to_vec() };
    let item = item(rng, scheme);
    let asked = number_asked(rng);
    let server_name = server_name(rng, &record);
    vec![
        Piece::of(rng, Kind::UserName, private),
        Piece::of(rng, Kind::PublicIdentity, public),
        Piece::of(rng, Kind::SipAuthDataItem, item),
        Piece::number(rng, Kind::SipNumberAuthItems, asked),
        Piece::of(rng, Kind::ServerName, server_name),
    ]
}

/// What 612 holds, rightly: one 608 with this scheme.
pub fn item(rng: &mut Rng, scheme: Vec<u8>) -> Vec<u8> {
    single(rng, SIP_AUTHENTICATION_SCHEME, scheme)
}

/// A 608, without what stands around it.
pub fn scheme(rng: &mut Rng, scheme: &[u8]) -> Piece {
    Piece::new(rng, Some(VENDOR), SIP_AUTHENTICATION_SCHEME, M, scheme.to_vec())
}

/// A scheme that is not served: other letters, more or fewer of them, none, or what real software sends.
pub fn other_scheme(rng: &mut Rng) -> Vec<u8> {
    let mut scheme = SCHEME.to_vec();
    match rng.below(10) {
        0 => scheme.make_ascii_lowercase(),
        1 => {
            let at = *rng.pick(&[0, 7, 8, 9, 10, 13]);
            scheme[at] ^= 0x20;
        }
        2 => scheme.truncate(rng.below(SCHEME.len())),
        3 => scheme.clear(),
        4 => scheme.push(*rng.pick(&[0, b' ', b'5'])),
        5 => scheme.resize(SCHEME.len() + rng.between(2, 20), 0),
        6 => scheme = names::alike(rng, SCHEME, SCHEME.len()),
        7 => {
            let sent =
                rng.pick(&["Digest-MD5", "Digest-AKAv2-MD5", "SIP Digest", "Unknown", "unknown", "NASS-Bundled"]);
            scheme = sent.as_bytes().to_vec();
        }
        _ => scheme = names::near(rng, SCHEME, 30),
    }
    scheme
}

/// Mostly few; 0, about 16, and numbers that are 0 or few in 8 or 16 bits or with a sign.
pub fn number_asked(rng: &mut Rng) -> u32 {
    match rng.below(12) {
        0 | 1 => 0,
        2..=4 => 1,
        5 => rng.between(2, 4) as u32,
        6 | 7 => rng.between(2, 20) as u32,
        8 => rng.between(15, 17) as u32,
        9 => *rng.pick(&[255, 256, 257, 65_535, 65_536, 65_537, 1 << 31, u32::MAX - 1]),
        10 => u32::MAX,
        _ => rng.word(),
    }
}

/// The stored name, one that begins it or begins with it, or another.
fn server_name(rng: &mut Rng, record: &RecordModel) -> Vec<u8> {
    let stored = &record.server_name;
    if stored.is_empty() || rng.once_in(3) {
        return names::any(rng, LONGEST_SERVER_NAME);
    }
    let mut name = stored.clone();
    match rng.below(5) {
        0 if name.len() > 1 => name.truncate(rng.between(1, name.len() - 1)),
        1 if name.len() < LONGEST_SERVER_NAME => {
            let more = rng.between(1, LONGEST_SERVER_NAME - name.len());
            let bytes = rng.bytes(more);
            name.extend(bytes);
        }
        _ => {}
    }
    name
}
