//! What the answer to an authentication request carries: the identity, the number sent, and an item for each vector.

use super::avps::Avps;
use crate::kinds::{
    Kind, CONFIDENTIALITY_KEY, INTEGRITY_KEY, SCHEME, SIP_AUTHENTICATE, SIP_AUTHENTICATION_SCHEME, SIP_AUTHORIZATION,
    SIP_ITEM_NUMBER, VENDOR,
};
use crate::message::{padded, M};
use crate::slip::{Fault, Slip};
use crate::vectors::{vector, Vector};
use crate::verdict::{Authentication, Verdict};

/// Public-Identity, the number sent, and the items, behind the User-Name at `name_at`.
pub fn write(avps: &mut Avps, authentication: &Authentication, name_at: usize) {
    let slip = avps.slip;
    let number = match slip.0 {
        Some(Fault::AskedNumberTold) => authentication.asked,
        Some(Fault::UnusedNumberTold) => authentication.unused as u32,
        _ => authentication.vectors.len() as u32,
    };
    let first = avps.bytes.len();
    if !slip.is(Fault::IdentityLeftOut) {
        avps.own_kind(Kind::PublicIdentity, authentication.public);
    }
    let items_at = avps.bytes.len();
    if !slip.is(Fault::NumberLeftOut) {
        own(avps, Kind::SipNumberAuthItems, &number.to_be_bytes());
    }
    let number_ends = avps.bytes.len();
    for (n, vector) in authentication.vectors.iter().enumerate() {
        let data = item(*vector, n, authentication.vectors.len(), slip);
        let at = avps.bytes.len();
        own(avps, Kind::SipAuthDataItem, &data);
        if slip.is(Fault::ItemLengthWithoutPadding) {
            avps.bytes[at + 7] -= (padded(vector.xres().len()) - vector.xres().len()) as u8;
        }
    }
    match slip.0 {
        Some(Fault::ItemsBeforeNumber) => avps.bytes[items_at..].rotate_left(number_ends - items_at),
        Some(Fault::NumberBeforeIdentity) => avps.bytes[first..number_ends].rotate_left(items_at - first),
        Some(Fault::IdentityBeforeUserName) => avps.bytes[name_at..items_at].rotate_left(first - name_at),
        _ => {}
    }
}

/// 607 or 612.
fn own(avps: &mut Avps, kind: Kind, data: &[u8]) {
    let vendor = if avps.slip.is(Fault::ItemsWithoutVendor) { None } else { kind.vendor() };
    avps.own(vendor, kind.code(), data);
}

/// A faulty answer may lack the User-Name.
pub fn without_user_name(verdict: &Verdict, slip: Slip) -> bool {
    slip.is(Fault::UserNameLeftOut) && verdict.authentication.is_some()
}

/// What item `n`, from 0, of so many holds. The bytes are sent as stored.
fn item(vector: Vector, n: usize, count: usize, slip: Slip) -> Vec<u8> {
    let number = match slip.0 {
        Some(Fault::ItemsFromZero) => n,
        Some(Fault::ItemsAllFirst) => 1,
        Some(Fault::ItemsBackwards) => count - n,
        _ => n + 1,
    };
    let mut members: Vec<(u32, Vec<u8>)> = vec![
        (SIP_ITEM_NUMBER, (number as u32).to_be_bytes().to_vec()),
        (SIP_AUTHENTICATION_SCHEME, SCHEME.to_vec()),
        (SIP_AUTHENTICATE, authenticate(vector, slip)),
        (SIP_AUTHORIZATION, authorization(vector, slip)),
        (CONFIDENTIALITY_KEY, vector.confidentiality_key().to_vec()),
        (INTEGRITY_KEY, vector.integrity_key().to_vec()),
    ];
    match slip.0 {
        Some(Fault::SchemeBeforeItemNumber) => members.swap(0, 1),
        Some(Fault::SingleItemUnnumbered) if count == 1 => drop(members.remove(0)),
        Some(Fault::SchemeLeftOut) => drop(members.remove(1)),
        Some(Fault::KeysTurned) => (members[4].0, members[5].0) = (INTEGRITY_KEY, CONFIDENTIALITY_KEY),
        Some(Fault::KeysInOtherOrder) => members.swap(4, 5),
        Some(Fault::ConfidentialityKeyLeftOut) => drop(members.remove(4)),
        Some(Fault::KeysLeftOut) => members.truncate(4),
        _ => {}
    }
    let mut group = Avps::new(slip);
    for (code, data) in members {
        let vendor = if slip.is(Fault::ItemMembersWithoutVendor) { None } else { Some(VENDOR) };
        let at = group.bytes.len();
        group.own(vendor, code, &data);
        if slip.is(Fault::ItemMembersUnmarked) {
            group.bytes[at + 4] &= !M;
        }
        if slip.is(Fault::ItemMembersUnpadded) {
            let padding = (4 - data.len() % 4) % 4;
            group.bytes.truncate(group.bytes.len() - padding);
        }
    }
    group.bytes
}

fn authenticate(vector: Vector, slip: Slip) -> Vec<u8> {
    let stored = vector.rand_and_autn();
    match slip.0 {
        Some(Fault::RandAlone) => stored[..16].to_vec(),
        Some(Fault::AutnBeforeRand) => [&stored[16..], &stored[..16]].concat(),
        Some(Fault::AuthenticateInBase64) => base64(stored),
        _ => stored.to_vec(),
    }
}

/// The XRES, of its true length.
fn authorization(vector: Vector, slip: Slip) -> Vec<u8> {
    match slip.0 {
        Some(Fault::WholeXresField) => vector.0[vector::XRES..vector::CONFIDENTIALITY_KEY].to_vec(),
        Some(Fault::XresOf8) => vector.0[vector::XRES..vector::XRES + 8].to_vec(),
        Some(Fault::AuthorizationInBase64) => base64(vector.xres()),
        _ => vector.xres().to_vec(),
    }
}

/// As the draft wants it and document 02 does not.
fn base64(bytes: &[u8]) -> Vec<u8> {
    const DIGITS: &[u8; 64] = b"ABCDEFGHIJKLMNOPQRSTUVWXYZabcdefghijklmnopqrstuvwxyz0123456789+/";
    let mut text = Vec::new();
    for three in bytes.chunks(3) {
        let word = (0..3).fold(0, |word, n| word << 8 | three.get(n).map_or(0, |byte| u32::from(*byte)));
        for digit in 0..4 {
            let there = digit <= three.len();
            text.push(if there { DIGITS[(word >> (18 - 6 * digit) & 63) as usize] } else { b'=' });
        }
    }
    text
}
