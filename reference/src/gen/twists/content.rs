//! Twists of content: the kinds that are judged, 260 and its members, Proxy-Info.

use super::kinds::proxy_info;
use super::shape::{always, if_it_fits, one_avp, Twist};
use crate::gen::request::{application, member, RequestModel};
use crate::kinds::{Dialect, Kind, AUTH_APPLICATION_ID, VENDOR, VENDOR_ID};
use crate::message::{M, V};
use crate::rng::Rng;

pub const TWISTS: &[Twist] = &[
    if_it_fits("a 4-byte kind of another length", 6, |rng, r| {
        let at = some_of(rng, r, Kind::is_four_bytes)?;
        let length = *rng.pick(&[0, 1, 2, 3, 5, 7, 8, 12]);
        r.pieces[at].data.resize(length, 0);
        Some(())
    }),
    if_it_fits("a 4-byte kind of another value", 12, |rng, r| {
        let at = some_of(rng, r, Kind::is_four_bytes)?;
        let value = *rng.pick(&[0, 1, 2, 3, 11, 12, 256, 257, 1 << 24, 1 << 24 | 1, 0xFFFF_FFFF]);
        r.pieces[at].data = u32::to_be_bytes(value).to_vec();
        Some(())
    }),
    if_it_fits("260: its members", 14, |rng, r| {
        let at = r.place(Kind::VendorSpecificApplicationId)?;
        r.pieces[at].data = broken_application(rng, r.dialect);
        Some(())
    }),
    always("Proxy-Infos", 4, |rng, r| {
        for _ in 0..rng.between(1, 4) {
            let piece = proxy_info(rng);
            r.insert(rng, piece);
        }
    }),
    always("Proxy-Info with reserved flags", 4, |rng, r| {
        let mut piece = proxy_info(rng);
        piece.flags |= 1 << rng.below(5);
        r.insert(rng, piece);
    }),
    always("284 with V", 2, |rng, r| {
        let mut piece = proxy_info(rng);
        piece.flags = V | if rng.coin() { M } else { 0 };
        piece.vendor = *rng.pick(&[0, VENDOR]);
        r.insert(rng, piece);
    }),
    always("Proxy-Info at its length's fault", 2, |rng, r| {
        for _ in 0..2 {
            let piece = proxy_info(rng);
            r.insert(rng, piece);
        }
        if let Some(at) = r.place(Kind::ProxyInfo) {
            r.pieces[at].told_length = Some(rng.below(8) as u32);
        }
    }),
    one_avp("any content", 3, |rng, r, at| {
        let length = rng.below(40);
        r.pieces[at].data = rng.bytes(length);
    }),
];

/// Of what Cx alone has.
pub const OF_CX: &[Twist] = &[if_it_fits("Server-Name of another length", 5, |rng, r| {
    let at = r.place(Kind::ServerName)?;
    let length = *rng.pick(&[0, 1, 95, 96, 97, 98, 200, 352]);
    r.pieces[at].data.resize(length, b's');
    Some(())
})];

fn some_of(rng: &mut Rng, request: &RequestModel, wanted: fn(Kind) -> bool) -> Option<usize> {
    let places: Vec<usize> = request
        .dialect
        .kinds()
        .into_iter()
        .filter(|kind| wanted(*kind))
        .filter_map(|kind| request.place(kind))
        .collect();
    (!places.is_empty()).then(|| *rng.pick(&places))
}

/// 260 broken in one way, or in a way that only looks so.
fn broken_application(rng: &mut Rng, dialect: Dialect) -> Vec<u8> {
    let own = dialect.application();
    match rng.below(22) {
        0..=10 => other_members(rng, own),
        11..=13 => member_with_v(rng, own),
        14 => member_with_reserved_flags(rng, own),
        15..=20 => other_bytes(rng, own),
        _ => application(rng, dialect),
    }
}

fn vendor() -> Vec<u8> {
    member(VENDOR_ID, M, VENDOR)
}

fn auth(own: u32) -> Vec<u8> {
    member(AUTH_APPLICATION_ID, M, own)
}

/// Members too few, too many, of another value or of another kind; each passes (a) and (c).
fn other_members(rng: &mut Rng, own: u32) -> Vec<u8> {
    let auth = || auth(own);
    match rng.below(11) {
        0 => vec![],
        1 => vendor(),
        2 => auth(),
        3 => [vendor(), vendor()].concat(),
        4 => [vendor(), auth(), auth()].concat(),
        5 => [auth(), vendor(), vendor()].concat(),
        6 => [vendor(), member(VENDOR_ID, M, *rng.pick(&[0, 50, VENDOR + 1])), auth()].concat(),
        7 => [member(VENDOR_ID, M, *rng.pick(&[0, 50])), auth()].concat(),
        8 => [vendor(), member(AUTH_APPLICATION_ID, M, *rng.pick(&[0, 1, own ^ 1, own ^ 1]))].concat(),
        9 => [vendor(), auth(), member(*rng.pick(&[259, 263, 1, 268]), M, own)].concat(),
        _ => [auth(), vendor().repeat(rng.between(2, 60))].concat(),
    }
}

/// Of length 12 or 16.
fn member_with_v(rng: &mut Rng, own: u32) -> Vec<u8> {
    let mut with_v = member(VENDOR_ID, V | M, VENDOR);
    if rng.coin() {
        with_v[7] = 16;
        with_v.splice(8..8, [0, 0, 0, 0]);
    }
    if rng.coin() {
        with_v[8..12].copy_from_slice(&VENDOR.to_be_bytes());
    }
    [vendor(), with_v, auth(own)].concat()
}

fn member_with_reserved_flags(rng: &mut Rng, own: u32) -> Vec<u8> {
    let flags = M | 1 << rng.below(5);
    match rng.coin() {
        true => [member(VENDOR_ID, flags, VENDOR), auth(own)].concat(),
        false => [vendor(), member(AUTH_APPLICATION_ID, flags, own)].concat(),
    }
}

/// Right members with bytes more, bytes less or other bytes.
fn other_bytes(rng: &mut Rng, own: u32) -> Vec<u8> {
    let mut data = if rng.coin() { [vendor(), auth(own)].concat() } else { [auth(own), vendor()].concat() };
    match rng.below(6) {
        0 => {
            let more = *rng.pick(&[1, 2, 3, 4, 7, 8]);
            data.extend(rng.bytes(more));
        }
        1 => data.truncate(24 - rng.between(1, 11)),
        2 | 3 => {
            // One member's length is another: the last one's past the end, or too small, or of 5 to 8 bytes.
            let at = if rng.coin() { 7 } else { 19 };
            data[at] = *rng.pick(&[0, 7, 8, 11, 13, 14, 16, 24, 25]);
            if rng.coin() {
                data.extend([0; 4]);
            }
        }
        4 => {
            // A member of 5 bytes whose padding is whole, cut or missing.
            data[19] = 13;
            let more = rng.between(1, 4);
            data.extend(vec![0; more]);
        }
        _ => {
            let at = rng.below(data.len());
            data[at] ^= 1 << rng.below(8);
        }
    }
    data
}
