//! Requests whose 260 has several Vendor-Ids, or other faults beside them, from peers of either edition.

use super::call::right;
use crate::gen::made::Made;
use crate::gen::peers;
use crate::gen::request::member;
use crate::gen::twists;
use crate::kinds::{Dialect, Kind, AUTH_APPLICATION_ID, VENDOR, VENDOR_ID};
use crate::message::{M, V};
use crate::rng::Rng;

pub const NOTES: [&str; 3] =
    ["several Vendor-Ids alone", "several Vendor-Ids and a fault beside them", "several Vendor-Ids and a twist"];

pub fn case(rng: &mut Rng, dialect: Dialect) -> Made {
    let mut call = right(rng, dialect);
    let which = rng.below(NOTES.len());
    call.stated = peers::known(rng);
    let data = group(rng, dialect.application(), which == 1);
    if let Some(at) = call.request.place(Kind::VendorSpecificApplicationId) {
        call.request.pieces[at].data = data;
        // M of a known kind does not count.
        if rng.once_in(4) {
            call.request.pieces[at].flags &= !M;
        }
        if rng.once_in(12) {
            call.request.pieces[at].flags |= 1 << rng.below(5);
        }
        if rng.once_in(12) {
            let again = call.request.pieces[at].clone();
            call.request.insert(rng, again);
        }
    }
    if which == 2 {
        call.notes.push(twists::twist_once(rng, &mut call.request));
    }
    call.noted(NOTES[which]).finish(rng)
}

/// Two Vendor-Ids or more and the application, in any order; with a fault beside them if one is wanted.
fn group(rng: &mut Rng, own: u32, faulty: bool) -> Vec<u8> {
    let many = if rng.once_in(4) { rng.between(3, 5) } else { 2 };
    let mut members: Vec<Vec<u8>> = (0..many).map(|_| member(VENDOR_ID, flags(rng), VENDOR)).collect();
    let application = member(AUTH_APPLICATION_ID, flags(rng), own);
    if !faulty {
        members.push(application);
        rng.shuffle(&mut members);
        return members.concat();
    }
    match rng.below(7) {
        0 => {}
        1 => members.extend([application.clone(), application]),
        2 => members.extend([application, member(*rng.pick(&[259, 1, 268]), M, own)]),
        3 => members.extend([application, member(VENDOR_ID, M, *rng.pick(&[0, 50, VENDOR + 1]))]),
        4 => members.push(member(AUTH_APPLICATION_ID, M, own ^ 1)),
        5 => members.extend([application, member(VENDOR_ID, V | M, VENDOR)]),
        _ => members.extend([application, member(VENDOR_ID, M | 1 << rng.below(5), VENDOR)]),
    }
    if rng.coin() {
        rng.shuffle(&mut members);
    }
    members.concat()
}

/// M and P are free.
fn flags(rng: &mut Rng) -> u8 {
    *rng.pick(&[M, M, 0, 0x20, 0x60])
}
