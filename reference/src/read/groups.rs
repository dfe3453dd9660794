//! What 260 holds.

use crate::block::word_at;
use crate::kinds::{Dialect, AUTH_APPLICATION_ID, VENDOR, VENDOR_ID};
use crate::message::Received;
use crate::slip::{Fault, Slip};

/// 260: how many Vendor-Ids of 10415 it holds, one or more, beside one Auth-Application-Id of the interface, in any order, and no other; none
/// if it is not so.
pub fn vendor_ids(members: Received, dialect: Dialect, slip: Slip) -> Option<usize> {
    let (mut vendors, mut applications) = (0, 0);
    let is_right = |application: u32| match (slip.0, dialect) {
        (Some(Fault::CxGroupTakenInSh), Dialect::Sh) => application == Dialect::Cx.application(),
        (Some(Fault::EitherGroupTakenInSh), Dialect::Sh) => {
            [Dialect::Cx, Dialect::Sh].map(Dialect::application).contains(&application)
        }
        (Some(Fault::ShGroupTakenInCx), Dialect::Cx) => {
            [Dialect::Cx, Dialect::Sh].map(Dialect::application).contains(&application)
        }
        _ => application == dialect.application(),
    };
    let mut rest = members;
    while !rest.is_empty() {
        let (member, after) = match rest.first(slip) {
            Ok(read) => read,
            Err(_) if slip.is(Fault::GroupTailTaken) && rest.bytes.len() < 8 => break,
            Err(_) => return None,
        };
        rest = after;
        if member.has_reserved_flags() && !slip.is(Fault::MemberReservedFlagsTaken) {
            return None;
        }
        if member.vendor.is_some() && !slip.is(Fault::MemberVendorTaken) {
            return None;
        }
        if member.data.len() != 4 {
            return None;
        }
        match (member.code, word_at(member.data, 0)) {
            (VENDOR_ID, VENDOR) if slip.is(Fault::GroupInOrder) && applications > 0 => return None,
            (VENDOR_ID, VENDOR) => vendors += 1,
            (VENDOR_ID, _) if slip.is(Fault::OtherVendorTaken) => vendors += 1,
            (VENDOR_ID, _) if slip.is(Fault::SecondVendorFree) && vendors > 0 => vendors += 1,
            (AUTH_APPLICATION_ID, application) if is_right(application) => applications += 1,
            (AUTH_APPLICATION_ID, _) if slip.is(Fault::OtherApplicationTaken) => applications += 1,
            (VENDOR_ID | AUTH_APPLICATION_ID, _) => return None,
            _ if slip.is(Fault::OtherMemberTaken) => {}
            _ => return None,
        }
    }
    let is_good = match slip.0 {
        Some(Fault::OneVendorIdOnly) => vendors == 1 && applications == 1,
        Some(Fault::NoVendorIdTaken) => applications == 1,
        Some(Fault::NoApplicationIdTaken) => vendors >= 1 && applications <= 1,
        Some(Fault::TwoApplicationsTaken) => vendors >= 1 && applications >= 1,
        _ => vendors >= 1 && applications == 1,
    };
    is_good.then_some(vendors)
}

/// Whether every member passes (a).
pub fn members_have_sound_lengths(members: Received, slip: Slip) -> bool {
    let mut rest = members;
    while !rest.is_empty() {
        match rest.first(slip) {
            Ok((_, after)) => rest = after,
            Err(_) => return false,
        }
    }
    true
}
