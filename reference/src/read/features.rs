//! What 628 holds, and which 628s of a request pass (a) to (h).

use super::kind::kind_of;
use crate::block::word_at;
use crate::kinds::{Command, Kind, FEATURE_LIST, FEATURE_LIST_ID, VENDOR, VENDOR_ID};
use crate::message::{Avp, Message, Received, HEADER, M};
use crate::slip::{Fault, Slip};

/// What a 628 asks for: bits of a vendor's list.
#[derive(Clone, Copy, PartialEq, Eq, Debug)]
pub struct Features {
    pub vendor: u32,
    pub list: u32,
    pub bits: u32,
}

/// The flag P of an AVP, which is free.
const PROTECTED: u8 = 0x20;

/// 628: one Vendor-Id without V, one Feature-List-ID and one Feature-List of vendor 10415, each of 4 bytes, in any order, and no other; none
/// if it is not so. The values are not judged.
pub fn features(members: Received, slip: Slip) -> Option<Features> {
    // Of the three in this order.
    let mut found: [Vec<u32>; 3] = Default::default();
    let mut rest = members;
    while !rest.is_empty() {
        let (member, after) = match rest.first(slip) {
            Ok(read) => read,
            Err(_) if slip.is(Fault::FeatureTailTaken) && rest.bytes.len() < 8 => break,
            Err(_) => return None,
        };
        rest = after;
        if !has_good_flags(member, slip) {
            return None;
        }
        let which = match (which(member, slip), is_taken_beside(member, slip)) {
            (Some(which), _) => which,
            (None, true) => continue,
            (None, false) => return None,
        };
        if member.data.len() != 4 && !(slip.is(Fault::LongerFeatureMembersTaken) && member.data.len() > 4) {
            return None;
        }
        if slip.is(Fault::FeaturesInOrder) && found[which..].iter().any(|it| !it.is_empty()) {
            return None;
        }
        found[which].push(word_at(member.data, 0));
    }
    let is_there = |which: usize| {
        let count = found[which].len();
        let needed = match slip.0 {
            Some(Fault::FeatureVendorNotNeeded) => which != 0,
            Some(Fault::FeatureListIdNotNeeded) => which != 1,
            Some(Fault::FeatureListNotNeeded) => which != 2,
            Some(Fault::EmptyFeaturesTaken) => !found.iter().all(Vec::is_empty),
            _ => true,
        };
        let again = match slip.0 {
            Some(Fault::SecondFeatureVendorTaken) => which == 0,
            Some(Fault::SecondFeatureListIdTaken) => which == 1,
            Some(Fault::SecondFeatureListTaken) => which == 2,
            _ => false,
        };
        (count > 0 || !needed) && (count < 2 || again)
    };
    let value = |which: usize, absent| found[which].first().copied().unwrap_or(absent);
    let features = Features { vendor: value(0, VENDOR), list: value(1, 1), bits: value(2, 0) };
    let judged = match slip.0 {
        Some(Fault::FeatureVendorIsContent) => features.vendor == VENDOR,
        Some(Fault::FeatureListIdIsContent) => features.list == 1,
        _ => true,
    };
    ((0..3).all(is_there) && judged).then_some(features)
}

/// M and P are free.
fn has_good_flags(member: Avp, slip: Slip) -> bool {
    let reserved = member.has_reserved_flags() && !slip.is(Fault::FeatureReservedFlagsTaken);
    let besides = match slip.0 {
        Some(Fault::FeatureMembersMustBeMarked) => member.flags & M == 0,
        Some(Fault::FeatureMembersMustBeUnmarked) => member.vendor.is_some() && member.flags & M != 0,
        Some(Fault::FeaturePFlagReserved) => member.flags & PROTECTED != 0,
        _ => false,
    };
    !reserved && !besides
}

/// Which of the three a member is.
fn which(member: Avp, slip: Slip) -> Option<usize> {
    let of_base = match slip.0 {
        Some(Fault::FeatureVendorWithV) => matches!(member.vendor, None | Some(VENDOR)),
        _ => member.vendor.is_none(),
    };
    let of_vendor = match slip.0 {
        Some(Fault::FeatureMembersWithoutVendor) => matches!(member.vendor, None | Some(VENDOR)),
        Some(Fault::FeatureMembersOfAnyVendor) => member.vendor.is_some(),
        _ => member.vendor == Some(VENDOR),
    };
    match if slip.is(Fault::FeatureCodesIn16Bits) { member.code & 0xFFFF } else { member.code } {
        VENDOR_ID if of_base => Some(0),
        FEATURE_LIST_ID if of_vendor => Some(1),
        FEATURE_LIST if of_vendor => Some(2),
        _ => None,
    }
}

/// Whether a member that is none of the three is overlooked.
fn is_taken_beside(member: Avp, slip: Slip) -> bool {
    match slip.0 {
        Some(Fault::OtherFeatureMembersTaken) => true,
        Some(Fault::UnmarkedFeatureMembersTaken) => member.flags & M == 0,
        _ => false,
    }
}

/// The 628s before the first length fault, whatever else is wrong with the request, that themselves pass (a) to (h). One that is the first
/// AVP fails (b).
pub fn features_of<'a>(message: Message<'a>, slip: Slip) -> Vec<(Avp<'a>, Features)> {
    let command = Command::of(message.command()).unwrap_or(Command::LocationInfo);
    let all = message.avps().sound(slip).into_iter();
    let known = all.filter(|avp| kind_of(*avp, command, slip) == Some(Kind::SupportedFeatures));
    let passing = known.filter(|avp| avp.at != HEADER && !avp.has_reserved_flags());
    passing.filter_map(|avp| features(avp.members(), slip).map(|features| (avp, features))).collect()
}
