//! What the peer's edition decides in reading: under RFC 6733, 260 holds one Vendor-Id alone.

use super::groups::vendor_ids;
use crate::kinds::{Command, Dialect, AUTH_APPLICATION_ID, VENDOR_ID};
use crate::message::{header_alone, Avp};
use crate::slip::{Fault, Slip};
use crate::stated::Stated;
use crate::verdict::{Failed, Finding, Why};

/// What the rule is about.
pub const SEVERAL: &str = "several Vendor-Ids";

/// B5009 with the whole 260, if it has more than one Vendor-Id and is otherwise as document 01 wants it.
pub fn several_vendors<'a>(avp: Avp<'a>, command: Command, stated: Stated, slip: Slip) -> Result<(), Finding<'a>> {
    if !applies(command, stated, slip) || !is_several(avp, command.dialect(), slip) {
        return Ok(());
    }
    let result = if slip.is(Fault::SeveralVendorsAreContent) { 5004 } else { 5009 };
    let second = || vendors_of(avp).into_iter().nth(1);
    let failed = match slip.0 {
        Some(Fault::SecondVendorFails) => second().map_or(Failed::Empty, Failed::Whole),
        Some(Fault::SeveralVendorsFailHeader) => Failed::Header(header_alone(avp.header(), slip)),
        Some(Fault::SeveralVendorsWithoutFailedAvp) => Failed::Absent,
        _ => Failed::Whole(avp),
    };
    Err(Finding { result, failed, place: avp.at, why: Why::Rule('h', SEVERAL) })
}

fn applies(command: Command, stated: Stated, slip: Slip) -> bool {
    match slip.0 {
        Some(Fault::SeveralVendorsTaken) => false,
        Some(Fault::SeveralVendorsRefusedByOlder) => true,
        Some(Fault::SeveralVendorsTakenInAuthentication) => stated.is_newer() && command != Command::MultimediaAuth,
        Some(Fault::SeveralVendorsTakenInAssignment) => stated.is_newer() && command != Command::ServerAssignment,
        Some(Fault::SeveralVendorsTakenInSh) => stated.is_newer() && command != Command::UserData,
        _ => stated.is_newer(),
    }
}

fn is_several(avp: Avp, dialect: Dialect, slip: Slip) -> bool {
    let counted = |slip: Slip| vendor_ids(avp.members(), dialect, slip);
    let (count, all) = (counted(slip), vendors_of(avp));
    let has_two = all.len() > 1;
    let members = avp.members().sound(Slip::NONE);
    let of = |code: u32| members.iter().filter(|member| member.vendor.is_none() && member.code == code).count();
    match slip.0 {
        Some(Fault::VendorsCountedAlone) => has_two,
        Some(Fault::OtherVendorsCounted) => counted(Slip::of(Fault::OtherVendorTaken)) > Some(1),
        Some(Fault::VendorsWithoutApplicationCounted) => counted(Slip::of(Fault::NoApplicationIdTaken)) > Some(1),
        Some(Fault::VendorsBesideOthersCounted) => counted(Slip::of(Fault::OtherMemberTaken)) > Some(1),
        Some(Fault::SecondApplicationIsTooOften) => {
            count > Some(1) || of(AUTH_APPLICATION_ID) > 1 && counted(Slip::of(Fault::TwoApplicationsTaken)).is_some()
        }
        Some(Fault::TwoVendorsAlone) => count == Some(2),
        Some(Fault::ThreeVendorsNeeded) => count > Some(2),
        Some(Fault::NeighbourVendorsAlone) => {
            count > Some(1) && members.windows(2).any(|two| two.iter().all(|member| member.code == VENDOR_ID))
        }
        Some(Fault::MarkedVendorsAlone) => count > Some(1) && avp.is_marked(),
        Some(Fault::UnlikeVendorsTaken) => count > Some(1) && all[1..].iter().any(|it| it.whole == all[0].whole),
        _ => count > Some(1),
    }
}

/// The Vendor-Ids before the first length fault.
pub fn vendors_of(avp: Avp<'_>) -> Vec<Avp<'_>> {
    let members = avp.members().sound(Slip::NONE);
    members.into_iter().filter(|member| member.vendor.is_none() && member.code == VENDOR_ID).collect()
}
