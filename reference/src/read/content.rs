//! Rules (g) and (h): what an AVP of a named kind holds.

use super::features::features;
use super::groups::{members_have_sound_lengths, vendor_ids};
use super::peers::several_vendors;
use super::single::{identity, scheme};
use crate::block::word_at;
use crate::kinds::{Command, Kind};
use crate::message::{header_alone, Avp};
use crate::slip::{Fault, Slip};
use crate::stated::Stated;
use crate::table::LONGEST_SERVER_NAME;
use crate::verdict::{Failed, Finding, Why};

/// The value of a 4-byte kind; only a faulty program takes another length.
pub fn number(data: &[u8], slip: Slip) -> u32 {
    match data.len() {
        0..=3 => 0,
        _ if slip.is(Fault::ValuesInOneByte) => u32::from(data[3]),
        _ => word_at(data, 0),
    }
}

/// A Server-Name as it is used: cut, if it was taken though it is too long.
pub fn server_name(name: &[u8], slip: Slip) -> &[u8] {
    match slip.0 {
        Some(Fault::ServerName97Taken | Fault::ServerNameFreeInAuthentication) => {
            &name[..name.len().min(LONGEST_SERVER_NAME)]
        }
        _ => name,
    }
}

pub fn judge_content<'a>(
    avp: Avp<'a>,
    kind: Kind,
    command: Command,
    stated: Stated,
    slip: Slip,
) -> Result<(), Finding<'a>> {
    if kind.is_four_bytes() && avp.data.len() != 4 {
        return four_bytes_fault(avp, kind, stated, slip);
    }
    if kind == Kind::VendorSpecificApplicationId {
        several_vendors(avp, command, stated, slip)?;
    }
    if has_good_content(avp, kind, command, stated, slip) {
        return Ok(());
    }
    // Also for a fault in a group the place is that of the AVP at the top.
    let (place, why) = (avp.at, Why::Rule('h', kind.name()));
    match (slip.0, kind, avp.members().first(slip)) {
        (Some(Fault::FaultyMemberAlone), Kind::SipAuthDataItem, Ok((member, _)))
        | (Some(Fault::FaultyFeatureMemberAlone), Kind::SupportedFeatures, Ok((member, _))) => {
            Err(Finding { result: 5004, failed: Failed::Whole(member), place, why })
        }
        (Some(Fault::ItemLengthFaultTold), Kind::SipAuthDataItem, _)
        | (Some(Fault::FeatureLengthFaultTold), Kind::SupportedFeatures, _)
            if !members_have_sound_lengths(avp.members(), slip) =>
        {
            Err(Finding { result: 5014, failed: Failed::Header(header_alone(avp.header(), slip)), place, why })
        }
        _ => Err(Finding { result: 5004, failed: Failed::Whole(avp), place, why }),
    }
}

/// Rule (g).
fn four_bytes_fault<'a>(avp: Avp<'a>, kind: Kind, stated: Stated, slip: Slip) -> Result<(), Finding<'a>> {
    let (result, failed) = match slip.0 {
        Some(Fault::LongerFourBytesTaken) if avp.data.len() > 4 => return Ok(()),
        Some(Fault::NumberOfAnyLength) if kind == Kind::SipNumberAuthItems => return Ok(()),
        Some(Fault::FourBytesAreContent) => (5004, Failed::Whole(avp)),
        Some(Fault::FourBytesFailWhole) => (5014, Failed::Whole(avp)),
        Some(Fault::NewerLengthFaultFilled) if stated.is_newer() => {
            let mut filled = [avp.header(), &[0; 4]].concat();
            filled[5..8].copy_from_slice(&[0, 0, avp.header().len() as u8 + 4]);
            (5014, Failed::Header(filled))
        }
        _ => (5014, Failed::Header(header_alone(avp.header(), slip))),
    };
    Err(Finding { result, failed, place: avp.at, why: Why::Rule('g', kind.name()) })
}

/// Rule (h).
fn has_good_content(avp: Avp, kind: Kind, command: Command, stated: Stated, slip: Slip) -> bool {
    let value = || number(avp.data, slip);
    match kind {
        Kind::AuthSessionState => value() == 1 || slip.is(Fault::SessionStateNotAsked),
        Kind::UserAuthorizationType => value() <= 2 || slip.is(Fault::AuthorizationType3Taken),
        Kind::ServerAssignmentType => value() <= 11 || slip.is(Fault::AssignmentType12Taken),
        Kind::UserDataAlreadyAvailable => value() <= 1 || slip.is(Fault::Available2Taken),
        Kind::ServerName => match slip.0 {
            Some(Fault::EmptyServerNameTaken) => avp.data.len() <= LONGEST_SERVER_NAME,
            Some(Fault::ServerName96Refused) => (1..LONGEST_SERVER_NAME).contains(&avp.data.len()),
            Some(Fault::ServerName97Taken) => (1..=LONGEST_SERVER_NAME + 1).contains(&avp.data.len()),
            Some(Fault::ServerNameFreeInAuthentication) if command == Command::MultimediaAuth => true,
            _ => (1..=LONGEST_SERVER_NAME).contains(&avp.data.len()),
        },
        Kind::VendorSpecificApplicationId => vendor_ids(avp.members(), command.dialect(), slip).is_some(),
        Kind::SipNumberAuthItems => match slip.0 {
            Some(Fault::ZeroAskedIsContent) => value() != 0,
            Some(Fault::ManyAskedIsContent) => value() <= 16,
            _ => true,
        },
        Kind::SipAuthDataItem => scheme(avp.members(), slip).is_some(),
        Kind::UserIdentity => identity(avp.members(), slip).is_some(),
        Kind::DataReference => [11, 12].contains(&value()) || !slip.is(Fault::ReferenceIsContent),
        Kind::SupportedFeatures => match features(avp.members(), slip) {
            Some(asked) => asked.bits & !stated.features == 0 || !slip.is(Fault::FeatureBitsAreContent),
            None => false,
        },
        _ => true,
    }
}
