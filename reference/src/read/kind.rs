//! Of which known kind an AVP is.

use crate::kinds::{Command, Dialect, Kind, FEATURE_LIST, FEATURE_LIST_ID, VENDOR};
use crate::message::Avp;
use crate::slip::{Fault, Slip};

pub fn kind_of(avp: Avp, command: Command, slip: Slip) -> Option<Kind> {
    let dialect = command.dialect();
    let exactly = dialect.kind(avp.vendor, avp.code);
    match (slip.0, exactly) {
        (Some(Fault::UnknownByCodeAlone), _) => dialect.kinds().into_iter().find(|kind| kind.code() == avp.code),
        (Some(Fault::VendorZeroIsNone), _) => dialect.kind(avp.vendor.filter(|vendor| *vendor != 0), avp.code),
        (Some(Fault::CodeIn16Bits), _) => dialect.kind(avp.vendor, avp.code & 0xFFFF),
        (Some(Fault::AuthKindsUnknownElsewhere), Some(Kind::SipNumberAuthItems | Kind::SipAuthDataItem)) => {
            exactly.filter(|_| command == Command::MultimediaAuth)
        }
        (Some(Fault::ItemMembersKnown), None) => {
            let member = avp.vendor == Some(VENDOR) && matches!(avp.code, 608..=611 | 613 | 625 | 626);
            member.then(|| unnamed(command))
        }
        (Some(Fault::FeaturesUnknown), Some(Kind::SupportedFeatures)) => None,
        (Some(Fault::FeaturesUnknownInLocation), Some(Kind::SupportedFeatures)) => {
            exactly.filter(|_| command != Command::LocationInfo)
        }
        (Some(Fault::FeaturesKnownWithoutVendor), None) => {
            (avp.vendor.is_none() && avp.code == Kind::SupportedFeatures.code()).then_some(Kind::SupportedFeatures)
        }
        (Some(Fault::FeatureMembersKnown), None) => {
            let member = avp.vendor == Some(VENDOR) && matches!(avp.code, FEATURE_LIST_ID | FEATURE_LIST);
            member.then(|| unnamed(command))
        }
        (Some(_), _) if dialect == Dialect::Sh => in_sh(avp, exactly, command, slip),
        (Some(Fault::ShKindsKnownInCx), None) => {
            let of_sh = Dialect::Sh.kind(avp.vendor, avp.code);
            of_sh.map(|_| unnamed(command))
        }
        _ => exactly,
    }
}

/// A kind of Sh, as a faulty program knows it.
fn in_sh(avp: Avp, exactly: Option<Kind>, command: Command, slip: Slip) -> Option<Kind> {
    let of_cx = Kind::of(avp.vendor, avp.code);
    let is_one = match slip.0 {
        Some(Fault::CxKindsKnownInSh) => of_cx.is_some(),
        Some(Fault::IdentityKnownInSh) => of_cx == Some(Kind::PublicIdentity),
        Some(Fault::ServerNameKnownInSh) => of_cx == Some(Kind::ServerName),
        Some(Fault::AuthKindsKnownInSh) => matches!(of_cx, Some(Kind::SipNumberAuthItems | Kind::SipAuthDataItem)),
        Some(Fault::FeaturesUnknownInSh) if exactly == Some(Kind::SupportedFeatures) => return None,
        _ => false,
    };
    exactly.or_else(|| is_one.then(|| unnamed(command)))
}

/// A kind that the command does not name: what a faulty program takes for known is skipped as this is.
fn unnamed(command: Command) -> Kind {
    match command {
        Command::MultimediaAuth => Kind::UserAuthorizationType,
        Command::UserData => Kind::SupportedFeatures,
        _ => Kind::SipAuthDataItem,
    }
}
