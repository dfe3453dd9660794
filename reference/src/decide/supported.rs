//! Whether the server supports what a request asks for: X5011 stands before every decision.

use crate::kinds::{Command, FEATURE_LIST, VENDOR};
use crate::message::Avp;
use crate::read::{Features, Request};
use crate::slip::{Fault, Slip};
use crate::stated::Stated;
use crate::verdict::Code::{Base, Experimental};
use crate::verdict::{Code, Failed, Verdict, Why};

/// Whether some 628 with M asks for a bit outside the set, or for another list or vendor.
pub fn asks_too_much(asked: &[(Avp, Features)], command: Command, stated: Stated, slip: Slip) -> bool {
    let looked_at: &[(Avp, Features)] = match slip.0 {
        Some(Fault::FeaturesNotAsked) => &[],
        Some(Fault::FeaturesNotAskedInAuthentication) if command == Command::MultimediaAuth => &[],
        Some(Fault::FeaturesNotAskedInLocation) if command == Command::LocationInfo => &[],
        Some(Fault::FirstFeaturesAsked) => &asked[..asked.len().min(1)],
        Some(Fault::LastFeaturesAsked) => &asked[asked.len().saturating_sub(1)..],
        _ => asked,
    };
    let too_much = |(avp, features): &(Avp, Features)| is_marked(*avp, slip) && is_too_much(*features, stated, slip);
    match slip.0 {
        Some(Fault::AllFeaturesMustFail) => !looked_at.is_empty() && looked_at.iter().all(too_much),
        _ => looked_at.iter().any(too_much),
    }
}

/// Here alone M on a known kind counts.
fn is_marked(avp: Avp, slip: Slip) -> bool {
    match slip.0 {
        Some(Fault::UnmarkedFeaturesAsked) => true,
        Some(Fault::MarkOfListAsked) => {
            avp.members().sound(Slip::NONE).iter().any(|member| member.code == FEATURE_LIST && member.is_marked())
        }
        Some(Fault::MarkAndListsMarkAsked) => {
            avp.is_marked()
                && avp.members().sound(Slip::NONE).iter().any(|it| it.code == FEATURE_LIST && it.is_marked())
        }
        _ => avp.is_marked(),
    }
}

fn is_too_much(asked: Features, stated: Stated, slip: Slip) -> bool {
    let Features { vendor, list, bits } = asked;
    let set = match slip.0 {
        Some(Fault::EmptySetServesAll) if stated.features == 0 => u32::MAX,
        _ => stated.features,
    };
    let outside = match slip.0 {
        Some(Fault::FeatureBitsNotAsked) => 0,
        Some(Fault::FeatureBitsIn16Bits) => bits & !set & 0xFFFF,
        Some(Fault::FeatureBitsWithSign) => bits & !set & 0x7FFF_FFFF,
        Some(Fault::LowestBitAsked) => bits & bits.wrapping_neg() & !set,
        Some(Fault::OneBitServedIsEnough) if bits & set != 0 => 0,
        Some(Fault::BitsMustBeTheSet) => bits ^ set,
        Some(Fault::SetMustBeAsked) => set & !bits,
        Some(Fault::BitsComparedAsNumbers) => bits.saturating_sub(set),
        Some(Fault::EmptySetServesNothing) if set == 0 => 1,
        _ => bits & !set,
    };
    let another_vendor = match slip.0 {
        Some(Fault::FeatureVendorNotAsked) => false,
        Some(Fault::FeatureVendorIn16Bits) => vendor & 0xFFFF != VENDOR,
        Some(Fault::ZeroBitsAskNothing) => vendor != VENDOR && bits != 0,
        _ => vendor != VENDOR,
    };
    let another_list = match slip.0 {
        Some(Fault::FeatureListIdNotAsked) => false,
        Some(Fault::ListZeroTaken) => list > 1,
        Some(Fault::LaterListsTaken) => list < 1,
        Some(Fault::ListIn8Bits) => list & 0xFF != 1,
        Some(Fault::ZeroBitsAskNothing) => list != 1 && bits != 0,
        _ => list != 1,
    };
    match slip.0 {
        Some(Fault::VendorAndListMustDiffer) => another_vendor && another_list || outside != 0,
        Some(Fault::OtherListsBitsAskedAlone) => outside != 0 && (another_vendor || another_list),
        _ => another_vendor || another_list || outside != 0,
    }
}

/// X5011, with nothing altered; what would be decided is for a faulty program alone.
pub fn unsupported<'a>(request: &Request<'a>, decided: impl FnOnce() -> Verdict<'a>, slip: Slip) -> Verdict<'a> {
    let result = if slip.is(Fault::BaseForUnsupported) { Base(5011) } else { Experimental(5011) };
    let verdict = Verdict { why: Why::Unsupported(request.command), ..Verdict::of(result) };
    match slip.0 {
        Some(
            Fault::UnsupportedAfterErrors
            | Fault::UnsupportedAfterUnknownUser
            | Fault::UnsupportedAfterAssignmentFaults,
        ) => Some(decided()).filter(|decided| stays(decided.result, slip)).unwrap_or(verdict),
        Some(Fault::UnsupportedAlters) => Verdict { rewritings: decided().rewritings, ..verdict },
        Some(Fault::UnsupportedUsesVectors) => Verdict { marked: decided().marked, ..verdict },
        Some(Fault::UnsupportedFails) => Verdict { failed: Failed::Whole(request.features[0].0), ..verdict },
        _ => verdict,
    }
}

/// Which results a faulty program lets stand before X5011.
fn stays(result: Code, slip: Slip) -> bool {
    match slip.0 {
        Some(Fault::UnsupportedAfterErrors) => !matches!(result, Base(2001) | Experimental(2001..=2004)),
        Some(Fault::UnsupportedAfterUnknownUser) => result == Experimental(5001),
        _ => matches!(result, Base(5005 | 5009)),
    }
}
