//! The place of the AVP at fault in the return word. The rest of the file is deliberate faults of it.

use crate::kinds::{Command, Dialect, Kind};
use crate::message::{padded, Avp, Message, HEADER};
use crate::read::{fault_of, vendors_of, SEVERAL};
use crate::slip::{Fault, Slip};
use crate::stated::Stated;
use crate::verdict::Code::{Base, Experimental};
use crate::verdict::{Failed, Verdict, Why};

/// The word's part for an answered request.
pub fn of_answer(message: Message, dialect: Dialect, verdict: &Verdict, slip: Slip) -> u64 {
    let place = slip.0.and_then(|fault| astray(message, dialect, verdict, fault)).unwrap_or(verdict.place);
    let shift = if slip.is(Fault::PlaceInValue) { 16 } else { 32 };
    (place as u64) << shift
}

/// The word's part for a refusal with this value.
pub fn of_refusal(request: &[u8], dialect: Dialect, refusal: (u32, u32), stated: Stated, slip: Slip) -> u64 {
    let (number, value) = refusal;
    let astray = match slip.0 {
        Some(Fault::BadBlockInPlace) if number == 5 => value as usize,
        Some(Fault::UnknownPeerInPlace) if number == 12 => stated.peer as usize & 0xFFFF,
        // The others are given before there is a request to read.
        Some(Fault::RefusalPlaced) if matches!(number, 5 | 6) => {
            fault_of(Message(request), dialect, stated, slip).map_or(0, |finding| finding.place)
        }
        _ => 0,
    };
    (astray as u64) << 32
}

/// What a program with this fault tells, if it is one of the place.
fn astray(message: Message, dialect: Dialect, verdict: &Verdict, fault: Fault) -> Option<usize> {
    let all = message.avps().sound(Slip::of(fault)).into_iter();
    let avps: Vec<Seen> = all.map(|avp| (dialect.kind(avp.vendor, avp.code), avp)).collect();
    astray_count(&avps, verdict, fault)
        .or_else(|| astray_rule(&avps, verdict, fault))
        .or_else(|| astray_elsewhere(message, &avps, verdict, fault))
}

/// An AVP, with its kind if it is known.
type Seen<'a> = (Option<Kind>, Avp<'a>);

/// Another count of the bytes before the AVP, or another AVP.
fn astray_count(avps: &[Seen], verdict: &Verdict, fault: Fault) -> Option<usize> {
    let place = Some(verdict.place).filter(|place| *place != 0)?;
    let before: Vec<&Seen> = avps.iter().filter(|(_, avp)| avp.at < place).collect();
    let at_fault = || avps.iter().map(|(_, avp)| avp).find(|avp| avp.at == place);
    Some(match fault {
        Fault::PlaceNeverTold => 0,
        Fault::PlaceFromFirstAvp => place - HEADER,
        Fault::PlaceFromOne => place + 1,
        Fault::PlaceInWords => place / 4,
        Fault::PlaceIn8Bits => place & 0xFF,
        Fault::FarthestPlaceLost if place == 16_380 => 0,
        Fault::PlaceIsNumber => before.len() + 1,
        Fault::PlaceBefore => before.last()?.1.at,
        Fault::PlaceBehind => place + padded(at_fault()?.whole.len()),
        Fault::PlaceOfData => place + at_fault()?.header().len(),
        Fault::PlaceWithoutPadding => HEADER + before.iter().map(|(_, avp)| avp.whole.len()).sum::<usize>(),
        Fault::PlaceWithoutUnknown => {
            let known = before.iter().filter(|(kind, _)| kind.is_some());
            HEADER + known.map(|(_, avp)| padded(avp.whole.len())).sum::<usize>()
        }
        _ => return None,
    })
}

/// Another place, or none, for one of the rules.
fn astray_rule(avps: &[Seen], verdict: &Verdict, fault: Fault) -> Option<usize> {
    let (rule, what) = match &verdict.why {
        Why::Rule(rule, what) => (*rule, *what),
        _ => return None,
    };
    let seen = avps.iter().find(|(_, avp)| avp.at == verdict.place);
    let (kind, at_fault) = (seen.and_then(|(kind, _)| *kind), seen.map(|(_, avp)| *avp));
    let mut unknown = avps.iter().filter(|(kind, _)| kind.is_none()).map(|(_, avp)| avp);
    let first_member = || at_fault.filter(|group| !group.data.is_empty()).map(|group| group.members().at);
    match (fault, rule) {
        (Fault::LengthFaultUnplaced, 'a') => Some(0),
        (Fault::CutOffUnplaced, 'a') => (what == "header cut off").then_some(0),
        (Fault::FirstAvpPlaced, 'b') => Some(HEADER),
        (Fault::ReservedFlagsUnplaced, 'c') => Some(0),
        (Fault::UnknownUnplaced, 'd') => Some(0),
        (Fault::FirstUnknownPlaced, 'd') => unknown.next().map(|avp| avp.at),
        (Fault::LastMarkedPlaced, 'd') => unknown.filter(|avp| avp.is_marked()).last().map(|avp| avp.at),
        (Fault::TooOftenUnplaced, 'f') => Some(0),
        (Fault::FirstOfTwoPlaced, 'f') => avps.iter().find(|(it, _)| *it == kind).map(|(_, avp)| avp.at),
        (Fault::FourBytesUnplaced, 'g') => Some(0),
        (Fault::ContentUnplaced, 'h') => Some(0),
        (Fault::SeveralVendorsUnplaced, 'h') => (what == SEVERAL).then_some(0),
        (Fault::SecondVendorPlaced, 'h') if what == SEVERAL => vendors_of(at_fault?).get(1).map(|second| second.at),
        (Fault::MemberOf260Placed, 'h') if kind == Some(Kind::VendorSpecificApplicationId) => first_member(),
        (Fault::MemberOf612Placed, 'h') if kind == Some(Kind::SipAuthDataItem) => first_member(),
        (Fault::MemberOf628Placed, 'h') if kind == Some(Kind::SupportedFeatures) => first_member(),
        (Fault::FeaturesUnplaced, 'h') if kind == Some(Kind::SupportedFeatures) => Some(0),
        (Fault::MemberOf700Placed, 'h') if kind == Some(Kind::UserIdentity) => first_member(),
        (Fault::UserIdentityUnplaced, 'h') if kind == Some(Kind::UserIdentity) => Some(0),
        (Fault::ReferenceUnplaced, 'g') if kind == Some(Kind::DataReference) => Some(0),
        _ => None,
    }
}

/// A place where there is none: of header faults, of what is missing, and of decisions.
fn astray_elsewhere(message: Message, avps: &[Seen], verdict: &Verdict, fault: Fault) -> Option<usize> {
    let end = message.0.len();
    let first = |kind: Kind| avps.iter().find(|(it, _)| *it == Some(kind)).map(|(_, avp)| avp.at);
    let command = match &verdict.why {
        Why::Header(_) => return (fault == Fault::HeaderFaultPlaced).then_some(HEADER),
        Why::Missing(_) => return (fault == Fault::MissingPlaced).then_some(end),
        Why::Unsupported(_) => return first(Kind::SupportedFeatures).filter(|_| fault == Fault::UnsupportedPlaced),
        Why::Decided(decision) => decision.command,
        _ => return None,
    };
    match (fault, verdict.result, &verdict.failed) {
        (Fault::DecisionPlaced, ..) => Some(end),
        (Fault::SecondIdentityPlaced, Base(5009), Failed::Whole(second)) => Some(second.at),
        (Fault::MissingIdentityPlaced, Base(5005), _) => Some(end),
        (Fault::BarredPlaced, Base(5003), _) => first(Kind::PublicIdentity),
        (Fault::UnknownUserPlaced, Experimental(5001), _) => first(Kind::PublicIdentity).or(first(Kind::UserName)),
        (Fault::MismatchPlaced, Experimental(5002), _) => first(Kind::UserName),
        (Fault::RoamingPlaced, Experimental(5004), _) => first(Kind::VisitedNetworkIdentifier),
        (Fault::AnotherServerPlaced, Experimental(5005), _) => first(Kind::ServerName),
        (Fault::SchemePlaced, Experimental(5006), _) => first(Kind::SipAuthDataItem),
        (Fault::AssignmentTypePlaced, Experimental(5007), _) => first(Kind::ServerAssignmentType),
        (Fault::UserIdentityPlaced, Experimental(5001), _) => first(Kind::UserIdentity),
        (Fault::ReferencePlaced, Experimental(5100), _) => first(Kind::DataReference),
        (Fault::UnablePlaced, Base(5012), _) => match command {
            Some(Command::MultimediaAuth) => first(Kind::SipNumberAuthItems),
            _ => first(Kind::ServerName),
        },
        _ => None,
    }
}
