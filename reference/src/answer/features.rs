//! The server's own list of features: whether an answer carries it, and its bytes.

use super::avps::Avps;
use crate::kinds::{Command, Kind, FEATURE_LIST, FEATURE_LIST_ID, VENDOR, VENDOR_ID};
use crate::message::{padded, Avp, Message, Received, HEADER};
use crate::read::{features, features_of, kind_of, Features};
use crate::slip::{Fault, Slip};
use crate::stated::Stated;
use crate::verdict::{Code, Failed, Verdict, Why};

/// The list, or nothing if the request does not call for it.
pub fn own_list(message: Message, verdict: &Verdict, stated: Stated, slip: Slip) -> Vec<u8> {
    let calling = calling(message, verdict, slip);
    if !is_sent(message, verdict, !calling.is_empty(), stated, slip) {
        return Vec::new();
    }
    let times = if slip.is(Fault::OwnListForEach) { calling.len() } else { 1 };
    list(calling.first().map(|(_, asked)| *asked), stated, slip).repeat(times)
}

/// Whether an answer has it, by whether a 628 calls for it: header faults alone have none.
fn is_sent(message: Message, verdict: &Verdict, called: bool, stated: Stated, slip: Slip) -> bool {
    let is_header_fault = matches!(verdict.why, Why::Header(_));
    let left_out = match slip.0 {
        Some(Fault::OwnListNeverSent) => true,
        Some(Fault::OwnListInHeaderFaults) => return called,
        Some(Fault::OwnListAlways) => return !is_header_fault,
        Some(Fault::OwnListInSuccessAlone) => {
            !matches!(verdict.result, Code::Base(2001) | Code::Experimental(2001..=2004))
        }
        Some(Fault::OwnListNotBesideFailedAvp) => verdict.failed != Failed::Absent,
        Some(Fault::OwnListNotForExperimental) => matches!(verdict.result, Code::Experimental(_)),
        Some(Fault::OwnListNotForUnsupported) => verdict.result == Code::Experimental(5011),
        Some(Fault::OwnListForUnsupportedAlone) => verdict.result != Code::Experimental(5011),
        Some(Fault::OwnListNotForMissing) => matches!(verdict.why, Why::Missing(_)),
        Some(Fault::OwnListNotForWrongFirst) => matches!(verdict.why, Why::Rule('b', _)),
        Some(Fault::OwnListNotForLengthFaults) => matches!(verdict.why, Why::Rule('a', _)),
        Some(Fault::OwnListNotFor3xxx) => matches!(verdict.result, Code::Base(3000..=3999)),
        Some(Fault::OwnListNotIfEmpty) => stated.features == 0,
        Some(Fault::OwnListNotInAuthentication) => message.command() == Command::MultimediaAuth.code(),
        Some(Fault::OwnListNotInAssignment) => message.command() == Command::ServerAssignment.code(),
        _ => false,
    };
    called && !is_header_fault && !left_out
}

/// The 628s that call for the list, with M or without: for a program without fault those that pass (a) to (h).
fn calling<'a>(message: Message<'a>, verdict: &Verdict, slip: Slip) -> Vec<(Avp<'a>, Features)> {
    let good = features_of(message, slip);
    let all = || -> Vec<Avp<'a>> {
        let is_one = |avp: &Avp| kind_of(*avp, Command::LocationInfo, slip) == Some(Kind::SupportedFeatures);
        message.avps().sound(slip).into_iter().filter(is_one).collect()
    };
    let with = |avp: Avp<'a>| features(avp.members(), slip).map(|asked| (avp, asked));
    let keep = |wanted: &dyn Fn(&(Avp<'a>, Features)) -> bool| -> Vec<(Avp<'a>, Features)> {
        good.iter().copied().filter(|it| wanted(it)).collect()
    };
    let nothing = Features { vendor: VENDOR, list: 1, bits: 0 };
    match slip.0 {
        Some(Fault::OwnListForMarkedAlone) => keep(&|(avp, _)| avp.is_marked()),
        Some(Fault::OwnListForUnmarkedAlone) => keep(&|(avp, _)| !avp.is_marked()),
        Some(Fault::OwnListForOwnListAlone) => keep(&|(_, asked)| asked.vendor == VENDOR && asked.list == 1),
        Some(Fault::OwnListForBitsAlone) => keep(&|(_, asked)| asked.bits != 0),
        Some(Fault::OwnListUpToFault) if verdict.place != 0 => keep(&|(avp, _)| avp.at < verdict.place),
        Some(Fault::OwnListBehindFaultAlone) if verdict.place != 0 => keep(&|(avp, _)| avp.at > verdict.place),
        Some(Fault::OwnListStopsAtFourBytes) if matches!(verdict.why, Why::Rule('g', _)) => {
            keep(&|(avp, _)| avp.at < verdict.place)
        }
        Some(Fault::OwnListStopsInGroups) => {
            let avps = message.avps().sound(slip);
            let stop = avps.iter().find(|avp| is_broken_group(avp)).map_or(message.0.len(), |avp| avp.at);
            keep(&|(avp, _)| avp.at < stop)
        }
        Some(Fault::OwnListForFirstAvp) => {
            all().into_iter().filter(|avp| !avp.has_reserved_flags()).filter_map(with).collect()
        }
        Some(Fault::OwnListForReservedFlags) => {
            all().into_iter().filter(|avp| avp.at != HEADER).filter_map(with).collect()
        }
        Some(Fault::OwnListForAnyContent) => {
            let others = all().into_iter().filter(|avp| avp.at != HEADER && !avp.has_reserved_flags());
            others.map(|avp| (avp, nothing)).collect()
        }
        Some(Fault::OwnListForFirst628) => keep(&|(avp, _)| all().first() == Some(avp)),
        Some(Fault::OwnListForLast628) => keep(&|(avp, _)| all().last() == Some(avp)),
        Some(Fault::OwnListNeedsAllGood) if all().len() > good.len() => Vec::new(),
        Some(Fault::OwnListPastLengthFault) => good.iter().copied().chain(behind(message)).collect(),
        _ => good,
    }
}

/// Whether a length fault is in a group, which is a fault of its content.
fn is_broken_group(avp: &Avp) -> bool {
    let groups = [Kind::VendorSpecificApplicationId, Kind::SipAuthDataItem, Kind::SupportedFeatures];
    let is_group = groups.iter().any(|kind| Kind::of(avp.vendor, avp.code) == Some(*kind));
    let members = avp.members().sound(Slip::NONE);
    let end = members.last().map_or(avp.members().at, |member| member.at + padded(member.whole.len()));
    is_group && end < avp.at + avp.whole.len()
}

/// What looks like a 628 behind the first length fault.
fn behind(message: Message<'_>) -> Vec<(Avp<'_>, Features)> {
    let end = message.avps().sound(Slip::NONE).last().map_or(HEADER, |avp| avp.at + avp.whole.len());
    let places = (HEADER..message.0.len()).step_by(4).filter(|at| *at > end);
    let avps = places.filter_map(|at| Received { at, bytes: &message.0[at..] }.first(Slip::NONE).ok());
    let known = avps.map(|(avp, _)| avp).filter(|avp| Kind::of(avp.vendor, avp.code) == Some(Kind::SupportedFeatures));
    known.filter_map(|avp| features(avp.members(), Slip::NONE).map(|asked| (avp, asked))).collect()
}

/// 628 with 266, 629 and 630, all but 266 without M. What was asked is for a faulty program alone.
fn list(asked: Option<Features>, stated: Stated, slip: Slip) -> Vec<u8> {
    let asked = asked.unwrap_or(Features { vendor: VENDOR, list: 1, bits: 0 });
    let vendor = if slip.is(Fault::OwnListEchoesVendor) { asked.vendor } else { VENDOR };
    let list = match slip.0 {
        Some(Fault::OwnListEchoesList) => asked.list,
        Some(Fault::OwnListOfZero) => 0,
        _ => 1,
    };
    let bits = match slip.0 {
        Some(Fault::OwnListEchoesBits) => asked.bits,
        Some(Fault::OwnListOfBitsAskedAlone) => asked.bits & stated.features,
        _ => stated.features,
    };
    let of_members = if slip.is(Fault::OwnListMembersWithoutVendor) { None } else { Some(VENDOR) };
    let of_list = if slip.is(Fault::OwnListWithoutVendor) { None } else { Some(VENDOR) };
    let mut members =
        [(None, VENDOR_ID, vendor), (of_members, FEATURE_LIST_ID, list), (of_members, FEATURE_LIST, bits)];
    match slip.0 {
        Some(Fault::OwnListTurned) => members.swap(1, 2),
        Some(Fault::OwnListVendorLast) => members.rotate_left(1),
        _ => {}
    }
    let mut group = Avps::new(slip);
    for (vendor, code, number) in members {
        let marked = match code {
            VENDOR_ID => !slip.is(Fault::OwnListVendorUnmarked),
            _ => slip.is(Fault::OwnListMembersMarked),
        };
        put(&mut group, vendor, code, &number.to_be_bytes(), marked);
    }
    let mut whole = Avps::new(slip);
    put(&mut whole, of_list, Kind::SupportedFeatures.code(), &group.bytes, slip.is(Fault::OwnListMarked));
    whole.bytes
}

fn put(avps: &mut Avps, vendor: Option<u32>, code: u32, data: &[u8], marked: bool) {
    match marked {
        true => avps.own(vendor, code, data),
        false => avps.own_unmarked(vendor, code, data),
    }
}

/// Where a faulty program puts the list; none for its right place, behind 296.
pub fn elsewhere(slip: Slip) -> Option<Fault> {
    slip.0.filter(|fault| {
        matches!(
            *fault,
            Fault::OwnListBeforeRealm
                | Fault::OwnListAfterUserName
                | Fault::OwnListAfterServerName
                | Fault::OwnListBeforeFailedAvp
                | Fault::OwnListLast
        )
    })
}
