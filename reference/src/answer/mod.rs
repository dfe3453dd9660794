//! Writing the answer.

mod avps;
mod features;
mod items;
mod user_data;

use avps::Avps;

use crate::kinds::{
    Dialect, Kind, AUTH_APPLICATION_ID, EXPERIMENTAL_RESULT, EXPERIMENTAL_RESULT_CODE, FAILED_AVP,
    MANDATORY_CAPABILITY, OPTIONAL_CAPABILITY, RESULT_CODE, SERVER_CAPABILITIES, VENDOR, VENDOR_ID,
};
use crate::message::{Avp, Message, E, P};
use crate::slip::{Fault, Slip};
use crate::stated::Stated;
use crate::table::{Header, Record};
use crate::verdict::{Code, Failed, Verdict, Why};

pub fn answer(
    message: Message,
    dialect: Dialect,
    header: Header,
    verdict: &Verdict,
    stated: Stated,
    slip: Slip,
) -> Vec<u8> {
    let mut avps = Avps::new(slip);
    let bare = slip.is(Fault::NewerErrorsBare) && stated.is_newer() && is_3xxx(verdict.result);
    if let Some(session) = session_id(message, verdict, slip) {
        avps.copy(session.whole);
    }
    if !bare {
        avps.own_kind(Kind::VendorSpecificApplicationId, &application(message, dialect, slip));
    }
    result(&mut avps, verdict.result);
    avps.own_number(None, Kind::AuthSessionState.code(), 1);
    avps.own_kind(Kind::OriginHost, header.host());
    let list = match dialect {
        Dialect::Sh if !slip.is(Fault::OwnListInSh) => vec![],
        _ => features::own_list(message, verdict, stated, slip),
    };
    // Right behind 296, but for a faulty program.
    let list_at = |avps: &mut Avps, place: Option<Fault>| {
        if place == features::elsewhere(slip) {
            avps.bytes.extend(&list);
        }
    };
    list_at(&mut avps, Some(Fault::OwnListBeforeRealm));
    avps.own_kind(Kind::OriginRealm, header.realm());
    list_at(&mut avps, None);
    let name_at = avps.bytes.len();
    if let (Some(name), false) = (verdict.user_name, items::without_user_name(verdict, slip)) {
        avps.own_kind(Kind::UserName, name);
    }
    list_at(&mut avps, Some(Fault::OwnListAfterUserName));
    if let (Some(authentication), false) = (&verdict.authentication, slip.is(Fault::ItemsLast)) {
        items::write(&mut avps, authentication, name_at);
    }
    if let Some(name) = verdict.server_name {
        avps.own_kind(Kind::ServerName, name);
    }
    list_at(&mut avps, Some(Fault::OwnListAfterServerName));
    if let Some(record) = verdict.capabilities {
        capabilities(&mut avps, record, slip);
    }
    if !slip.is(Fault::ShDataLast) {
        user_data::write(&mut avps, verdict, dialect);
    }
    list_at(&mut avps, Some(Fault::OwnListBeforeFailedAvp));
    if !slip.is(Fault::FailedAvpLast) {
        failed_avp(&mut avps, &verdict.failed, slip);
    }
    proxy_infos(&mut avps, message, verdict, slip);
    match (slip.0, &verdict.authentication) {
        (Some(Fault::FailedAvpLast), _) => failed_avp(&mut avps, &verdict.failed, slip),
        (Some(Fault::ItemsLast), Some(authentication)) => items::write(&mut avps, authentication, name_at),
        (Some(Fault::ShDataLast), _) => user_data::write(&mut avps, verdict, dialect),
        _ => {}
    }

    list_at(&mut avps, Some(Fault::OwnListLast));

    let mut answer = answer_header(message, dialect, verdict.result, avps.bytes.len(), stated, slip);
    answer.extend(avps.bytes);
    answer
}

fn answer_header(message: Message, dialect: Dialect, result: Code, avps: usize, stated: Stated, slip: Slip) -> Vec<u8> {
    let mut header = message.0[..20].to_vec();
    let for_all = slip.is(Fault::EBitForAllErrors) || (slip.is(Fault::NewerEBitForErrors) && stated.is_newer());
    let has_e = match result {
        Code::Base(code) | Code::Experimental(code) if for_all => code >= 3000,
        _ => is_3xxx(result) && !slip.is(Fault::EBitLeftOut),
    };
    let kept = if slip.is(Fault::RetransmissionBitKept) { P | 0x10 } else { P };
    let p = if slip.is(Fault::PBitLeftOut) { 0 } else { message.flags() & kept };
    let length = if slip.is(Fault::AnswerLengthWithoutHeader) { avps } else { 20 + avps };
    let version = if slip.is(Fault::VersionAsReceived) { message.version() } else { 1 };
    header[..4].copy_from_slice(&(u32::from(version) << 24 | length as u32).to_be_bytes());
    header[4] = p | if has_e { E } else { 0 };
    if slip.is(Fault::ApplicationAlwaysOwn) {
        header[8..12].copy_from_slice(&dialect.application().to_be_bytes());
    }
    header
}

fn is_3xxx(result: Code) -> bool {
    matches!(result, Code::Base(3000..=3999))
}

/// Session-Id if it is the first AVP and passes (a) to (c), whatever else is wrong.
fn session_id<'a>(message: Message<'a>, verdict: &Verdict, slip: Slip) -> Option<Avp<'a>> {
    let passes = |avp: &Avp| {
        Kind::of(avp.vendor, avp.code) == Some(Kind::SessionId)
            && (!avp.has_reserved_flags() || slip.is(Fault::FaultySessionIdCopied))
    };
    if slip.is(Fault::NoSessionIdInHeaderFaults) && matches!(verdict.why, Why::Header(_)) {
        return None;
    }
    if slip.is(Fault::LaterSessionIdCopied) {
        return message.avps().sound(slip).into_iter().find(passes);
    }
    message.avps().first(slip).ok().map(|(avp, _)| avp).filter(passes)
}

/// The interface's own, also where the request has another.
fn application(message: Message, dialect: Dialect, slip: Slip) -> Vec<u8> {
    let application = match slip.0 {
        Some(Fault::CxGroupInShAnswers) => Dialect::Cx.application(),
        Some(Fault::GroupAsReceivedInSh) if dialect == Dialect::Sh => message.application(),
        _ => dialect.application(),
    };
    let mut group = Avps::new(slip);
    group.own_number(None, VENDOR_ID, VENDOR);
    group.own_number(None, AUTH_APPLICATION_ID, application);
    group.bytes
}

fn result(avps: &mut Avps, result: Code) {
    match result {
        Code::Base(code) => avps.own_number(None, RESULT_CODE, code),
        Code::Experimental(code) => {
            let mut group = Avps::new(avps.slip);
            group.own_number(None, VENDOR_ID, VENDOR);
            group.own_number(None, EXPERIMENTAL_RESULT_CODE, code);
            avps.own(None, EXPERIMENTAL_RESULT, &group.bytes);
        }
    }
}

fn capabilities(avps: &mut Avps, of: Record, slip: Slip) {
    let mut group = Avps::new(slip);
    let mandatory = of.mandatory().into_iter().map(|capability| (MANDATORY_CAPABILITY, capability));
    let optional = of.optional().into_iter().map(|capability| (OPTIONAL_CAPABILITY, capability));
    let mut all: Vec<(u32, u32)> = mandatory.chain(optional).collect();
    if slip.is(Fault::OptionalCapabilitiesFirst) {
        all.sort_by_key(|(code, _)| std::cmp::Reverse(*code));
    }
    for (code, capability) in all {
        group.own_number(Some(VENDOR), code, capability);
    }
    if !group.bytes.is_empty() || slip.is(Fault::EmptyCapabilities) {
        avps.own(Some(VENDOR), SERVER_CAPABILITIES, &group.bytes);
    }
}

fn failed_avp(avps: &mut Avps, failed: &Failed, slip: Slip) {
    let mut group = Avps::new(slip);
    match failed {
        Failed::Absent => return,
        Failed::Empty => {}
        Failed::Whole(avp) => group.copy(avp.whole),
        Failed::Header(header) => group.copy(header),
        Failed::Example(kind) => {
            let turned = match slip.0 {
                Some(Fault::ExampleDataTurned) => true,
                Some(Fault::NumberExampleEmpty) => *kind == Kind::SipNumberAuthItems,
                Some(Fault::ItemExampleOf4) => *kind == Kind::SipAuthDataItem,
                Some(Fault::ReferenceExampleEmpty) => *kind == Kind::DataReference,
                Some(Fault::UserIdentityExampleOf4) => *kind == Kind::UserIdentity,
                _ => false,
            };
            let length = if kind.is_four_bytes() != turned { 4 } else { 0 };
            let vendor = if slip.is(Fault::ExampleWithoutVendor) { None } else { kind.vendor() };
            group.own(vendor, kind.code(), &[0; 4][..length]);
        }
    }
    let at = avps.bytes.len();
    avps.own(None, FAILED_AVP, &group.bytes);
    if let (Failed::Whole(avp), true) = (failed, slip.is(Fault::GroupLengthWithoutPadding)) {
        avps.bytes[at + 5..at + 8].copy_from_slice(&(8 + avp.whole.len() as u32).to_be_bytes()[1..]);
    }
}

/// Every Proxy-Info before the first length fault, other faults or not.
fn proxy_infos(avps: &mut Avps, message: Message, verdict: &Verdict, slip: Slip) {
    if slip.is(Fault::ProxyInfoOnlyInSuccess) && verdict.failed != Failed::Absent {
        return;
    }
    for avp in message.avps().sound(slip) {
        let at_fault = verdict.failed == Failed::Whole(avp);
        if at_fault && slip.is(Fault::ProxyInfoUpToFault) {
            return;
        }
        let is_one = Kind::of(avp.vendor, avp.code) == Some(Kind::ProxyInfo)
            || (slip.is(Fault::ProxyInfoByCodeAlone) && avp.code == Kind::ProxyInfo.code());
        let left_out = (at_fault && slip.is(Fault::FaultyProxyInfoOnce))
            || (avp.has_reserved_flags() && slip.is(Fault::ReservedProxyInfoLeftOut));
        if is_one && !left_out {
            avps.copy(avp.whole);
            if slip.is(Fault::OneProxyInfoCopied) {
                return;
            }
        }
    }
}
