//! Groups that hold one AVP and nothing else: 612 a 608, and 700 a 601. Behind it stands at most its padding.

use crate::block::{word_at, zero};
use crate::kinds::{Kind, MSISDN, SCHEME, SIP_AUTHENTICATION_SCHEME, SIP_AUTHORIZATION, SIP_ITEM_NUMBER, VENDOR};
use crate::message::{padded, Avp, Received, M, V};
use crate::slip::{Fault, Slip};

/// The flag P of an AVP, which is free.
const PROTECTED: u8 = 0x20;

/// What a faulty program takes such a group for.
#[derive(Clone, Copy, PartialEq)]
enum Astray {
    Tail,
    CutAtEnd,
    FirstAlone,
    ReservedFlags,
    PaddingWhole,
    PaddingCut,
    PaddingWholeOrCut,
    PaddingZero,
    None,
    Two,
    WithoutVendor,
    AnyVendor,
    Marked,
    Unprotected,
    CodeIn16Bits,
    AnyBeside,
    UnmarkedBeside,
    /// Another of vendor 10415, beside it or in its place.
    Beside(u32),
    Instead(u32),
}

/// 612: what its 608 holds; none if it is not so.
pub fn scheme(members: Received<'_>, slip: Slip) -> Option<&[u8]> {
    let scheme = only(members, SIP_AUTHENTICATION_SCHEME, in_612(slip), slip)?;
    let judged = match slip.0 {
        Some(Fault::SchemeIsContent) => scheme == SCHEME,
        Some(Fault::EmptySchemeIsContent) => !scheme.is_empty(),
        _ => true,
    };
    judged.then_some(scheme)
}

/// 700: the public identity in its 601; none if it is not so.
pub fn identity(members: Received<'_>, slip: Slip) -> Option<&[u8]> {
    let identity = only(members, Kind::PublicIdentity.code(), in_700(slip), slip)?;
    (!identity.is_empty() || !slip.is(Fault::EmptyIdentityIsContent)).then_some(identity)
}

fn in_612(slip: Slip) -> Option<Astray> {
    Some(match slip.0? {
        Fault::ItemTailTaken => Astray::Tail,
        Fault::MemberCutAtEnd => Astray::CutAtEnd,
        Fault::FirstMemberAlone => Astray::FirstAlone,
        Fault::ItemReservedFlagsTaken => Astray::ReservedFlags,
        Fault::ItemPaddingWhole => Astray::PaddingWhole,
        Fault::ItemPaddingCut => Astray::PaddingCut,
        Fault::ItemPaddingWholeOrCut => Astray::PaddingWholeOrCut,
        Fault::ItemPaddingMustBeZero => Astray::PaddingZero,
        Fault::EmptyItemTaken => Astray::None,
        Fault::TwoSchemesTaken => Astray::Two,
        Fault::SchemeWithoutVendor => Astray::WithoutVendor,
        Fault::SchemeOfAnyVendor => Astray::AnyVendor,
        Fault::SchemeMustBeMarked => Astray::Marked,
        Fault::SchemePFlagReserved => Astray::Unprotected,
        Fault::SchemeCodeIn16Bits => Astray::CodeIn16Bits,
        Fault::OtherItemMembersTaken => Astray::AnyBeside,
        Fault::UnmarkedItemMembersTaken => Astray::UnmarkedBeside,
        Fault::ItemNumberTaken => Astray::Beside(SIP_ITEM_NUMBER),
        Fault::ResynchronisationTaken => Astray::Beside(SIP_AUTHORIZATION),
        _ => return None,
    })
}

fn in_700(slip: Slip) -> Option<Astray> {
    Some(match slip.0? {
        Fault::IdentityTailTaken => Astray::Tail,
        Fault::IdentityCutAtEnd => Astray::CutAtEnd,
        Fault::FirstOf700Alone => Astray::FirstAlone,
        Fault::IdentityReservedFlagsTaken => Astray::ReservedFlags,
        Fault::IdentityPaddingWhole => Astray::PaddingWhole,
        Fault::IdentityPaddingCut => Astray::PaddingCut,
        Fault::IdentityPaddingWholeOrCut => Astray::PaddingWholeOrCut,
        Fault::IdentityPaddingMustBeZero => Astray::PaddingZero,
        Fault::EmptyUserIdentityTaken => Astray::None,
        Fault::TwoIdentitiesTaken => Astray::Two,
        Fault::MemberIdentityWithoutVendor => Astray::WithoutVendor,
        Fault::MemberIdentityOfAnyVendor => Astray::AnyVendor,
        Fault::MemberIdentityMustBeMarked => Astray::Marked,
        Fault::MemberIdentityPFlagReserved => Astray::Unprotected,
        Fault::MemberIdentityCodeIn16Bits => Astray::CodeIn16Bits,
        Fault::OthersBesideIdentityTaken => Astray::AnyBeside,
        Fault::UnmarkedBesideIdentityTaken => Astray::UnmarkedBeside,
        Fault::MsisdnBesideIdentityTaken => Astray::Beside(MSISDN),
        Fault::MsisdnForIdentityTaken => Astray::Instead(MSISDN),
        _ => return None,
    })
}

/// What the one member of this code holds.
fn only(members: Received<'_>, code: u32, astray: Option<Astray>, slip: Slip) -> Option<&[u8]> {
    let is = |what: Astray| astray == Some(what);
    let mut found: Vec<Avp> = Vec::new();
    let mut rest = members;
    while !rest.is_empty() {
        let (member, after) = match rest.first(slip) {
            Ok(read) => read,
            Err(_) if is(Astray::Tail) && rest.bytes.len() < 8 => break,
            Err(_) if is(Astray::CutAtEnd) => return cut(rest.bytes, code).filter(|_| found.is_empty()),
            Err(_) => return None,
        };
        let padding = &rest.bytes[member.whole.len()..rest.bytes.len() - after.bytes.len()];
        rest = if is(Astray::FirstAlone) { Received { bytes: &[], ..after } } else { after };
        if member.has_reserved_flags() && !is(Astray::ReservedFlags) {
            return None;
        }
        if !padding_is_good(member, padding, astray) {
            return None;
        }
        match (is_it(member, code, astray), is_taken_beside(member, astray)) {
            (true, _) => found.push(member),
            (false, true) => {}
            (false, false) => return None,
        }
    }
    let counts = match astray {
        Some(Astray::None) => found.len() <= 1,
        Some(Astray::Two) => !found.is_empty(),
        _ => found.len() == 1,
    };
    counts.then(|| found.first().map_or(&[][..], |member| member.data))
}

/// What is there of a member whose length passes the group's end.
fn cut(data: &[u8], code: u32) -> Option<&[u8]> {
    let whole = data.len() > 12 && word_at(data, 0) == code && word_at(data, 8) == VENDOR;
    let passes = whole && data[4] & V != 0 && (word_at(data, 4) & 0xFF_FFFF) as usize > data.len();
    passes.then(|| &data[12..])
}

fn is_it(member: Avp, code: u32, astray: Option<Astray>) -> bool {
    let of_vendor = match astray {
        Some(Astray::WithoutVendor) => member.vendor.is_none() || member.vendor == Some(VENDOR),
        Some(Astray::AnyVendor) => member.vendor.is_some(),
        _ => member.vendor == Some(VENDOR),
    };
    let flags = match astray {
        Some(Astray::Marked) => member.flags & M != 0,
        Some(Astray::Unprotected) => member.flags & PROTECTED == 0,
        _ => true,
    };
    let same = match astray {
        Some(Astray::CodeIn16Bits) => member.code & 0xFFFF == code,
        Some(Astray::Instead(other)) => member.code == code || member.code == other,
        _ => member.code == code,
    };
    same && of_vendor && flags
}

/// Whether a member that is another is overlooked.
fn is_taken_beside(member: Avp, astray: Option<Astray>) -> bool {
    match astray {
        Some(Astray::AnyBeside) => true,
        Some(Astray::UnmarkedBeside) => member.flags & M == 0,
        Some(Astray::Beside(code)) => member.vendor == Some(VENDOR) && member.code == code,
        _ => false,
    }
}

/// Whole, cut, or between: it is not looked at.
fn padding_is_good(member: Avp, padding: &[u8], astray: Option<Astray>) -> bool {
    let whole = padded(member.whole.len()) - member.whole.len();
    match astray {
        Some(Astray::PaddingWhole) => padding.len() == whole,
        Some(Astray::PaddingCut) => padding.is_empty(),
        Some(Astray::PaddingWholeOrCut) => padding.is_empty() || padding.len() == whole,
        Some(Astray::PaddingZero) => zero(padding),
        _ => true,
    }
}
