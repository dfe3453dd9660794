//! Twists of a MAR: which of its own AVPs there are, 612 and its member, the scheme, the number asked.

use super::shape::{if_it_fits, resized, some_avp, twice, Twist};
use super::single::{other_bytes, other_member, other_members};
use crate::gen::asks::{item, number_asked, other_scheme, scheme};
use crate::gen::request::RequestModel;
use crate::kinds::{Kind, CONFIDENTIALITY_KEY, SCHEME, SIP_AUTHENTICATE, SIP_AUTHORIZATION, SIP_ITEM_NUMBER};
use crate::rng::Rng;

/// What real software puts beside the 608, as it asks for resynchronisation with a 610, and what it might.
const BESIDE: [u32; 8] = [
    SIP_ITEM_NUMBER,
    SIP_ITEM_NUMBER,
    SIP_AUTHORIZATION,
    SIP_AUTHORIZATION,
    SIP_AUTHENTICATE,
    611,
    CONFIDENTIALITY_KEY,
    601,
];

pub const TWISTS: &[Twist] = &[
    if_it_fits("MAR: own AVPs left out", 6, |rng, r| {
        let first = own(rng, r)?;
        r.pieces.remove(first);
        for _ in 0..if rng.coin() { rng.between(1, 2) } else { 0 } {
            if let Some(at) = own(rng, r) {
                r.pieces.remove(at);
            }
        }
        Some(())
    }),
    if_it_fits("MAR: an own AVP twice", 5, |rng, r| {
        let at = own(rng, r)?;
        twice(rng, r, at);
        Some(())
    }),
    if_it_fits("612: its members", 8, |rng, r| {
        let at = r.place(Kind::SipAuthDataItem)?;
        let (right, second) = (scheme(rng, SCHEME), other_scheme(rng));
        r.pieces[at].data = other_members(rng, right, second, &BESIDE);
        Some(())
    }),
    if_it_fits("612: its member's flags and vendor", 6, |rng, r| {
        let at = r.place(Kind::SipAuthDataItem)?;
        let right = scheme(rng, SCHEME);
        r.pieces[at].data = other_member(rng, right);
        Some(())
    }),
    if_it_fits("612: its length and padding", 6, |rng, r| {
        let at = r.place(Kind::SipAuthDataItem)?;
        let right = scheme(rng, SCHEME);
        r.pieces[at].data = other_bytes(rng, right);
        Some(())
    }),
    if_it_fits("612: another scheme", 5, |rng, r| {
        let at = r.place(Kind::SipAuthDataItem)?;
        let scheme = other_scheme(rng);
        r.pieces[at].data = item(rng, scheme);
        Some(())
    }),
    if_it_fits("607: another length", 2, |rng, r| resized(rng, r, Kind::SipNumberAuthItems)),
    if_it_fits("607: another number", 4, |rng, r| {
        let at = r.place(Kind::SipNumberAuthItems)?;
        r.pieces[at].data = number_asked(rng).to_be_bytes().to_vec();
        Some(())
    }),
];

/// The place of one of the AVPs that a MAR has of its own.
fn own(rng: &mut Rng, request: &RequestModel) -> Option<usize> {
    request.place(Kind::SipAuthDataItem).or_else(|| request.place(Kind::SipNumberAuthItems))?;
    some_avp(rng, request, |piece| piece.has_vendor() || piece.is(Kind::UserName))
}
