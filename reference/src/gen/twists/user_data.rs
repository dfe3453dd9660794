//! Twists of a User-Data-Request: which of its own AVPs there are, 700 and its member, the references.

use super::shape::{always, if_it_fits, resized, some_avp, twice, Twist};
use super::single::{other_bytes, other_member, other_members};
use crate::gen::asks::{data_reference, identity_group, ABSENT};
use crate::gen::names;
use crate::gen::request::{application, Piece, RequestModel};
use crate::kinds::{Dialect, Kind, MSISDN, VENDOR};
use crate::message::M;
use crate::rng::Rng;
use crate::table::LONGEST_IDENTITY;

/// What may stand in 700 by source document 001, and other kinds of Sh and Cx.
const BESIDE: [u32; 6] = [MSISDN, MSISDN, MSISDN, 602, 704, 708];

pub const TWISTS: &[Twist] = &[
    if_it_fits("UDR: own AVPs left out", 6, |rng, r| {
        let first = own(rng, r)?;
        r.pieces.remove(first);
        if let (Some(at), true) = (own(rng, r), rng.coin()) {
            r.pieces.remove(at);
        }
        Some(())
    }),
    if_it_fits("UDR: an own AVP twice", 6, |rng, r| {
        let at = own(rng, r)?;
        twice(rng, r, at);
        Some(())
    }),
    always("UDR: a neighbouring command", 3, |rng, r| {
        r.command = *rng.pick(&[305, 307, 307, 308]);
    }),
    always("UDR: the application of Cx", 3, |rng, r| {
        r.application = Dialect::Cx.application();
        if rng.once_in(3) {
            let at = r.place(Kind::VendorSpecificApplicationId);
            at.into_iter().for_each(|at| r.pieces[at].data = application(rng, Dialect::Cx));
        }
    }),
    always("UDR: a kind of Cx", 5, |rng, r| {
        let name = names::any(rng, LONGEST_IDENTITY);
        let kind =
            *rng.pick(&[Kind::PublicIdentity, Kind::ServerName, Kind::SipNumberAuthItems, Kind::SipAuthDataItem]);
        let mut piece = Piece::of(rng, kind, name);
        piece.flags &= if rng.once_in(4) { !M } else { 0xFF };
        r.insert(rng, piece);
    }),
    always("UDR: User-Names", 4, |rng, r| {
        for _ in 0..rng.between(1, 2) {
            let name = names::any(rng, LONGEST_IDENTITY);
            let piece = Piece::of(rng, Kind::UserName, name);
            r.insert(rng, piece);
        }
    }),
    if_it_fits("700: its members", 10, |rng, r| {
        let (at, right) = identity(rng, r)?;
        let second = if rng.coin() { ABSENT.to_vec() } else { names::any(rng, LONGEST_IDENTITY) };
        r.pieces[at].data = other_members(rng, right, second, &BESIDE);
        Some(())
    }),
    if_it_fits("700: its member's flags and vendor", 8, |rng, r| {
        let (at, right) = identity(rng, r)?;
        r.pieces[at].data = other_member(rng, right);
        Some(())
    }),
    if_it_fits("700: its length and padding", 8, |rng, r| {
        let (at, right) = identity(rng, r)?;
        r.pieces[at].data = other_bytes(rng, right);
        Some(())
    }),
    if_it_fits("700: another identity", 4, |rng, r| {
        let (at, right) = identity(rng, r)?;
        let other = match rng.below(3) {
            0 => vec![],
            1 => names::near(rng, &right.data, LONGEST_IDENTITY),
            _ => names::alike(rng, &right.data, LONGEST_IDENTITY),
        };
        r.pieces[at].data = identity_group(rng, other);
        Some(())
    }),
    always("703s", 8, |rng, r| {
        for _ in 0..rng.between(1, 3) {
            let piece = data_reference(rng);
            r.insert(rng, piece);
        }
    }),
    if_it_fits("703: another length", 4, |rng, r| resized(rng, r, Kind::DataReference)),
];

/// The place of one of the AVPs that it has of its own.
fn own(rng: &mut Rng, request: &RequestModel) -> Option<usize> {
    let is_own =
        |piece: &Piece| piece.is(Kind::UserIdentity) || piece.is(Kind::DataReference) || piece.is(Kind::UserName);
    some_avp(rng, request, is_own)
}

/// The place of 700, and its 601 as it is; none if there is none.
fn identity(rng: &mut Rng, request: &RequestModel) -> Option<(usize, Piece)> {
    let at = request.place(Kind::UserIdentity)?;
    let data = &request.pieces[at].data;
    let length = usize::from(*data.get(6)?) << 8 | usize::from(*data.get(7)?);
    let public = data.get(12..length)?.to_vec();
    Some((at, Piece::new(rng, Some(VENDOR), Kind::PublicIdentity.code(), M, public)))
}
