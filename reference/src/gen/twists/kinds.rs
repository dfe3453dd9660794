//! Twists of kinds and flags: unknown kinds, those that the command does not name, other vendors, reserved flags.

use super::shape::{always, if_it_fits, one_avp, some_avp, Twist};
use crate::gen::request::Piece;
use crate::kinds::{Dialect, Kind, VENDOR};
use crate::message::{M, V};
use crate::rng::Rng;

pub const TWISTS: &[Twist] = &[
    always("unknown kinds without M", 8, |rng, r| {
        for _ in 0..rng.between(1, 4) {
            let mut piece = unknown(rng, r.dialect);
            piece.flags &= !M;
            r.insert(rng, piece);
        }
    }),
    always("unknown kind with M", 8, |rng, r| {
        let mut piece = unknown(rng, r.dialect);
        piece.flags |= M;
        r.insert(rng, piece);
    }),
    if_it_fits("unnamed kinds", 8, |rng, r| {
        let command = r.dialect.command(r.command)?;
        let unnamed: Vec<Kind> = r.dialect.kinds().into_iter().filter(|kind| !kind.is_named_in(command)).collect();
        for _ in 0..rng.between(1, 3) {
            let length = rng.below(9);
            let data = rng.bytes(length);
            let kind = *rng.pick(&unnamed);
            let piece = Piece::of(rng, kind, data);
            r.insert(rng, piece);
        }
        Some(())
    }),
    always("a known code of another vendor", 5, |rng, r| {
        let kind = *rng.pick(&r.dialect.kinds());
        let piece = other_vendor(rng, kind);
        r.insert(rng, piece);
    }),
    always("a kind of the other interface", 5, |rng, r| {
        let kind = of_the_other(rng, r.dialect);
        let length = rng.below(9);
        let data = rng.bytes(length);
        let mut piece = Piece::of(rng, kind, data);
        piece.flags &= if rng.once_in(4) { !M } else { 0xFF };
        r.insert(rng, piece);
    }),
    one_avp("V turned", 6, |rng, r, at| {
        let piece = &mut r.pieces[at];
        piece.flags ^= V;
        piece.vendor = *rng.pick(&[0, VENDOR, 50]);
        if rng.coin() {
            piece.flags &= !M;
        }
    }),
    if_it_fits("another vendor", 3, |rng, r| {
        let at = some_avp(rng, r, Piece::has_vendor)?;
        r.pieces[at].vendor = *rng.pick(&[0, 50, VENDOR + 1, VENDOR | 1 << 24]);
        if rng.coin() {
            r.pieces[at].flags &= !M;
        }
        Some(())
    }),
    one_avp("reserved flags", 8, |rng, r, at| {
        r.pieces[at].flags |= if rng.coin() { 1 << rng.below(5) } else { rng.between(1, 31) as u8 };
    }),
    always("reserved flags of a skipped AVP", 4, |rng, r| {
        let mut piece = if rng.coin() {
            unknown(rng, r.dialect)
        } else {
            let kind = *rng.pick(&r.dialect.kinds());
            let length = rng.below(9);
            let data = rng.bytes(length);
            Piece::of(rng, kind, data)
        };
        piece.flags |= 1 << rng.below(5);
        r.insert(rng, piece);
    }),
    always("M and P of known kinds", 4, |rng, r| {
        for piece in &mut r.pieces {
            if rng.coin() {
                piece.flags ^= *rng.pick(&[0x40, 0x20, 0x60]);
            }
        }
    }),
];

/// A known code, but of another vendor, or of vendor 0 with V, or without the V it needs.
fn other_vendor(rng: &mut Rng, kind: Kind) -> Piece {
    let length = rng.below(9);
    let data = rng.bytes(length);
    let vendor = match kind.vendor() {
        None => Some(*rng.pick(&[0, 0, VENDOR, 50])),
        Some(_) => *rng.pick(&[None, None, Some(0), Some(50), Some(VENDOR + 1)]),
    };
    let flags = if rng.coin() { M } else { 0 };
    Piece::new(rng, vendor, kind.code(), flags, data)
}

/// An AVP of a kind that the interface does not know, marked or not.
pub fn unknown(rng: &mut Rng, dialect: Dialect) -> Piece {
    let length = if rng.once_in(20) { rng.below(200) } else { rng.below(10) };
    let data = rng.bytes(length);
    let flags = *rng.pick(&[0, 0, 0x20, M, 0x60]);
    match rng.below(7) {
        0 => {
            let kind = *rng.pick(&dialect.kinds());
            let piece = other_vendor(rng, kind);
            Piece { flags: piece.flags & V | flags, ..piece }
        }
        // The answer's and the groups' kinds, and those that real requests carry.
        1 => {
            let code = *rng.pick(&[258, 266, 268, 278, 279, 297, 298]);
            Piece::new(rng, None, code, flags, data)
        }
        2 => {
            let code =
                *rng.pick(&[603, 604, 605, 606, 608, 609, 610, 611, 613, 625, 626, 629, 630, 633, 637, 701, 702, 704]);
            Piece::new(rng, Some(VENDOR), code, flags, data)
        }
        // A known code in 16 bits.
        3 => {
            let kind = *rng.pick(&dialect.kinds());
            let code = kind.code() | 1 << rng.between(16, 31);
            Piece::new(rng, kind.vendor(), code, flags, data)
        }
        4 => {
            let code = rng.word();
            Piece::new(rng, Some(50), code, flags, data)
        }
        5 => {
            let kind = of_the_other(rng, dialect);
            Piece::new(rng, kind.vendor(), kind.code(), flags, data)
        }
        _ => {
            let (code, vendor) = (0x1000 + (rng.word() >> 8), rng.coin().then_some(VENDOR));
            Piece::new(rng, vendor, code, flags, data)
        }
    }
}

/// A kind that only the other interface knows.
fn of_the_other(rng: &mut Rng, dialect: Dialect) -> Kind {
    let (own, all) = (dialect.kinds(), [Dialect::Cx.kinds(), Dialect::Sh.kinds()].concat());
    let others: Vec<Kind> = all.into_iter().filter(|kind| !own.contains(kind)).collect();
    *rng.pick(&others)
}

pub fn proxy_info(rng: &mut Rng) -> Piece {
    let length = rng.below(30);
    let data = rng.bytes(length);
    let flags = *rng.pick(&[M, 0, 0x60]);
    Piece::new(rng, None, Kind::ProxyInfo.code(), flags, data)
}
