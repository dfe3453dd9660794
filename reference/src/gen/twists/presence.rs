//! Twists of which AVPs there are, how often and in which order.

use super::kinds::{proxy_info, unknown};
use super::shape::{always, if_it_fits, one_avp, some_avp, Twist};
use crate::kinds::Kind;

pub const TWISTS: &[Twist] = &[
    always("no AVPs", 1, |_, r| {
        r.pieces.clear();
    }),
    one_avp("one AVP left out", 11, |_, r, at| {
        r.pieces.remove(at);
    }),
    if_it_fits("one of the command's own AVPs left out", 5, |rng, r| {
        let at = some_avp(rng, r, |piece| piece.has_vendor() || piece.is(Kind::UserName))?;
        r.pieces.remove(at);
        Some(())
    }),
    always("several AVPs left out", 4, |rng, r| {
        let first = r.pieces.first().cloned();
        r.pieces.retain(|_| rng.below(3) > 0);
        if let (Some(first), false) = (first, r.place(Kind::SessionId) == Some(0) || rng.once_in(5)) {
            r.pieces.insert(0, first);
        }
    }),
    one_avp("one AVP twice", 6, |rng, r, at| {
        let again = r.pieces[at].clone();
        r.insert(rng, again);
    }),
    one_avp("one AVP twice, the other way", 6, |rng, r, at| {
        // The second may have faults of its own: it comes too often before that.
        let mut again = r.pieces[at].clone();
        let length = rng.below(9);
        again.data = rng.bytes(length);
        r.insert(rng, again);
    }),
    if_it_fits("one of the command's own AVPs twice", 12, |rng, r| {
        let at = some_avp(rng, r, |piece| piece.has_vendor() || piece.is(Kind::DestinationHost))?;
        let again = r.pieces[at].clone();
        r.insert(rng, again);
        Some(())
    }),
    if_it_fits("AVPs in another order", 3, |rng, r| {
        if r.pieces.len() < 3 {
            return None;
        }
        rng.shuffle(&mut r.pieces[1..]);
        Some(())
    }),
    if_it_fits("another AVP first", 4, |rng, r| {
        if r.pieces.len() < 2 {
            return None;
        }
        let other = rng.between(1, r.pieces.len() - 1);
        r.pieces.swap(0, other);
        Some(())
    }),
    always("an unknown AVP first", 2, |rng, r| {
        let piece = unknown(rng, r.dialect);
        r.pieces.insert(0, piece);
    }),
    always("a first AVP that is at fault besides", 4, |rng, r| {
        let mut piece = match r.pieces.len() {
            0 => unknown(rng, r.dialect),
            count => r.pieces.remove(rng.below(count)),
        };
        match rng.below(3) {
            0 => piece.flags |= 1 << rng.below(5),
            1 => piece.told_length = Some(rng.below(12) as u32),
            _ => piece.code = 263 | 1 << rng.between(10, 31),
        }
        r.pieces.insert(0, piece);
    }),
    always("Proxy-Info first", 1, |rng, r| {
        let piece = proxy_info(rng);
        r.pieces.insert(0, piece);
    }),
];
