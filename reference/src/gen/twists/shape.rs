//! What a twist is.

use crate::gen::request::{Piece, RequestModel};
use crate::kinds::Kind;
use crate::rng::Rng;

pub struct Twist {
    pub name: &'static str,
    pub weight: usize,
    doing: Doing,
}

enum Doing {
    Always(fn(&mut Rng, &mut RequestModel)),
    /// To the AVP in this place; a request without AVPs has none.
    OneAvp(fn(&mut Rng, &mut RequestModel, usize)),
    /// None if the request has no place for it.
    IfItFits(fn(&mut Rng, &mut RequestModel) -> Option<()>),
}

pub const fn always(name: &'static str, weight: usize, doing: fn(&mut Rng, &mut RequestModel)) -> Twist {
    Twist { name, weight, doing: Doing::Always(doing) }
}

pub const fn one_avp(name: &'static str, weight: usize, doing: fn(&mut Rng, &mut RequestModel, usize)) -> Twist {
    Twist { name, weight, doing: Doing::OneAvp(doing) }
}

pub const fn if_it_fits(
    name: &'static str,
    weight: usize,
    doing: fn(&mut Rng, &mut RequestModel) -> Option<()>,
) -> Twist {
    Twist { name, weight, doing: Doing::IfItFits(doing) }
}

impl Twist {
    pub fn done(&self, rng: &mut Rng, request: &mut RequestModel) -> Option<()> {
        match self.doing {
            Doing::Always(doing) => doing(rng, request),
            Doing::OneAvp(doing) => {
                let at = some_avp(rng, request, |_| true)?;
                doing(rng, request, at);
            }
            Doing::IfItFits(doing) => return doing(rng, request),
        }
        Some(())
    }
}

/// Puts an AVP in again, half of the time with other data: it comes too often before that counts.
pub fn twice(rng: &mut Rng, request: &mut RequestModel, at: usize) {
    let mut again = request.pieces[at].clone();
    if rng.coin() {
        let length = rng.below(9);
        again.data = rng.bytes(length);
    }
    request.insert(rng, again);
}

/// Gives a 4-byte kind another length.
pub fn resized(rng: &mut Rng, request: &mut RequestModel, kind: Kind) -> Option<()> {
    let at = request.place(kind)?;
    let length = *rng.pick(&[0, 1, 2, 3, 5, 8]);
    request.pieces[at].data.resize(length, 0);
    Some(())
}

/// The place of one of the AVPs that are wanted.
pub fn some_avp(rng: &mut Rng, request: &RequestModel, wanted: fn(&Piece) -> bool) -> Option<usize> {
    let places: Vec<usize> = (0..request.pieces.len()).filter(|n| wanted(&request.pieces[*n])).collect();
    (!places.is_empty()).then(|| *rng.pick(&places))
}
