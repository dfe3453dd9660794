//! MARs of which something is asked that other requests have not: each with a twist of its own, or of the vectors.

use super::call::Call;
use crate::gen::asks;
use crate::gen::made::Made;
use crate::gen::tables;
use crate::gen::twists;
use crate::rng::Rng;

pub fn case(rng: &mut Rng) -> Made {
    let size = rng.between(1, 8);
    let sound = tables::sound(rng, size);
    let request = asks::authentication(rng, &sound.model);
    let mut call = Call::new(rng, sound, request).noted("a MAR");
    if rng.below(3) > 0 {
        call.notes.push(twists::twist_item(rng, &mut call.request));
    }
    if rng.once_in(6) {
        call.notes.push(twists::twist_once(rng, &mut call.request));
    }
    call.finish(rng)
}
