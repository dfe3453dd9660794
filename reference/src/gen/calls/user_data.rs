//! User-Data-Requests of which something is asked that requests of Cx have not: each with a twist of its own.

use super::call::right;
use crate::gen::made::Made;
use crate::gen::twists;
use crate::kinds::Dialect;
use crate::rng::Rng;

pub fn case(rng: &mut Rng) -> Made {
    let mut call = right(rng, Dialect::Sh).noted("a UDR");
    call.notes.push(twists::twist_user_data(rng, &mut call.request));
    if rng.once_in(6) {
        call.notes.push(twists::twist_once(rng, &mut call.request));
    }
    call.finish(rng)
}
