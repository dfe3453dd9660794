//! Cases of the list: exports and imports.

mod exports;
mod imports;
mod listable;
mod spoils;
mod top;

use super::made::Made;
use crate::rng::Rng;

pub use exports::NOTES as OF_EXPORTS;
pub use imports::NOTES as OF_IMPORTS;
pub use spoils::spoils;

pub fn case(rng: &mut Rng) -> Made {
    match rng.below(5) {
        0 | 1 => exports::case(rng),
        _ => imports::case(rng),
    }
}
