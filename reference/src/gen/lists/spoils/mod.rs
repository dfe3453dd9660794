//! Lists that are spoiled: every part of a line and every line, every rule of the table, and the header block.

mod cells;
mod header;
mod lines;
mod rules;
mod shape;

pub use shape::{Spoil, Subject};

use crate::rng::Rng;

/// Every spoil.
pub fn spoils() -> impl Iterator<Item = &'static Spoil> {
    [lines::SPOILS, cells::SPOILS, rules::SPOILS, header::SPOILS].into_iter().flatten()
}

/// Does one spoil; gives its name.
pub fn spoil(rng: &mut Rng, subject: &mut Subject) -> &'static str {
    let count = spoils().count();
    loop {
        let done = spoils().nth(rng.below(count)).filter(|spoil| spoil.done(rng, subject).is_some());
        if let Some(spoil) = done {
            return spoil.name;
        }
    }
}
