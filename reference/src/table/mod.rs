//! The subscriber table.

mod editions;
mod layout;
mod sets;
mod soundness;

pub use layout::*;
pub use sets::Set;
pub use soundness::{check, check_exactly, check_exactly_with, check_with};
