//! The vector file, which document 02 adds for the authentication request.

mod layout;
mod soundness;

pub use layout::*;
pub use soundness::{check, check_with};
