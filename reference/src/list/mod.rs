//! The list for the billing desk: export of a table as comma-separated lines, and import of such a list.

mod columns;
mod export;
mod import;
mod read;
mod room;
mod write;

pub use columns::{is_listable, Fields, FIRST_LINE, NAMES};
pub use export::{export, list};
pub use import::{import, judge};
pub use read::{Blame, Reason};
pub use room::names_above;
