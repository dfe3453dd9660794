//! What is lent to a report.

use super::numbers::word;
use crate::stated::Stated;

/// The least report area, in bytes.
pub const LEAST_REPORT: usize = 8 * word::ALL;

pub struct Lent<'a> {
    pub requests: &'a [u8],
    pub table: &'a mut [u8],
    pub profile: &'a [u8],
    pub vectors: &'a mut [u8],
    pub buffer: &'a mut [u8],
    pub report: &'a mut [u8],
    /// Of all requests.
    pub stated: Stated,
}

/// What a request may alter, as it was at some moment.
pub struct Files {
    pub table: Vec<u8>,
    pub vectors: Vec<u8>,
}

impl Files {
    pub fn of(lent: &Lent) -> Files {
        Files { table: lent.table.to_vec(), vectors: lent.vectors.to_vec() }
    }
}
