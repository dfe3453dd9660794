//! Cases of the report and of the row: files of requests laid end to end, some of them broken, with table and vectors carried along.

mod month;
mod pieces;
mod rows;

use super::made::Made;
use super::peers;
use crate::cases::Case;
use crate::refuse::LEAST_BUFFER;
use crate::report::LEAST_REPORT;
use crate::rng::Rng;
use crate::stated::Stated;
use month::{Files, Month};

pub use rows::{case as row, NOTES as OF_ROWS};

/// What a case may be noted as.
pub const NOTES: [&str; 20] = [
    "right",
    "a twist",
    "the same again",
    "628s for the set",
    "a header alone",
    "a length that is no multiple of 4",
    "no R bit",
    "over 16,384 bytes",
    "1 to 3 bytes left",
    "4 to 19 bytes left",
    "a length under 20",
    "a length past the end",
    "requests behind the broken one",
    "another buffer",
    "another report area",
    "damaged table",
    "damaged vectors",
    "an unknown peer",
    "some hundred headers",
    "some hundred records",
];

pub fn case(rng: &mut Rng) -> Made {
    if rng.once_in(3000) {
        return headers(rng, 65_536, "65,536 headers and more");
    }
    if rng.once_in(150) {
        return headers(rng, 256, "some hundred headers");
    }
    if rng.once_in(100) {
        return records(rng);
    }
    if rng.once_in(4000) {
        return longest(rng);
    }
    let mut notes = vec![];
    let month = pieces::month(rng, 40, &mut notes);
    finish(rng, month, notes)
}

/// So many requests of 20 bytes and a few more, over a table that has few records or none: counts that pass 8 or 16 bits.
fn headers(rng: &mut Rng, count: usize, note: &'static str) -> Made {
    let records = rng.below(2);
    let month = Month::new(rng, records);
    let requests = pieces::headers(rng, count);
    plain(rng, requests, Files { vectors: vec![], ..month.came }, month.stated, note)
}

/// Removals of some hundred records at once.
fn records(rng: &mut Rng) -> Made {
    let mut month = Month::of_one(rng);
    for _ in 0..rng.between(1, 4) {
        let piece = pieces::all_at_once(rng, &month);
        month.add(piece);
    }
    plain(rng, month.requests, month.came, month.stated, "some hundred records")
}

/// A request of about the greatest length that a header can say, between others.
fn longest(rng: &mut Rng) -> Made {
    let mut month = Month::new(rng, 2);
    for between in [false, true, false] {
        let piece = if between { pieces::longest(rng) } else { pieces::right(rng, &month) };
        month.add(piece);
    }
    plain(rng, month.requests, month.came, month.stated, "a request of 16 MiB")
}

/// With room for all.
fn plain(rng: &mut Rng, requests: Vec<u8>, files: Files, stated: Stated, note: &'static str) -> Made {
    let Files { table, profile, vectors } = files;
    let case = Case::report(rng.byte(), requests, [table, profile, vectors], LEAST_BUFFER, LEAST_REPORT, stated);
    Made { case, notes: vec![note], damaged: None }
}

/// Mostly with sound files and room for all; now and then not.
fn finish(rng: &mut Rng, month: Month, mut notes: Vec<&'static str>) -> Made {
    let Month { came: mut files, mut stated, requests, .. } = month;
    let mut buffer = LEAST_BUFFER;
    if rng.once_in(16) {
        notes.push("another buffer");
        buffer = *rng.pick(&[0, LEAST_BUFFER - 1, LEAST_BUFFER - 1, LEAST_BUFFER + 1, 40_000]);
    }
    if rng.once_in(16) {
        notes.push("an unknown peer");
        stated.peer = peers::unknown(rng).peer;
    }
    let mut area = LEAST_REPORT;
    if rng.once_in(8) {
        notes.push("another report area");
        area = *rng.pick(&[
            0,
            20,
            LEAST_REPORT / 2,
            LEAST_REPORT - 8,
            LEAST_REPORT - 1,
            LEAST_REPORT - 1,
            LEAST_REPORT + 1,
            LEAST_REPORT + 8,
            2000,
        ]);
    }
    files.spoil(rng, &mut notes);
    let Files { table, profile, vectors } = files;
    let case = Case::report(rng.byte(), requests, [table, profile, vectors], buffer, area, stated);
    Made { case, notes, damaged: None }
}
