//! The report over a file of requests laid end to end, with table and vectors carried along.

mod astray;
mod lent;
mod numbers;
mod pieces;

use std::collections::BTreeSet;

use crate::block::BLOCK;
use crate::serve::{call, Done};
use crate::slip::{Fault, Slip};
use crate::table::{Set, Table};
use crate::verdict::Why;

use lent::Files;
pub use lent::{Lent, LEAST_REPORT};
pub use numbers::{name, row_name, word, Numbers, COLUMNS, REST};
pub use pieces::{next, Next};

/// The return word. With 7 the numbers so far are written, and all is as the requests before left it.
pub fn report(mut lent: Lent, slip: Slip) -> (u64, Why) {
    if let Some(word) = refusal(&mut lent, slip) {
        return (word, Why::Refused((word >> 48) as u32));
    }
    let came = astray::Came::of(&lent);
    let mut numbers = Numbers::NONE;
    let mut ever = BTreeSet::new();
    let mut at = 0;
    let broken = loop {
        if slip.is(Fault::UnknownPeerEndsReport) && !lent.stated.has_known_peer() {
            break true;
        }
        let piece = match next(lent.requests, at, slip) {
            Next::Piece(piece) => piece,
            Next::End => break false,
            Next::Broken => break true,
        };
        let before = Files::of(&lent);
        astray::before_request(&mut lent, &came, slip);
        let done = decided(&mut lent, piece, at, slip);
        numbers.count(piece, &done, slip);
        let sum = &mut numbers.0[word::ALTERED];
        *sum = sum.wrapping_add(altered(&before, &lent, piece, &done, &mut ever, slip));
        at += pieces::step(piece, slip);
    };
    numbers.0[word::STOPPED] = at as u64;
    let value = astray::at_end(&mut lent, &came, &mut numbers, broken, slip);
    if !(broken && slip.is(Fault::BrokenNotWritten)) {
        write(lent.report, &numbers, slip);
    }
    (if broken { 7 << 48 } else { 0 } | value, Why::Reported)
}

/// Only the report area can refuse a report, before anything is run.
fn refusal(lent: &mut Lent, slip: Slip) -> Option<u64> {
    let least = match slip.0 {
        Some(Fault::LeastReportRefused) => LEAST_REPORT + 1,
        Some(Fault::ShorterReportTaken) => LEAST_REPORT - 1,
        _ => LEAST_REPORT,
    };
    match lent.report.len() < least {
        true => Some(astray::too_short(lent, slip)),
        false => astray::refusal(lent, slip),
    }
}

/// A piece is decided as its bytes.
fn decided(lent: &mut Lent, piece: &[u8], at: usize, slip: Slip) -> Done {
    let piece = if slip.is(Fault::PieceWithRest) { &lent.requests[at..] } else { piece };
    let stated = astray::stated(lent.stated, slip);
    let slip = match slip.0 {
        Some(Fault::AgreementNotAskedInReports) => Slip::of(Fault::AgreementNotAskedInDecisions),
        Some(Fault::LongerAreaNotReported) => Slip::of(Fault::LongerAreaNotDecided),
        _ => slip,
    };
    astray::refused(lent, slip)
        .unwrap_or_else(|| call(piece, lent.table, lent.profile, lent.vectors, lent.buffer, stated, slip))
}

/// The blocks that differ.
pub fn differing<'a>(before: &'a [u8], after: &'a [u8]) -> impl Iterator<Item = usize> + 'a {
    let both = before.chunks(BLOCK).zip(after.chunks(BLOCK));
    both.enumerate().filter(|(_, (before, after))| before != after).map(|(block, _)| block)
}

/// How many records have other bytes than before the request.
fn altered(before: &Files, lent: &Lent, piece: &[u8], done: &Done, ever: &mut BTreeSet<usize>, slip: Slip) -> u64 {
    let records: Vec<usize> = differing(&before.table, lent.table).collect();
    (match slip.0 {
        Some(Fault::AlteringRequestsCounted) => records.len().min(1),
        Some(Fault::EqualRewritingsCounted) => done.rewritten,
        Some(Fault::RecordsOfTheMonth) => records.into_iter().filter(|block| ever.insert(*block)).count(),
        Some(Fault::MarkedVectorsCounted) => records.len() + differing(&before.vectors, lent.vectors).count(),
        Some(Fault::NamedTwiceCountedTwice) if !records.is_empty() => astray::identities(piece).max(records.len()),
        Some(Fault::AlteredIn8Bits) => records.len() & 0xFF,
        Some(Fault::LastRecordNotCompared) => {
            records.iter().filter(|block| **block != Table(lent.table).records().count()).count()
        }
        Some(Fault::SetCountedOnce) => {
            let of = |block: usize| Table(lent.table).record(block).implicit_set().ok_or(block);
            records.iter().map(|block| of(*block)).collect::<BTreeSet<Result<Set, usize>>>().len()
        }
        Some(Fault::AlteredSpanCounted) => records.last().map_or(0, |last| last - records[0] + 1),
        _ => records.len(),
    }) as u64
}

/// The words, big-endian; what is behind them stays.
fn write(report: &mut [u8], numbers: &Numbers, slip: Slip) {
    let words = astray::laid_out(numbers, slip);
    let bytes: Vec<u8> = match slip.0 {
        Some(Fault::ReportLittleEndian) => words.iter().flat_map(|word| word.to_le_bytes()).collect(),
        Some(Fault::ReportIn32Bits) => words.iter().flat_map(|word| (*word as u32).to_be_bytes()).collect(),
        _ => words.iter().flat_map(|word| word.to_be_bytes()).collect(),
    };
    let end = bytes.len().min(report.len());
    report[..end].copy_from_slice(&bytes[..end]);
    if slip.is(Fault::RestOfReportCleared) {
        report[end..].fill(0);
    }
}
