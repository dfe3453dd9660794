//! The refusals of a call.

use crate::block::BLOCK;
use crate::kinds::{Command, Dialect};
use crate::message::{Message, HEADER, R};
use crate::read::{fault_of, read_header, SEVERAL};
use crate::slip::{Fault, Slip};
use crate::stated::{Stated, RFC_6733};
use crate::table::{self, Table, EDITION, EDITION_1, EDITION_2, LONGEST_PROFILE};
use crate::vectors::{self, vector, Vector, Vectors};
use crate::verdict::Why;

pub const LEAST_BUFFER: usize = 36_864;
pub const LEAST_REQUEST: usize = 20;
pub const MOST_REQUEST: usize = 16_384;

/// What is lent to a call.
pub struct Lent<'a> {
    pub dialect: Dialect,
    pub request: &'a [u8],
    /// The working area, with the table at its front.
    pub table: &'a [u8],
    pub profile: &'a [u8],
    /// To a call of Cx alone.
    pub vectors: &'a [u8],
    pub buffer: &'a [u8],
    pub stated: Stated,
}

impl Lent<'_> {
    /// Whether the request has a fault in reading; only a faulty program asks it here.
    fn is_at_fault(&self, slip: Slip) -> bool {
        fault_of(Message(self.request), self.dialect, self.stated, slip).is_some()
    }
}

/// The first refusal in their order: its number, and what is returned besides.
pub fn refusal(lent: &Lent, slip: Slip) -> Option<(u32, u32)> {
    let order = match slip.0 {
        Some(Fault::RequestBeforeBuffer) => [12, 2, 1, 3, 4, 5, 6],
        Some(Fault::TableBeforeRequest) => [12, 1, 5, 2, 3, 4, 6],
        Some(Fault::RequestBitBeforeLength) => [12, 1, 2, 4, 3, 5, 6],
        Some(Fault::VectorsBeforeTable) => [12, 1, 2, 3, 4, 6, 5],
        Some(Fault::VectorsBeforeRequest) => [12, 1, 6, 2, 3, 4, 5],
        Some(Fault::PeerAfterBuffer) => [1, 12, 2, 3, 4, 5, 6],
        Some(Fault::PeerAfterRequest) => [1, 2, 3, 4, 12, 5, 6],
        Some(Fault::PeerAfterTable) => [1, 2, 3, 4, 5, 12, 6],
        Some(Fault::PeerLast) => [1, 2, 3, 4, 5, 6, 12],
        _ => [12, 1, 2, 3, 4, 5, 6],
    };
    let told = |number| match (slip.0, number) {
        (Some(Fault::UnsoundVectorsAreFive), 6) => 5,
        (Some(Fault::UnknownPeerIsOne), 12) => 1,
        _ => number,
    };
    let given = order.into_iter().filter(|number| *number != 6 || lent.dialect == Dialect::Cx);
    given.into_iter().find_map(|number| Some((told(number), besides(number, lent, slip)?)))
}

/// What refusal `number` returns besides, if it is given. Those of 3 and 4 look at a header, which is there after 2.
fn besides(number: u32, lent: &Lent, slip: Slip) -> Option<u32> {
    let length = lent.request.len();
    let given = match number {
        1 => {
            let least = match slip.0 {
                Some(Fault::LeastBufferRefused) => LEAST_BUFFER + 1,
                Some(Fault::ShorterBufferTaken) => LEAST_BUFFER - 1,
                _ => LEAST_BUFFER,
            };
            lent.buffer.len() < least
        }
        2 => {
            let most = match slip.0 {
                Some(Fault::MostRequestRefused) => MOST_REQUEST - 1,
                Some(Fault::LongerRequestTaken) => MOST_REQUEST + 4,
                _ => MOST_REQUEST,
            };
            length < LEAST_REQUEST || length > most
        }
        3 => {
            let told = Message(lent.request).length();
            let differs = match slip.0 {
                Some(Fault::ShorterHeaderTaken) => told > length,
                Some(Fault::LongerHeaderTaken) => told < length,
                Some(Fault::HeaderLengthIn16Bits) => told & 0xFFFF != length,
                _ => told != length,
            };
            differs || (told % 4 != 0 && !slip.is(Fault::MultipleOf4NotAsked))
        }
        4 => Message(lent.request).flags() & R == 0 && !slip.is(Fault::RequestBitNotAsked),
        5 => return bad_block(lent, slip),
        12 => return unknown_peer(lent, slip),
        _ => return bad_vectors(lent, slip),
    };
    given.then_some(0)
}

/// Refusal 12. Before it nothing is asked of the request, not even whether it has a header.
fn unknown_peer(lent: &Lent, slip: Slip) -> Option<u32> {
    let message = Some(Message(lent.request)).filter(|_| lent.request.len() >= HEADER);
    let overlooked = match (slip.0, message) {
        (Some(Fault::PeerNotForHeaderFaults), Some(message)) => read_header(message, lent.dialect, slip).is_err(),
        (Some(Fault::PeerOnlyForDecisions), Some(_)) => lent.is_at_fault(slip),
        (Some(Fault::PeerOnlyForSeveralVendors), Some(message)) => {
            let finding = fault_of(message, lent.dialect, Stated { peer: RFC_6733, ..lent.stated }, slip);
            finding.map_or(true, |finding| finding.why != Why::Rule('h', SEVERAL))
        }
        (Some(Fault::PeerNotAskedInSh), _) => lent.dialect == Dialect::Sh,
        _ => false,
    };
    let value = if slip.is(Fault::UnknownPeerTold) { lent.stated.peer } else { 0 };
    (!lent.stated.has_known_peer() && !overlooked).then_some(value)
}

fn bad_block(lent: &Lent, slip: Slip) -> Option<u32> {
    if slip.is(Fault::TableOnlyForDecisions) && lent.table.len() >= BLOCK && lent.is_at_fault(slip) {
        return None;
    }
    let in_sh = lent.dialect == Dialect::Sh;
    let found = match slip.0 {
        Some(Fault::AgreementNotAskedInSh) if in_sh => {
            table::check_with(lent.table, lent.profile.len(), Slip::of(Fault::SetsMayDisagree))
        }
        Some(Fault::LongerAreaRefusedInSh) if in_sh => table::check_exactly(lent.table, lent.profile.len()),
        Some(Fault::ProfileNotAskedInSh) if in_sh => {
            table::check_with(lent.table, u32::MAX as usize + LONGEST_PROFILE, slip)
        }
        Some(Fault::AgreementNotAskedInDecisions) => {
            table::check_with(lent.table, lent.profile.len(), Slip::of(Fault::SetsMayDisagree))
        }
        Some(Fault::AgreementAskedInDecisionsAlone | Fault::LongerAreaNotChecked) => {
            table::check(lent.table, lent.profile.len())
        }
        Some(Fault::LongerAreaNotDecided) => table::check_exactly(lent.table, lent.profile.len()),
        _ => table::check_with(lent.table, lent.profile.len(), slip),
    };
    let refused = match slip.0 {
        Some(Fault::Edition1NotDecided) => Some(EDITION_1),
        Some(Fault::Edition2NotDecided) => Some(EDITION_2),
        Some(Fault::Edition1RefusedInSh) if in_sh => Some(EDITION_1),
        _ => None,
    };
    if found.is_ok() && refused == Some(lent.table[EDITION]) {
        return Some(0);
    }
    let block = found.err()?;
    let is_zero = slip.is(Fault::UnsoundReturnsZero) || (in_sh && slip.is(Fault::UnsoundReturnsZeroInSh));
    Some(if is_zero { 0 } else { block })
}

/// Refusal 6, whatever the command; the block is not told here.
fn bad_vectors(lent: &Lent, slip: Slip) -> Option<u32> {
    let message = Message(lent.request);
    let overlooked = match slip.0 {
        Some(Fault::VectorsNotAsked) => true,
        Some(Fault::VectorsOnlyForAuthentication) => message.command() != Command::MultimediaAuth.code(),
        Some(Fault::VectorsOnlyForDecisions) => lent.is_at_fault(slip),
        Some(Fault::VectorsNotForHeaderFaults) => read_header(message, lent.dialect, slip).is_err(),
        _ => false,
    };
    if overlooked {
        return None;
    }
    let unknown = |vector: Vector| Table(lent.table).records().all(|(_, record)| record.private() != vector.private());
    match vectors::check_with(lent.vectors, slip) {
        Err(block) if slip.is(Fault::UnsoundVectorsTellBlock) => Some(block),
        Err(_) => Some(0),
        Ok(_) if slip.is(Fault::VectorNameMustBeKnown) => {
            Vectors(lent.vectors).all().any(|(_, vector)| unknown(vector)).then_some(0)
        }
        Ok(_) if slip.is(Fault::VectorsOfTableEdition) => {
            Vectors(lent.vectors).all().any(|(_, vector)| vector.0[vector::USED] != lent.table[EDITION]).then_some(0)
        }
        Ok(_) => None,
    }
}
