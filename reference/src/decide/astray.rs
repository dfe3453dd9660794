//! Deliberate faults of whole verdicts and of look-ups.

use std::cmp::Ordering;

use super::sets::first_of_set;
use crate::read::Request;
use crate::slip::{Fault, Slip};
use crate::table::{Record, Table};
use crate::verdict::Code::{Base, Experimental};
use crate::verdict::{Failed, Verdict};

/// Where a base result of the same number is sent for an experimental one.
const BASE_FOR: [(Fault, u32); 11] = [
    (Fault::BaseForFirstRegistration, 2001),
    (Fault::BaseForSubsequentRegistration, 2002),
    (Fault::BaseForUnregisteredService, 2003),
    (Fault::BaseForNameNotStored, 2004),
    (Fault::BaseForUserUnknown, 5001),
    (Fault::BaseForNoMatch, 5002),
    (Fault::BaseForNotRegistered, 5003),
    (Fault::BaseForRoamingNotAllowed, 5004),
    (Fault::BaseForAlreadyRegistered, 5005),
    (Fault::BaseForSchemeNotSupported, 5006),
    (Fault::BaseForAssignmentType, 5007),
];

/// Changes a verdict as the fault would.
pub fn verdict<'a>(verdict: &mut Verdict<'a>, request: &Request<'a>, table: Table<'a>, slip: Slip) {
    let failed = match (slip.0, verdict.result) {
        (Some(Fault::FailedAvpForBarred), Base(5003)) => request.identities.first(),
        (Some(Fault::FailedAvpForUnable), Base(5012)) => request.identities.first(),
        (Some(Fault::FailedAvpForExperimental), Experimental(5001..=5007)) => request.identities.first(),
        _ => None,
    };
    if let Some(avp) = failed {
        verdict.failed = Failed::Whole(*avp);
    }
    if let (Some(asked), true) = (verdict.capabilities, slip.is(Fault::CapabilitiesOfFirstRecord)) {
        let first = table.records().find(|(_, record)| record.private() == asked.private());
        verdict.capabilities = first.map(|(_, record)| record);
    }
    if let (Some(asked), true) = (verdict.capabilities, slip.is(Fault::CapabilitiesOfSet)) {
        verdict.capabilities = Some(first_of_set(table, asked));
    }
    if let Experimental(code) = verdict.result {
        if BASE_FOR.iter().any(|(fault, of)| slip.is(*fault) && code == *of) {
            verdict.result = Base(code);
        }
    }
}

/// What a faulty look-up finds; none if there is no fault in it.
pub fn by_public<'a>(table: Table<'a>, public: &[u8], slip: Slip) -> Option<Option<(usize, Record<'a>)>> {
    let find = |same: fn(&[u8], &[u8]) -> bool| table.records().find(|(_, record)| same(record.public(), public));
    let exactly = || find(|stored, given| stored == given);
    Some(match slip.0? {
        Fault::IdentityWithoutCase => find(|stored, given| stored.eq_ignore_ascii_case(given)),
        Fault::IdentityEndsAtZero => find(|stored, given| up_to_zero(stored) == up_to_zero(given)),
        Fault::IdentityLengthIn8Bits => find(|stored, given| stored == &given[..given.len() & 0xFF]),
        Fault::LastRecordNotFound => exactly().filter(|(block, _)| *block != table.records().count()),
        Fault::RecordIndexIn8Bits => exactly().map(|(block, _)| {
            let kept = (block - 1) % 256 + 1;
            (kept, table.record(kept))
        }),
        Fault::LookUpHalves11Times => halve_11_times(table, public),
        _ => return None,
    })
}

fn up_to_zero(name: &[u8]) -> &[u8] {
    name.split(|byte| *byte == 0).next().unwrap_or(&[])
}

fn halve_11_times<'a>(table: Table<'a>, public: &[u8]) -> Option<(usize, Record<'a>)> {
    let (mut first, mut end) = (1, table.records().count() + 1);
    for _ in 0..11 {
        if first == end {
            return None;
        }
        let middle = (first + end) / 2;
        match table.record(middle).public().cmp(public) {
            Ordering::Less => first = middle + 1,
            Ordering::Equal => return Some((middle, table.record(middle))),
            Ordering::Greater => end = middle,
        }
    }
    None
}
