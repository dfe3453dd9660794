//! LIR.

use super::lookup::{by_public, first_server_name};
use super::sets::{is_barred, members};
use crate::read::Request;
use crate::slip::{Fault, Slip};
use crate::table::{Table, BARRED, NOT_REGISTERED, UNREGISTERED, UNREGISTERED_SERVICES};
use crate::verdict::Code::{Base, Experimental};
use crate::verdict::Verdict;

pub fn location_info<'a>(request: &Request<'a>, table: Table<'a>, slip: Slip) -> Verdict<'a> {
    let record = match by_public(table, request.identities[0].data, slip) {
        Some((_, record)) => record,
        None => return Verdict::of(Experimental(5001)),
    };
    let barred = match slip.0 {
        Some(Fault::BarredNotLocated) => record.has(BARRED),
        Some(Fault::BarredSetNotLocated) => is_barred(table, record, 0, slip),
        _ => false,
    };
    if barred {
        return Verdict::of(Base(5003));
    }
    let overlooked = slip.is(Fault::State2IsState0InLocation) && record.state() == UNREGISTERED;
    if record.state() != NOT_REGISTERED && !overlooked {
        if slip.is(Fault::NoNameUnableInLocation) && record.server_name().is_empty() {
            return Verdict::of(Base(5012));
        }
        return Verdict::of(Base(2001)).with_server_name(record.server_name());
    }
    let services = match slip.0 {
        Some(Fault::UnregisteredServicesNotAsked) => true,
        Some(Fault::ServicesOfSet) => members(table, record).any(|it| it.has(UNREGISTERED_SERVICES)),
        _ => false,
    };
    if !record.has(UNREGISTERED_SERVICES) && !services {
        return Verdict::of(Experimental(5003));
    }
    match first_server_name(table, record, slip) {
        Some(name) if !slip.is(Fault::LocationByOwnNameAlone) => Verdict::of(Base(2001)).with_server_name(name),
        _ => Verdict::of(Experimental(2003)).with_capabilities(record),
    }
}
