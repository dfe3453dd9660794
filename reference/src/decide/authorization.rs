//! UAR.

use super::lookup::{by_public, first_server_name, is_private_known};
use super::sets::{is_barred, members};
use crate::read::Request;
use crate::slip::{Fault, Slip};
use crate::table::{Record, Table, NOT_REGISTERED, UNREGISTERED};
use crate::verdict::Code::{Base, Experimental};
use crate::verdict::Verdict;

pub fn user_authorization<'a>(request: &Request<'a>, table: Table<'a>, slip: Slip) -> Verdict<'a> {
    let asked_type = request.authorization_type;
    let private = request.user_name.unwrap_or(&[]);
    let record = match by_public(table, request.identities[0].data, slip) {
        Some((_, record)) => record,
        None => return Verdict::of(Experimental(5001)),
    };
    if !is_private_known(table, private) && !slip.is(Fault::UnknownUserNameMismatches) {
        return Verdict::of(Experimental(5001));
    }
    if record.private() != private {
        return Verdict::of(Experimental(5002));
    }
    let roaming = !is_roaming_asked(asked_type, slip) || may_roam(request.visited_network, record, table, slip);
    if slip.is(Fault::RoamingBeforeBarring) && !roaming {
        return Verdict::of(Experimental(5004));
    }
    if is_barred(table, record, asked_type, slip) {
        return Verdict::of(if slip.is(Fault::BarredIsExperimental) { Experimental(5003) } else { Base(5003) });
    }
    if !roaming {
        return Verdict::of(Experimental(5004));
    }
    by_type_and_state(asked_type, record, table, slip)
}

fn is_roaming_asked(asked_type: u32, slip: Slip) -> bool {
    match asked_type {
        0 => true,
        2 => !slip.is(Fault::RoamingFreeForType2),
        _ => slip.is(Fault::RoamingAskedForType1),
    }
}

/// The visited network is named in the header, and the record's bit for it is set.
fn may_roam(visited: &[u8], record: Record, table: Table, slip: Slip) -> bool {
    let header = table.header();
    let alike = |name: &[u8]| name == visited || (slip.is(Fault::NetworkPrefixTaken) && name.starts_with(visited));
    let allowed = |n: usize| match slip.0 {
        Some(Fault::RoamingBitNotAsked) => true,
        Some(Fault::RoamingBitsFromTheTop) => record.roams_in(7 - n),
        Some(Fault::RoamingOfSet) => record.roams_in(n) || members(table, record).any(|it| it.roams_in(n)),
        _ => record.roams_in(n),
    };
    (0..header.networks()).any(|n| alike(header.network(n)) && allowed(n))
}

/// What a user who is known, not barred and where he may be is told.
fn by_type_and_state<'a>(asked_type: u32, record: Record<'a>, table: Table<'a>, slip: Slip) -> Verdict<'a> {
    let state = match record.state() {
        UNREGISTERED if slip.is(Fault::State2IsState0InAuthorization) => NOT_REGISTERED,
        state => state,
    };
    if asked_type == 2 {
        if slip.is(Fault::Type2NamesServer) && state != NOT_REGISTERED {
            return Verdict::of(Base(2001)).with_server_name(record.server_name());
        }
        return Verdict::of(Base(2001)).with_capabilities(record);
    }
    if state != NOT_REGISTERED {
        if slip.is(Fault::NoNameUnableInAuthorization) && record.server_name().is_empty() {
            return Verdict::of(Base(5012));
        }
        let result = match asked_type {
            0 => Experimental(2002),
            _ if slip.is(Fault::DeregistrationIsSubsequent) => Experimental(2002),
            _ => Base(2001),
        };
        return Verdict::of(result).with_server_name(record.server_name());
    }
    if asked_type == 1 {
        return Verdict::of(Experimental(5003));
    }
    match first_server_name(table, record, slip) {
        Some(name) if !slip.is(Fault::SubscriptionNameNotAsked) => {
            Verdict::of(Experimental(2002)).with_server_name(name)
        }
        _ => Verdict::of(Experimental(2001)).with_capabilities(record),
    }
}
