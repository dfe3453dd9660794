//! Looking for records: by public identity, by private identity, and for a subscription's server name.

use super::astray;
use crate::slip::{Fault, Slip};
use crate::table::{Record, Table, NOT_REGISTERED};

pub fn by_public<'a>(table: Table<'a>, public: &[u8], slip: Slip) -> Option<(usize, Record<'a>)> {
    if let Some(found) = astray::by_public(table, public, slip) {
        return found;
    }
    table.records().find(|(_, record)| record.public() == public)
}

pub fn is_private_known(table: Table, private: &[u8]) -> bool {
    table.records().any(|(_, record)| record.private() == private)
}

/// The first server name stored in the subscription, by table order, in any state.
pub fn first_server_name<'a>(table: Table<'a>, asked: Record<'a>, slip: Slip) -> Option<&'a [u8]> {
    if slip.is(Fault::AskedNameFirst) && !asked.server_name().is_empty() {
        return Some(asked.server_name());
    }
    let mut names = table
        .records()
        .filter(|(_, record)| record.private() == asked.private() || slip.is(Fault::NameOfAnySubscription))
        .filter(|(_, record)| !slip.is(Fault::NameOfSetAlone) || record.set() == asked.set())
        .filter(|(_, record)| !slip.is(Fault::PendingNamesLeftOut) || record.state() != NOT_REGISTERED)
        .map(|(_, record)| record.server_name())
        .filter(|name| !name.is_empty());
    if slip.is(Fault::LastNameOfSubscription) {
        return names.last();
    }
    names.next()
}
