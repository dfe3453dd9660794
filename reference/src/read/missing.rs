//! What is missing after a walk without fault.

use crate::kinds::{needed, Command, Kind};
use crate::slip::{Fault, Slip};
use crate::verdict::{Failed, Finding, Why};

/// The first missing AVP is told.
pub fn nothing_missing<'a>(there: &[Kind], command: Command, slip: Slip) -> Result<(), Finding<'a>> {
    match needed_in_order(command, slip).into_iter().find(|kind| !there.contains(kind)) {
        Some(kind) => Err(Finding { result: 5005, failed: Failed::Example(kind), place: 0, why: Why::Missing(kind) }),
        None => Ok(()),
    }
}

fn needed_in_order(command: Command, slip: Slip) -> Vec<Kind> {
    let mut kinds = needed(command);
    match (slip.0, command) {
        (Some(Fault::MissingLookedForBackwards), _) => kinds.reverse(),
        (Some(Fault::DestinationHostNeeded), _) => kinds.push(Kind::DestinationHost),
        (Some(Fault::UserNameNeededInAssignment), Command::ServerAssignment) => kinds.push(Kind::UserName),
        (Some(Fault::IdentityNeededInAssignment), Command::ServerAssignment) => kinds.push(Kind::PublicIdentity),
        (Some(Fault::TypeNeededInAuthorization), Command::UserAuthorization) => kinds.push(Kind::UserAuthorizationType),
        (Some(Fault::VisitedNetworkNotNeeded), _) => kinds.retain(|kind| *kind != Kind::VisitedNetworkIdentifier),
        (_, Command::MultimediaAuth) => astray_in_authentication(&mut kinds, slip),
        (_, Command::UserData) => astray_in_sh(&mut kinds, slip),
        _ => {}
    }
    kinds
}

/// Another order of the last two, one that is not needed, or one more.
fn astray_in_sh(kinds: &mut Vec<Kind>, slip: Slip) {
    let own = kinds.len() - 2;
    match slip.0 {
        Some(Fault::ReferenceMissedFirst) => kinds.swap(own, own + 1),
        Some(Fault::ShOwnMissedFirst) => kinds.rotate_left(own),
        Some(Fault::UserIdentityNotNeeded) => kinds.retain(|kind| *kind != Kind::UserIdentity),
        Some(Fault::ReferenceNotNeeded) => kinds.retain(|kind| *kind != Kind::DataReference),
        Some(Fault::UserNameNeededInSh) => kinds.push(Kind::UserName),
        _ => {}
    }
}

/// Another order of the last five, or one that is not needed.
fn astray_in_authentication(kinds: &mut Vec<Kind>, slip: Slip) {
    let own = kinds.len() - 5;
    match slip.0 {
        Some(Fault::ItemMissedLast) => kinds[own + 2..].rotate_left(1),
        Some(Fault::NumberMissedBeforeItem) => kinds.swap(own + 2, own + 3),
        Some(Fault::ServerNameMissedFirst) => kinds[own..].rotate_right(1),
        Some(Fault::IdentityMissedBeforeUserName) => kinds.swap(own, own + 1),
        Some(Fault::OwnMissedFirst) => kinds.rotate_left(own),
        Some(Fault::UserNameNotNeededInAuthentication) => kinds.retain(|kind| *kind != Kind::UserName),
        Some(Fault::IdentityNotNeededInAuthentication) => kinds.retain(|kind| *kind != Kind::PublicIdentity),
        Some(Fault::NumberNotNeeded) => kinds.retain(|kind| *kind != Kind::SipNumberAuthItems),
        Some(Fault::ItemNotNeeded) => kinds.retain(|kind| *kind != Kind::SipAuthDataItem),
        Some(Fault::ServerNameNotNeededInAuthentication) => kinds.retain(|kind| *kind != Kind::ServerName),
        _ => {}
    }
}
