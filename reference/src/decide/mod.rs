//! What is decided of a request without fault.

mod assignment;
mod astray;
mod authentication;
mod authorization;
mod chosen;
mod location;
mod lookup;
mod sets;
mod supported;

use crate::kinds::Command;
use crate::read::Request;
use crate::slip::Slip;
use crate::stated::Stated;
use crate::table::{Record, Table};
use crate::vectors::Vectors;
use crate::verdict::{Decision, Stored, Verdict, Why};

pub use chosen::MOST_SENT;
pub use lookup::by_public;
pub use supported::asks_too_much;

/// What a decision is made over.
#[derive(Clone, Copy)]
pub struct Files<'a> {
    pub table: Table<'a>,
    pub profile: &'a [u8],
    pub vectors: Vectors<'a>,
}

pub fn decide<'a>(request: &Request<'a>, files: Files<'a>, stated: Stated, slip: Slip) -> Verdict<'a> {
    match asks_too_much(&request.features, request.command, stated, slip) {
        true => supported::unsupported(request, || decided(request, files, slip), slip),
        false => decided(request, files, slip),
    }
}

fn decided<'a>(request: &Request<'a>, files: Files<'a>, slip: Slip) -> Verdict<'a> {
    let table = files.table;
    let (asked_type, mut verdict) = match request.command {
        Command::UserAuthorization => {
            (request.authorization_type, authorization::user_authorization(request, table, slip))
        }
        Command::LocationInfo => (0, location::location_info(request, table, slip)),
        Command::ServerAssignment => {
            (request.assignment_type, assignment::server_assignment(request, table, files.profile, slip))
        }
        // A request of Cx has no other command.
        Command::MultimediaAuth | Command::UserData => {
            (0, authentication::multimedia_auth(request, table, files.vectors, slip))
        }
    };
    astray::verdict(&mut verdict, request, table, slip);
    let asked = asked_records(request, table);
    let first = asked.first().map(|(_, record)| *record);
    verdict.why = Why::Decided(Box::new(Decision {
        command: Some(request.command),
        asked_type,
        state: first.map(|record| record.state()),
        profile_start: first.map_or(0, |record| record.profile_start()),
        keep: table.header().keep(),
        records: asked.len(),
        stored: first.map(|record| stored(record.server_name(), request.server_name)),
        vectors: (request.number_asked, chosen::unused(request, files.vectors).len(), verdict.marked.len()),
        result: Some(verdict.result),
    }));
    verdict
}

/// The records of the identities that a request names, or of a nameless removal.
fn asked_records<'a>(request: &Request, table: Table<'a>) -> Vec<(usize, Record<'a>)> {
    if request.identities.is_empty() {
        return assignment::nameless(request.user_name.unwrap_or(&[]), table, Slip::NONE);
    }
    table.records().filter(|(_, record)| request.identities.iter().any(|avp| avp.data == record.public())).collect()
}

fn stored(name: &[u8], given: &[u8]) -> Stored {
    match name {
        [] => Stored::None,
        _ if name == given => Stored::Same,
        _ if name.starts_with(given) || given.starts_with(name) => Stored::Prefix,
        _ => Stored::Another,
    }
}
