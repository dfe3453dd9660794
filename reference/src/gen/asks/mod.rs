//! Right requests, each aimed at some decision over a table.

mod authentication;
mod people;
mod user_data;

pub use authentication::{item, number_asked, other_scheme, scheme};
pub use people::{unknown_private, unknown_public, ABSENT};
pub use user_data::{data_reference, identity_group, user_data_request};

use super::features;
use super::model::{RecordModel, TableModel};
use super::names;
use super::request::{application, Piece, RequestModel};
use super::sets;
use crate::kinds::{Command, Dialect, Kind};
use crate::message::{P, R};
use crate::rng::Rng;
use crate::table::{LONGEST_SERVER_NAME, NOT_REGISTERED, PENDING};
use authentication::multimedia_auth;
use people::{other_private, some_record};

pub const REMOVALS: [u32; 6] = [4, 5, 6, 7, 8, 11];

/// A request of this interface. The table may be changed to suit it.
pub fn of(rng: &mut Rng, dialect: Dialect, table: &mut TableModel) -> RequestModel {
    match dialect {
        Dialect::Cx => any(rng, table),
        Dialect::Sh => {
            let mut own = user_data_request(rng, table);
            surround(rng, Command::UserData, &mut own)
        }
    }
}

/// A request of any command of Cx. The table may be changed to suit it.
pub fn any(rng: &mut Rng, table: &mut TableModel) -> RequestModel {
    let command = match rng.below(23) {
        0..=5 => Command::UserAuthorization,
        6..=8 => Command::LocationInfo,
        9 | 10 => Command::MultimediaAuth,
        _ => Command::ServerAssignment,
    };
    if rng.once_in(8) {
        forget_names(rng, table);
    }
    let mut own = match command {
        Command::UserAuthorization => user_authorization(rng, table),
        Command::LocationInfo => location_info(rng, table),
        Command::MultimediaAuth | Command::UserData => multimedia_auth(rng, table),
        Command::ServerAssignment => {
            let asked_type = rng.below(12) as u32;
            server_assignment(rng, table, asked_type)
        }
    };
    surround(rng, command, &mut own)
}

/// A SAR of one of the types that carry User-Data.
pub fn user_data(rng: &mut Rng, table: &mut TableModel) -> RequestModel {
    let asked_type = rng.below(4) as u32;
    let mut own = server_assignment(rng, table, asked_type);
    surround(rng, Command::ServerAssignment, &mut own)
}

/// A SAR of any type.
pub fn one_assignment(rng: &mut Rng, table: &mut TableModel) -> RequestModel {
    let asked_type = rng.below(12) as u32;
    let mut own = server_assignment(rng, table, asked_type);
    surround(rng, Command::ServerAssignment, &mut own)
}

/// A UAR.
pub fn authorization(rng: &mut Rng, table: &TableModel) -> RequestModel {
    let mut own = user_authorization(rng, table);
    surround(rng, Command::UserAuthorization, &mut own)
}

/// A MAR.
pub fn authentication(rng: &mut Rng, table: &TableModel) -> RequestModel {
    let mut own = multimedia_auth(rng, table);
    surround(rng, Command::MultimediaAuth, &mut own)
}

/// The AVPs that every request has, around the command's own.
pub fn surround(rng: &mut Rng, command: Command, own: &mut Vec<Piece>) -> RequestModel {
    let session = text(rng, "cscf.isle;1;");
    let mut pieces = vec![Piece::of(rng, Kind::SessionId, session)];
    let group = application(rng, command.dialect());
    let mut rest =
        vec![Piece::of(rng, Kind::VendorSpecificApplicationId, group), Piece::number(rng, Kind::AuthSessionState, 1)];
    for kind in [Kind::OriginHost, Kind::OriginRealm, Kind::DestinationRealm] {
        let data = text(rng, "isle");
        rest.push(Piece::of(rng, kind, data));
    }
    if rng.once_in(3) {
        let data = text(rng, "hss.isle");
        rest.push(Piece::of(rng, Kind::DestinationHost, data));
    }
    for kind in [Kind::RouteRecord, Kind::ProxyInfo] {
        if rng.once_in(4) {
            for _ in 0..rng.between(1, 3) {
                let data = text(rng, "relay.isle");
                rest.push(Piece::of(rng, kind, data));
            }
        }
    }
    if rng.once_in(8) {
        for _ in 0..rng.between(1, 2) {
            // With M most of them would be unsupported.
            let (asked, marked) = (features::any(rng), rng.once_in(8));
            rest.push(features::piece(rng, asked, marked));
        }
    }
    rest.append(own);
    if rng.coin() {
        rng.shuffle(&mut rest);
    }
    pieces.append(&mut rest);
    RequestModel {
        dialect: command.dialect(),
        version: 1,
        flags: R | if rng.coin() { P } else { 0 },
        command: command.code(),
        application: command.dialect().application(),
        hop_by_hop: rng.word(),
        end_to_end: rng.word(),
        told_length: None,
        pieces,
        tail: vec![],
    }
}

/// Content that is not judged: some text with up to 3 bytes more, so that every padding comes up.
fn text(rng: &mut Rng, text: &str) -> Vec<u8> {
    let mut data = text.as_bytes().to_vec();
    let more = rng.below(4);
    data.extend(rng.bytes(more));
    if rng.once_in(10) {
        data.clear();
    }
    data
}

fn user_authorization(rng: &mut Rng, table: &TableModel) -> Vec<Piece> {
    let mut record = some_record(rng, table);
    if record.roaming == 0 && rng.coin() {
        record = some_record(rng, table);
    }
    let public = if rng.once_in(12) { unknown_public(rng, &record) } else { record.public.clone() };
    let private = match rng.below(14) {
        0 => unknown_private(rng, &record.private),
        1 => other_private(rng, table, &record.private),
        _ => record.private.clone(),
    };
    let visited = visited_network(rng, table, &record);
    let mut own = vec![
        Piece::of(rng, Kind::UserName, private),
        Piece::of(rng, Kind::PublicIdentity, public),
        Piece::of(rng, Kind::VisitedNetworkIdentifier, visited),
    ];
    match rng.below(10) {
        0..=2 => {}
        3..=5 => own.push(Piece::number(rng, Kind::UserAuthorizationType, 0)),
        6..=7 => own.push(Piece::number(rng, Kind::UserAuthorizationType, 1)),
        _ => own.push(Piece::number(rng, Kind::UserAuthorizationType, 2)),
    }
    own
}

fn visited_network(rng: &mut Rng, table: &TableModel, record: &RecordModel) -> Vec<u8> {
    let allowed: Vec<&Vec<u8>> =
        table.networks.iter().enumerate().filter(|(n, _)| record.roaming & 1 << n != 0).map(|(_, name)| name).collect();
    if !allowed.is_empty() && rng.below(5) > 0 {
        let name = rng.pick(&allowed).to_vec();
        return match rng.below(20) {
            0 => names::near(rng, &name, 31),
            1 => names::alike(rng, &name, 31),
            _ => name,
        };
    }
    if !table.networks.is_empty() && rng.coin() {
        return rng.pick(&table.networks).clone();
    }
    match rng.below(3) {
        0 => vec![],
        1 => b"ims.mnc001.mcc001.3gppnetwork.org".to_vec(),
        _ => names::any(rng, 31),
    }
}

fn location_info(rng: &mut Rng, table: &TableModel) -> Vec<Piece> {
    let record = some_record(rng, table);
    let public = if rng.once_in(10) { unknown_public(rng, &record) } else { record.public };
    vec![Piece::of(rng, Kind::PublicIdentity, public)]
}

fn server_assignment(rng: &mut Rng, table: &mut TableModel, asked_type: u32) -> Vec<Piece> {
    let removal = REMOVALS.contains(&asked_type);
    if rng.below(5) < 2 {
        agree(rng, table);
    }
    let record = some_record(rng, table);
    let private = record.private.clone();
    let identities = if removal {
        removed(rng, table, &record)
    } else {
        match rng.below(20) {
            0 => vec![],
            1 => vec![record.public.clone(), record.public.clone()],
            2 => {
                let more = rng.between(1, 3);
                let mut publics = vec![record.public.clone()];
                publics.extend((0..more).map(|_| some_record(rng, table).public));
                publics
            }
            4 => of_one_set(rng, table, &record),
            3 => vec![unknown_public(rng, &record)],
            _ => vec![record.public.clone()],
        }
    };
    let named = !identities.is_empty();
    let user_name = match rng.below(20) {
        0 => Some(unknown_private(rng, &private)),
        1 => Some(other_private(rng, table, &private)),
        2..=8 if named => None,
        2 => None,
        _ => Some(private.clone()),
    };
    let server_name = server_name(rng, table, &record);
    assignment(rng, asked_type, identities, user_name, server_name)
}

/// The AVPs that a SAR has of its own.
pub fn assignment(
    rng: &mut Rng,
    asked_type: u32,
    identities: Vec<Vec<u8>>,
    user_name: Option<Vec<u8>>,
    server_name: Vec<u8>,
) -> Vec<Piece> {
    let mut own = Vec::new();
    for public in identities {
        own.push(Piece::of(rng, Kind::PublicIdentity, public));
    }
    if let Some(name) = user_name {
        own.push(Piece::of(rng, Kind::UserName, name));
    }
    own.push(Piece::of(rng, Kind::ServerName, server_name));
    own.push(Piece::number(rng, Kind::ServerAssignmentType, asked_type));
    let available = rng.once_in(3) as u32;
    own.push(Piece::number(rng, Kind::UserDataAlreadyAvailable, available));
    own
}

/// Its identity and that of another of its set, where there is one.
fn of_one_set(rng: &mut Rng, table: &TableModel, record: &RecordModel) -> Vec<Vec<u8>> {
    let others = sets::others(table, record);
    let other = if others.is_empty() { None } else { Some(rng.pick(&others).public.clone()) };
    let mut publics: Vec<Vec<u8>> = other.into_iter().chain([record.public.clone()]).collect();
    rng.shuffle(&mut publics);
    publics
}

/// Leaves one subscription without any server name.
fn forget_names(rng: &mut Rng, table: &mut TableModel) {
    let private = some_record(rng, table).private;
    for record in table.records.iter_mut().filter(|record| record.private == private) {
        record.state = NOT_REGISTERED;
        record.bits &= !PENDING;
        record.server_name.clear();
    }
}

/// Gives one subscription's records one server name, and mostly states that a removal can leave.
fn agree(rng: &mut Rng, table: &mut TableModel) {
    let private = some_record(rng, table).private;
    let name = names::any(rng, LONGEST_SERVER_NAME);
    for record in table.records.iter_mut().filter(|record| record.private == private) {
        if rng.below(6) > 0 {
            record.state = rng.between(1, 2) as u8;
        }
        record.server_name.clear();
        if record.state != NOT_REGISTERED || record.bits & PENDING != 0 {
            record.server_name = name.clone();
        }
    }
    sets::settle(&mut table.records);
}

/// The identities of a removal: none, one, many, repeated, one foreign or unknown among them.
fn removed(rng: &mut Rng, table: &TableModel, record: &RecordModel) -> Vec<Vec<u8>> {
    let same: Vec<Vec<u8>> =
        table.records.iter().filter(|it| it.private == record.private).map(|it| it.public.clone()).collect();
    if rng.once_in(24) {
        return vec![unknown_public(rng, record)];
    }
    let mut identities = match rng.below(7) {
        0 => vec![],
        1 | 2 => vec![record.public.clone()],
        3 => same.clone(),
        4 => of_one_set(rng, table, record),
        _ => same.iter().filter(|_| rng.coin()).cloned().collect(),
    };
    if identities.is_empty() {
        return identities;
    }
    if rng.once_in(6) {
        let again = rng.pick(&identities).clone();
        identities.push(again);
    }
    match rng.below(14) {
        0 => identities.push(unknown_public(rng, record)),
        1 | 2 => {
            let foreign: Vec<&RecordModel> = table.records.iter().filter(|it| it.private != record.private).collect();
            if !foreign.is_empty() {
                let public = rng.pick(&foreign).public.clone();
                identities.push(public);
            }
        }
        _ => {}
    }
    if rng.coin() {
        rng.shuffle(&mut identities);
    }
    identities
}

fn server_name(rng: &mut Rng, table: &TableModel, record: &RecordModel) -> Vec<u8> {
    let stored = &record.server_name;
    if !stored.is_empty() && rng.below(5) > 0 {
        return stored.clone();
    }
    match rng.below(6) {
        0 if !stored.is_empty() && rng.coin() => names::alike(rng, stored, LONGEST_SERVER_NAME),
        0 if !stored.is_empty() => names::near(rng, stored, LONGEST_SERVER_NAME),
        1 => some_record(rng, table).server_name,
        2 => vec![b's'; LONGEST_SERVER_NAME],
        _ => names::any(rng, LONGEST_SERVER_NAME),
    }
}
