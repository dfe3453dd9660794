//! Pairs of calls, the same request over two tables that agree in what it is about and in little else; and pairs that break one hypothesis of
//! document 02's request 9.

mod breach;
mod side;

pub use breach::{Breach, BREACHES, SILENT};

use super::asks;
use super::calls;
use super::features;
use super::model::{RecordModel, TableModel};
use super::peers;
use super::request::{application_of, tell_length, Piece, RequestModel};
use super::sets;
use super::tables::{self, Sound};
use super::twists;
use crate::cases::{Case, Slice};
use crate::kinds::{Command, Dialect, Kind};
use crate::message::Message;
use crate::read::fault_of;
use crate::refuse::MOST_REQUEST;
use crate::rng::Rng;
use crate::slip::Slip;
use crate::stated::Stated;
use crate::table::{Table, BARRED};
use side::{beside, call, Asked};

/// Pair `number` of a seed, of this interface: two calls that every hypothesis holds of, but that some are refused.
pub fn pair(dialect: Dialect, seed: u64, number: u64) -> [Case; 2] {
    let mut rng = Rng::for_case(seed ^ 0x9999, number);
    let Start { sound: one, request, stated } = loop {
        if let Some(made) = any(&mut rng, dialect) {
            break made;
        }
    };
    let asked = Asked::of(&request, dialect, stated);
    let other = beside(&mut rng, &one, &asked);
    calls_over(&mut rng, dialect, [one, other], [request.clone(), request], [stated; 2], true)
}

/// Pair `number` of a seed that breaks one hypothesis.
pub fn broken(breach: Breach, seed: u64, number: u64) -> [Case; 2] {
    let mut rng = Rng::for_case(seed ^ 0xAAAA ^ (breach as u64) << 40, number);
    loop {
        let (one, request) = suited(&mut rng, breach);
        let stated = breach::stated(&mut rng, breach);
        let asked = Asked::of(&request, Dialect::Cx, stated[0]);
        let mut other = beside(&mut rng, &one, &asked);
        let mut another = request.clone();
        if breach::done(&mut rng, breach, &one, &mut other, &mut another, &asked).is_some() {
            let mut calls = calls_over(&mut rng, Dialect::Cx, [one, other], [request, another], stated, false);
            if breach == Breach::Unsound {
                breach::unsound(&mut rng, &mut calls[0]);
            }
            return calls;
        }
    }
}

/// Either side may be the first.
fn calls_over(
    rng: &mut Rng,
    dialect: Dialect,
    sides: [Sound; 2],
    requests: [Vec<u8>; 2],
    stated: [Stated; 2],
    few: bool,
) -> [Case; 2] {
    let [one, other] = sides;
    let [request, another] = requests;
    let mut calls =
        [call(rng, dialect, &one, request, stated[0], few), call(rng, dialect, &other, another, stated[1], few)];
    if rng.coin() {
        calls.reverse();
    }
    calls
}

/// What a pair begins with: a table, a request, and what is stated of its peer.
struct Start {
    sound: Sound,
    request: Vec<u8>,
    stated: Stated,
}

/// A table and a request, right or with a fault; none if it is a MAR or would be refused, but for its peer.
fn any(rng: &mut Rng, dialect: Dialect) -> Option<Start> {
    if rng.once_in(16) {
        return of_calls(rng, dialect);
    }
    let (sound, mut request) = match dialect {
        Dialect::Cx => right(rng, None),
        Dialect::Sh => right(rng, Some(Command::UserData)),
    };
    let stated = peers::any(rng);
    if rng.once_in(10) {
        features::ask(rng, &mut request, stated.features);
    }
    if rng.once_in(3) {
        twists::twist_once(rng, &mut request);
        if rng.once_in(4) {
            twists::twist_once(rng, &mut request);
        }
    }
    let mut bytes = request.encode();
    if rng.once_in(3) {
        add_stranger(rng, dialect, &mut bytes, &sound.model, stated);
    }
    let is_refused = bytes.len() > MOST_REQUEST || request.told_length.is_some() || request.flags & 0x80 == 0;
    let is_asked = Message(&bytes).command() != Command::MultimediaAuth.code() && !is_refused;
    is_asked.then_some(Start { sound, request: bytes, stated })
}

/// One of the kinds `calls` and `voicemail`.
fn of_calls(rng: &mut Rng, dialect: Dialect) -> Option<Start> {
    let made = match dialect {
        Dialect::Cx => calls::case(rng),
        Dialect::Sh => calls::of_sh(rng),
    };
    let case = made.case;
    let request = case.held(Slice::Request);
    if request.len() < 20 || Message(&request).command() == Command::MultimediaAuth.code() {
        return None;
    }
    if case.outcome(Slip::NONE).parts().0 != 0 {
        return None;
    }
    let model = TableModel::of(Table(&case.held(Slice::Table)));
    let sound = Sound { model, profile: case.held(Slice::Profile).into_owned() };
    Some(Start { sound, request: request.into_owned(), stated: case.stated() })
}

/// A table and a right request over it, of this command or of any but a MAR. Often most records are of two subscriptions, in sets.
fn right(rng: &mut Rng, of: Option<Command>) -> (Sound, RequestModel) {
    let size = match rng.below(400) {
        0 => tables::many(rng),
        1..=12 => rng.between(13, 40),
        13..=17 => 0,
        _ => rng.between(1, 9),
    };
    let mut sound = tables::sound(rng, size);
    if size > 1 && rng.once_in(3) {
        in_sets(rng, &mut sound.model);
    }
    loop {
        let table = &mut sound.model;
        let request = match of {
            Some(Command::MultimediaAuth) => asks::authentication(rng, table),
            Some(Command::UserAuthorization) => asks::authorization(rng, table),
            Some(Command::ServerAssignment) => asks::one_assignment(rng, table),
            Some(Command::UserData) => asks::of(rng, Dialect::Sh, table),
            _ => asks::any(rng, table),
        };
        match of {
            Some(wanted) if request.command != wanted.code() => {}
            None if request.command == Command::MultimediaAuth.code() => {}
            _ => return (sound, request),
        }
    }
}

fn in_sets(rng: &mut Rng, table: &mut TableModel) {
    table.issue = Some(tables::issue(rng));
    let privates = [table.records[0].private.clone(), table.records[1].private.clone()];
    table.records.iter_mut().for_each(|record| record.private = rng.pick(&privates).clone());
    if rng.coin() {
        table.records.iter_mut().filter(|_| rng.below(3) > 0).for_each(|record| record.bits |= BARRED);
    }
    sets::put(rng, &mut table.records);
}

/// A request in which the hypothesis has something to say, over a table that it is mostly about.
fn suited(rng: &mut Rng, breach: Breach) -> (Sound, Vec<u8>) {
    let (sound, mut request) = right(rng, breach.command());
    if breach == Breach::Features {
        let (asked, marked) = (features::any(rng), rng.coin());
        features::put(rng, &mut request, asked, marked);
    }
    if breach == Breach::Peer {
        let vendors = rng.between(2, 3);
        let application = application_of(rng, Dialect::Cx, vendors);
        let of_application = request.pieces.iter_mut().filter(|it| it.is(Kind::VendorSpecificApplicationId));
        of_application.for_each(|piece| piece.data = application.clone());
    }
    (sound, request.encode())
}

/// Puts in somebody whom the request is not about: in an AVP that the command does not name, of an unknown kind, or in a group.
fn add_stranger(rng: &mut Rng, dialect: Dialect, request: &mut Vec<u8>, table: &TableModel, stated: Stated) {
    let is_decided = fault_of(Message(request), dialect, stated, Slip::NONE).is_none();
    if table.records.is_empty() || !is_decided {
        return;
    }
    let RecordModel { public, private, server_name, .. } = rng.pick(&table.records).clone();
    let command = dialect.command(Message(request).command());
    let piece = match (rng.below(5), command) {
        (0 | 1, Some(Command::LocationInfo | Command::UserData)) => Piece::of(rng, Kind::UserName, private),
        (0 | 1, Some(Command::UserAuthorization)) => Piece::of(rng, Kind::ServerName, server_name),
        (2, _) => Piece::new(rng, None, Kind::PublicIdentity.code(), 0, public),
        (3, _) => {
            let mut group = Vec::new();
            Piece::of(rng, Kind::PublicIdentity, public).encode(&mut group);
            Piece::of(rng, Kind::UserName, private).encode(&mut group);
            Piece::of(rng, Kind::ProxyInfo, group)
        }
        _ => Piece::of(rng, Kind::RouteRecord, public),
    };
    if request.len() + piece.padded() <= MOST_REQUEST {
        piece.encode(request);
        let length = request.len();
        tell_length(request, length);
    }
}
