//! Breaches: each breaks one hypothesis of document 02's request 9 in a pair that they all hold of.

use super::side::Asked;
use crate::cases::{Case, Slice};
use crate::gen::damage::{damage, Subject};
use crate::gen::features;
use crate::gen::model::{RecordModel, TableModel};
use crate::gen::names;
use crate::gen::peers;
use crate::gen::tables::{self, Sound};
use crate::kinds::{Command, Kind};
use crate::message::Message;
use crate::rng::Rng;
use crate::slip::Slip;
use crate::stated::{Stated, RFC_3588, RFC_6733};
use crate::table::{
    check, Table, BARRED, LONGEST_HOST, LONGEST_IDENTITY, LONGEST_SERVER_NAME, MOST_RECORDS, NOT_REGISTERED, PENDING,
    UNREGISTERED_SERVICES,
};

macro_rules! breaches {
    ($list:ident of $count:literal: $($name:ident $what:literal,)*) => {
        pub const $list: [(Breach, &str); $count] = [$((Breach::$name, $what),)*];
    };
}

/// What the two sides of a pair differ in though they must not.
#[derive(Clone, Copy, PartialEq, Eq, Debug)]
pub enum Breach {
    State,
    ServerName,
    Pending,
    Barred,
    Services,
    Roaming,
    Capabilities,
    ProfileBytes,
    ProfileLength,
    Set,
    RecordMore,
    Order,
    PublicUnknown,
    PrivateOfPublic,
    Keep,
    Host,
    Realm,
    Network,
    Request,
    Peer,
    Features,
    Vectors,
    Edition,
    PendingAlone,
    Unsound,
}

// Those that answers show.
breaches! { BREACHES of 22:
    State "the state of a record of mine",
    ServerName "the server name of a record of mine",
    Pending "pending, and so a name, of a record of mine in state 0",
    Barred "barred or not, of a record of mine",
    Services "unregistered services or not, of a record of mine",
    Roaming "a roaming bit of a record of mine",
    Capabilities "the capabilities of a record of mine",
    ProfileBytes "a byte that a record of mine shows",
    ProfileLength "the profile length of a record of mine",
    Set "the set number of a record of mine",
    RecordMore "a record of my private identity more",
    Order "two records of my private identity the other way round",
    PublicUnknown "a public identity of the request in one table alone",
    PrivateOfPublic "the private identity of a record of mine",
    Keep "the header's keep",
    Host "the header's host",
    Realm "the header's realm",
    Network "a network of the header",
    Request "the request",
    Peer "the peer's edition",
    Features "the server's features",
    Vectors "the vectors, under a MAR",
}

// Those that no answer shows: nothing that is sent rests on them, or one side is not answered.
breaches! { SILENT of 3:
    Edition "the edition",
    PendingAlone "pending or not, of a record of mine in state 1 or 2",
    Unsound "a table that is unsound",
}

impl Breach {
    /// Of which command the requests are; of any but a MAR if none.
    pub fn command(self) -> Option<Command> {
        match self {
            Breach::Barred | Breach::Roaming | Breach::Set | Breach::Network => Some(Command::UserAuthorization),
            Breach::Services | Breach::Order => Some(Command::LocationInfo),
            Breach::ProfileBytes | Breach::ProfileLength | Breach::Keep => Some(Command::ServerAssignment),
            Breach::Vectors => Some(Command::MultimediaAuth),
            _ => None,
        }
    }
}

/// What is stated on the two sides: the same, unless that is what differs.
pub fn stated(rng: &mut Rng, breach: Breach) -> [Stated; 2] {
    let stated = peers::known(rng);
    match breach {
        // Where both are read, the first one is.
        Breach::Peer => [Stated { peer: RFC_3588, ..stated }, Stated { peer: RFC_6733, ..stated }],
        Breach::Features => [stated, Stated { features: another_features(rng, stated.features), ..stated }],
        _ => [stated; 2],
    }
}

fn another_features(rng: &mut Rng, features: u32) -> u32 {
    loop {
        let other = if rng.coin() { features ^ 1 << rng.below(32) } else { features::set(rng) };
        if other != features {
            return other;
        }
    }
}

/// Alters the second side, or the request to it; none if there is nothing there that could be.
pub fn done(
    rng: &mut Rng,
    breach: Breach,
    one: &Sound,
    other: &mut Sound,
    request: &mut [u8],
    asked: &Asked,
) -> Option<()> {
    let table = &mut other.model;
    let profile = &mut other.profile;
    match breach {
        Breach::Request => another_request(rng, request)?,
        Breach::Keep => table.keep = !table.keep,
        Breach::Host => table.host = another(rng, &table.host, LONGEST_HOST)?,
        Breach::Realm => table.realm = another(rng, &table.realm, LONGEST_HOST)?,
        Breach::Network => {
            let at = visited(request, table)?;
            let name = another(rng, &table.networks[at], 31)?;
            if table.networks.contains(&name) {
                return None;
            }
            table.networks[at] = name;
        }
        Breach::Edition => {
            if table.records.iter().chain(&one.model.records).any(|record| record.set != 0) {
                return None;
            }
            table.issue = if table.issue.is_some() { None } else { Some(tables::issue(rng)) };
        }
        Breach::RecordMore => more(rng, table, profile, asked)?,
        Breach::Order => other_way_round(rng, table, asked)?,
        Breach::Peer | Breach::Features | Breach::Vectors | Breach::Unsound => {}
        _ => of_record(rng, breach, table, profile, request, asked)?,
    }
    Some(())
}

/// What differs in a record that the request is about, mostly one that it names.
fn of_record(
    rng: &mut Rng,
    breach: Breach,
    table: &mut TableModel,
    profile: &mut [u8],
    request: &[u8],
    asked: &Asked,
) -> Option<()> {
    let privates = asked.privates(table);
    let named_alone = rng.below(4) > 0 || matches!(breach, Breach::PublicUnknown | Breach::PrivateOfPublic);
    let is_meant = |record: &RecordModel| match named_alone {
        true => asked.publics.contains(&record.public),
        false => privates.contains(&record.private),
    };
    let meant: Vec<usize> = (0..table.records.len()).filter(|at| is_meant(&table.records[*at])).collect();
    if meant.is_empty() {
        return None;
    }
    let at = *rng.pick(&meant);
    let network = visited(request, table);
    let networks = table.networks.len();
    let before = table.records[at].clone();
    let record = &mut table.records[at];
    match breach {
        Breach::State if before.server_name.is_empty() => return None,
        // Without pending, state 0 would have no name.
        Breach::State if before.is_pending() => record.state = (before.state + rng.between(1, 2) as u8) % 3,
        Breach::State => record.state = 3 - before.state,
        Breach::ServerName if before.server_name.is_empty() => return None,
        Breach::ServerName => record.server_name = another(rng, &before.server_name, LONGEST_SERVER_NAME)?,
        Breach::Pending if before.state != NOT_REGISTERED => return None,
        Breach::Pending => {
            record.bits ^= PENDING;
            record.server_name = if record.is_pending() { names::any(rng, LONGEST_SERVER_NAME) } else { Vec::new() };
        }
        Breach::PendingAlone if before.state == NOT_REGISTERED => return None,
        Breach::PendingAlone => record.bits ^= PENDING,
        Breach::Barred => record.bits ^= BARRED,
        Breach::Services => record.bits ^= UNREGISTERED_SERVICES,
        Breach::Roaming if networks == 0 => return None,
        Breach::Roaming => record.roaming ^= 1 << network.unwrap_or_else(|| rng.below(networks)),
        Breach::Capabilities => match rng.coin() {
            true => another_word(rng, &mut record.mandatory),
            false => another_word(rng, &mut record.optional),
        },
        Breach::ProfileLength | Breach::ProfileBytes if before.profile_length == 0 => return None,
        Breach::ProfileLength => record.profile_length -= 1,
        Breach::ProfileBytes => {
            let at = before.profile_start as usize + rng.below(usize::from(before.profile_length));
            profile[at] ^= rng.nonzero_byte();
        }
        Breach::Set => return another_set(table, at),
        Breach::PublicUnknown => {
            table.records.remove(at);
            return Some(());
        }
        Breach::PrivateOfPublic => {
            record.private = another(rng, &before.private, LONGEST_IDENTITY)?;
            record.set = 0;
            return (!privates.contains(&record.private)).then_some(());
        }
        _ => return None,
    }
    // A set agrees in state, pending and name.
    let changed = record.clone();
    let of_set = |it: &&mut RecordModel| changed.set != 0 && it.set == changed.set && it.private == changed.private;
    for member in table.records.iter_mut().filter(of_set) {
        member.state = changed.state;
        member.bits = member.bits & !PENDING | changed.bits & PENDING;
        member.server_name.clone_from(&changed.server_name);
    }
    Some(())
}

/// Another set, or none, for a barred identity, where it matters whether one of it is free.
fn another_set(table: &mut TableModel, at: usize) -> Option<()> {
    let asked = table.records[at].clone();
    if table.issue.is_none() || !asked.has(BARRED) {
        return None;
    }
    let free = |it: &&RecordModel| it.private == asked.private && it.set != 0 && !it.has(BARRED);
    if asked.set != 0 && table.records.iter().filter(free).any(|it| it.set == asked.set) {
        table.records[at].set = 0;
        return Some(());
    }
    let agrees = |it: &&RecordModel| {
        it.state == asked.state && it.is_pending() == asked.is_pending() && it.server_name == asked.server_name
    };
    table.records[at].set = table.records.iter().filter(free).find(agrees)?.set;
    Some(())
}

/// One more of my subscription, or the first of a private identity that the request names.
fn more(rng: &mut Rng, table: &mut TableModel, profile: &[u8], asked: &Asked) -> Option<()> {
    let privates: Vec<Vec<u8>> = asked.privates(table).into_iter().collect();
    let most = MOST_RECORDS as usize;
    if privates.is_empty() || table.records.len() == most {
        return None;
    }
    let mut record = tables::over(rng, 1, profile).records.remove(0);
    record.private = rng.pick(&privates).clone();
    record.set = 0;
    record.roaming = 0;
    let is_there = table.records.iter().any(|it| it.public == record.public) || asked.publics.contains(&record.public);
    if is_there || !(1..=LONGEST_IDENTITY).contains(&record.private.len()) {
        return None;
    }
    let at = table.records.iter().position(|it| it.public > record.public).unwrap_or(table.records.len());
    table.records.insert(at, record);
    Some(())
}

/// Two of one subscription that the request does not name by their public identities: each gets the other's, and so its place. Another stored
/// name is the first then.
fn other_way_round(rng: &mut Rng, table: &mut TableModel, asked: &Asked) -> Option<()> {
    let privates = asked.privates(table);
    let is_meant = |it: &RecordModel| privates.contains(&it.private) && !asked.publics.contains(&it.public);
    let meant: Vec<usize> = (0..table.records.len()).filter(|at| is_meant(&table.records[*at])).collect();
    if meant.is_empty() {
        return None;
    }
    let (one, two) = (*rng.pick(&meant), *rng.pick(&meant));
    let private = table.records[one].private.clone();
    if table.records[two].private != private {
        return None;
    }
    let first_name = |table: &TableModel| {
        let mut names = table.records.iter().filter(|it| it.private == private).map(|it| it.server_name.clone());
        names.find(|name| !name.is_empty())
    };
    let before = first_name(table);
    let public = table.records[one].public.clone();
    table.records[one].public = std::mem::replace(&mut table.records[two].public, public);
    table.records.swap(one, two);
    (first_name(table) != before).then_some(())
}

/// A name that is another one.
fn another(rng: &mut Rng, name: &[u8], most: usize) -> Option<Vec<u8>> {
    let other = if rng.coin() { names::near(rng, name, most) } else { names::any(rng, most) };
    (other != name).then_some(other)
}

fn another_word(rng: &mut Rng, words: &mut Vec<u32>) {
    match words.last_mut() {
        Some(last) => *last ^= 1 << rng.below(32),
        None => words.push(rng.word()),
    }
}

/// The number of the network that a UAR is sent from.
fn visited(request: &[u8], table: &TableModel) -> Option<usize> {
    let avps = Message(request).avps().sound(Slip::NONE);
    let visited = avps.iter().find(|avp| avp.code == Kind::VisitedNetworkIdentifier.code())?;
    table.networks.iter().position(|name| name == visited.data)
}

/// A byte of what a request asks turned: of an identity, a name, a type.
fn another_request(rng: &mut Rng, request: &mut [u8]) -> Option<()> {
    let asks = [
        Kind::UserName,
        Kind::PublicIdentity,
        Kind::VisitedNetworkIdentifier,
        Kind::UserAuthorizationType,
        Kind::ServerName,
        Kind::ServerAssignmentType,
    ];
    let avps = Message(request).avps().sound(Slip::NONE);
    let is_asked = |code| asks.iter().any(|kind| kind.code() == code);
    let places: Vec<usize> = avps
        .iter()
        .filter(|avp| is_asked(avp.code) && !avp.data.is_empty())
        .map(|avp| avp.at + avp.whole.len() - 1)
        .collect();
    if places.is_empty() {
        return None;
    }
    request[*rng.pick(&places)] ^= 1 << rng.below(3);
    Some(())
}

/// Damages the table of a call until it is unsound.
pub fn unsound(rng: &mut Rng, call: &mut Case) {
    let model = TableModel::of(Table(&call.held(Slice::Table)));
    let profile = call.held(Slice::Profile).into_owned();
    loop {
        let mut subject = Subject { bytes: model.encode(), profile: profile.clone(), model: model.clone() };
        damage(rng, &mut subject, &mut Vec::new());
        if check(&subject.bytes, subject.profile.len()).is_err() {
            call.put(Slice::Table, subject.bytes);
            call.put(Slice::Profile, subject.profile);
            return;
        }
    }
}
