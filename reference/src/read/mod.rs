//! Reading a request: the header, the rules (a) to (h) for each AVP in turn, and what is missing.

mod astray;
mod content;
mod features;
mod groups;
mod header;
mod kind;
mod missing;
mod peers;
mod single;
mod walk;

use crate::kinds::{Command, Dialect, Kind};
use crate::message::{Avp, Message};
use crate::slip::{Fault, Slip};
use crate::stated::Stated;
use crate::verdict::Finding;

pub use features::{features, features_of, Features};
pub use header::read_header;
pub use kind::kind_of;
pub use peers::{vendors_of, SEVERAL};
pub use walk::walk;

/// A request without fault.
pub struct Request<'a> {
    pub command: Command,
    pub user_name: Option<&'a [u8]>,
    /// The Public-Identity AVPs in their order.
    pub identities: Vec<Avp<'a>>,
    pub visited_network: &'a [u8],
    pub authorization_type: u32,
    pub server_name: &'a [u8],
    pub assignment_type: u32,
    pub already_available: u32,
    /// What the 608 in 612 holds.
    pub scheme: &'a [u8],
    /// How many vectors are asked for.
    pub number_asked: u32,
    /// The 628s in their order, with what they ask for.
    pub features: Vec<(Avp<'a>, Features)>,
}

/// A User-Data-Request without fault.
pub struct UserDataRequest<'a> {
    /// What the 601 in 700 holds.
    pub identity: &'a [u8],
    /// The Data-References in their order, each with its value.
    pub references: Vec<(Avp<'a>, u32)>,
    /// It is not used.
    pub user_name: Option<&'a [u8]>,
}

/// The AVPs of the kinds that a command names, in their order.
struct Kept<'a> {
    command: Command,
    found: Vec<(Kind, Avp<'a>)>,
}

impl<'a> Kept<'a> {
    fn all(&self, kind: Kind) -> impl Iterator<Item = Avp<'a>> + '_ {
        self.found.iter().filter(move |(it, _)| *it == kind).map(|(_, avp)| *avp)
    }

    fn first(&self, kind: Kind) -> Option<&'a [u8]> {
        self.all(kind).next().map(|avp| avp.data)
    }

    fn value(&self, kind: Kind, slip: Slip) -> Option<u32> {
        self.first(kind).map(|data| content::number(data, slip))
    }
}

/// Reads a request by the rules that all commands share.
fn keep<'a>(message: Message<'a>, dialect: Dialect, stated: Stated, slip: Slip) -> Result<Kept<'a>, Finding<'a>> {
    let command = read_header(message, dialect, slip)?;
    if slip.is(Fault::MissingBeforeFaults) {
        let avps = message.avps().sound(slip);
        let there: Vec<Kind> = avps.iter().filter_map(|avp| kind_of(*avp, command, slip)).collect();
        missing::nothing_missing(&there, command, slip)?;
    }
    astray::asked_before(message, command, stated, slip)?;
    let found = walk(message.avps(), command, stated, slip)?;
    let there: Vec<Kind> = found.iter().map(|(kind, _)| *kind).collect();
    missing::nothing_missing(&there, command, slip)?;
    Ok(Kept { command, found })
}

/// The fault that a request of this interface has in reading, if it has one.
pub fn fault_of<'a>(message: Message<'a>, dialect: Dialect, stated: Stated, slip: Slip) -> Option<Finding<'a>> {
    keep(message, dialect, stated, slip).err()
}

/// Reads a request of Cx.
pub fn read<'a>(message: Message<'a>, stated: Stated, slip: Slip) -> Result<Request<'a>, Finding<'a>> {
    let kept = keep(message, Dialect::Cx, stated, slip)?;
    let absent_type = if slip.is(Fault::AbsentTypeIs1) { 1 } else { 0 };
    let item = kept.all(Kind::SipAuthDataItem).next();
    let features_of = |avp: Avp<'a>| features(avp.members(), slip).map(|asked| (avp, asked));
    Ok(Request {
        command: kept.command,
        user_name: kept.first(Kind::UserName),
        identities: kept.all(Kind::PublicIdentity).collect(),
        visited_network: kept.first(Kind::VisitedNetworkIdentifier).unwrap_or(&[]),
        authorization_type: kept.value(Kind::UserAuthorizationType, slip).unwrap_or(absent_type),
        server_name: content::server_name(kept.first(Kind::ServerName).unwrap_or(&[]), slip),
        assignment_type: kept.value(Kind::ServerAssignmentType, slip).unwrap_or(0),
        already_available: kept.value(Kind::UserDataAlreadyAvailable, slip).unwrap_or(0),
        scheme: item.and_then(|avp| single::scheme(avp.members(), slip)).unwrap_or(&[]),
        // Absent only in another command.
        number_asked: kept.value(Kind::SipNumberAuthItems, slip).unwrap_or(1),
        features: kept.all(Kind::SupportedFeatures).filter_map(features_of).collect(),
    })
}

/// Reads a request of Sh.
pub fn read_sh<'a>(message: Message<'a>, stated: Stated, slip: Slip) -> Result<UserDataRequest<'a>, Finding<'a>> {
    let kept = keep(message, Dialect::Sh, stated, slip)?;
    let group = kept.all(Kind::UserIdentity).next();
    Ok(UserDataRequest {
        identity: group.and_then(|avp| single::identity(avp.members(), slip)).unwrap_or(&[]),
        references: kept.all(Kind::DataReference).map(|avp| (avp, content::number(avp.data, slip))).collect(),
        user_name: kept.first(Kind::UserName),
    })
}
