//! Codes, and the kinds of AVPs that are known.

pub const VENDOR: u32 = 10415;
/// The one authentication scheme that is served.
pub const SCHEME: &[u8] = b"Digest-AKAv1-MD5";

/// AVPs of the answer and of groups; at a request's top level these are unknown kinds.
pub const AUTH_APPLICATION_ID: u32 = 258;
pub const VENDOR_ID: u32 = 266;
pub const RESULT_CODE: u32 = 268;
pub const FAILED_AVP: u32 = 279;
pub const EXPERIMENTAL_RESULT: u32 = 297;
pub const EXPERIMENTAL_RESULT_CODE: u32 = 298;
pub const SERVER_CAPABILITIES: u32 = 603;
pub const MANDATORY_CAPABILITY: u32 = 604;
pub const OPTIONAL_CAPABILITY: u32 = 605;
pub const USER_DATA: u32 = 606;
pub const SIP_AUTHENTICATION_SCHEME: u32 = 608;
pub const SIP_AUTHENTICATE: u32 = 609;
pub const SIP_AUTHORIZATION: u32 = 610;
pub const SIP_ITEM_NUMBER: u32 = 613;
pub const CONFIDENTIALITY_KEY: u32 = 625;
pub const INTEGRITY_KEY: u32 = 626;
pub const FEATURE_LIST_ID: u32 = 629;
pub const FEATURE_LIST: u32 = 630;
pub const MSISDN: u32 = 701;
pub const SH_USER_DATA: u32 = 702;

/// An interface: it has its own application, commands and known kinds.
#[derive(Clone, Copy, PartialEq, Eq, Debug)]
pub enum Dialect {
    Cx,
    Sh,
}

impl Dialect {
    pub fn application(self) -> u32 {
        match self {
            Dialect::Cx => 16_777_216,
            Dialect::Sh => 16_777_217,
        }
    }

    pub fn commands(self) -> &'static [Command] {
        match self {
            Dialect::Cx => {
                &[Command::UserAuthorization, Command::ServerAssignment, Command::LocationInfo, Command::MultimediaAuth]
            }
            Dialect::Sh => &[Command::UserData],
        }
    }

    pub fn command(self, code: u32) -> Option<Command> {
        self.commands().iter().copied().find(|command| command.code() == code)
    }

    /// The kinds that it knows.
    pub fn kinds(self) -> Vec<Kind> {
        KINDS.iter().copied().filter(|kind| self.knows(*kind)).collect()
    }

    /// Those of vendor 0 are common, and so is 628.
    fn knows(self, kind: Kind) -> bool {
        let of_sh = matches!(kind, UserIdentity | DataReference);
        kind.vendor().is_none() || kind == SupportedFeatures || of_sh == (self == Dialect::Sh)
    }

    /// The known kind of this vendor and code; `None` for the vendor is an AVP without V.
    pub fn kind(self, vendor: Option<u32>, code: u32) -> Option<Kind> {
        let all = KINDS.iter().copied();
        all.filter(|kind| self.knows(*kind)).find(|kind| kind.vendor() == vendor && kind.code() == code)
    }
}

#[derive(Clone, Copy, PartialEq, Eq, Debug)]
pub enum Command {
    UserAuthorization = 300,
    ServerAssignment = 301,
    LocationInfo = 302,
    MultimediaAuth = 303,
    /// Of Sh.
    UserData = 306,
}

impl Command {
    /// One of Cx.
    pub fn of(code: u32) -> Option<Command> {
        Dialect::Cx.command(code)
    }

    pub fn code(self) -> u32 {
        self as u32
    }

    pub fn dialect(self) -> Dialect {
        match self {
            Command::UserData => Dialect::Sh,
            _ => Dialect::Cx,
        }
    }
}

macro_rules! kinds {
    ($($kind:ident = $code:literal $name:literal,)*) => {
        /// A kind that an interface knows; its value is its code.
        #[derive(Clone, Copy, PartialEq, Eq, Debug)]
        pub enum Kind { $($kind = $code,)* }

        const KINDS: &[Kind] = &[$(Kind::$kind,)*];

        impl Kind {
            pub fn name(self) -> &'static str {
                match self { $(Kind::$kind => $name,)* }
            }
        }
    };
}

// Without V up to 600; from there on of vendor 10415.
kinds! {
    SessionId = 263 "Session-Id",
    VendorSpecificApplicationId = 260 "Vendor-Specific-Application-Id",
    AuthSessionState = 277 "Auth-Session-State",
    OriginHost = 264 "Origin-Host",
    OriginRealm = 296 "Origin-Realm",
    DestinationHost = 293 "Destination-Host",
    DestinationRealm = 283 "Destination-Realm",
    UserName = 1 "User-Name",
    ProxyInfo = 284 "Proxy-Info",
    RouteRecord = 282 "Route-Record",
    PublicIdentity = 601 "Public-Identity",
    VisitedNetworkIdentifier = 600 "Visited-Network-Identifier",
    UserAuthorizationType = 623 "User-Authorization-Type",
    ServerName = 602 "Server-Name",
    ServerAssignmentType = 614 "Server-Assignment-Type",
    UserDataAlreadyAvailable = 624 "User-Data-Already-Available",
    SipNumberAuthItems = 607 "SIP-Number-Auth-Items",
    SipAuthDataItem = 612 "SIP-Auth-Data-Item",
    SupportedFeatures = 628 "Supported-Features",
    UserIdentity = 700 "User-Identity",
    DataReference = 703 "Data-Reference",
}

use Kind::*;

/// Needed in every request, in the order in which a missing one is looked for.
const NEEDED_EVERYWHERE: [Kind; 6] =
    [SessionId, VendorSpecificApplicationId, AuthSessionState, OriginHost, OriginRealm, DestinationRealm];

impl Kind {
    /// One that Cx knows.
    pub fn of(vendor: Option<u32>, code: u32) -> Option<Kind> {
        Dialect::Cx.kind(vendor, code)
    }

    pub fn code(self) -> u32 {
        self as u32
    }

    pub fn vendor(self) -> Option<u32> {
        (self.code() >= 600).then_some(VENDOR)
    }

    pub fn is_four_bytes(self) -> bool {
        matches!(
            self,
            AuthSessionState
                | UserAuthorizationType
                | ServerAssignmentType
                | UserDataAlreadyAvailable
                | SipNumberAuthItems
                | DataReference
        )
    }

    /// Whether the request of this command names it.
    pub fn is_named_in(self, command: Command) -> bool {
        match self {
            SessionId
            | VendorSpecificApplicationId
            | AuthSessionState
            | OriginHost
            | OriginRealm
            | DestinationHost
            | DestinationRealm
            | ProxyInfo
            | RouteRecord => true,
            UserName => command != Command::LocationInfo,
            PublicIdentity | SupportedFeatures => command.dialect() == Dialect::Cx,
            UserIdentity | DataReference => command == Command::UserData,
            VisitedNetworkIdentifier | UserAuthorizationType => command == Command::UserAuthorization,
            ServerName => matches!(command, Command::ServerAssignment | Command::MultimediaAuth),
            ServerAssignmentType | UserDataAlreadyAvailable => command == Command::ServerAssignment,
            SipNumberAuthItems | SipAuthDataItem => command == Command::MultimediaAuth,
        }
    }

    pub fn may_repeat_in(self, command: Command) -> bool {
        match self {
            ProxyInfo | RouteRecord | SupportedFeatures | DataReference => true,
            PublicIdentity => command == Command::ServerAssignment,
            _ => false,
        }
    }
}

/// The kinds that a request needs, in the order in which a missing one is looked for.
pub fn needed(command: Command) -> Vec<Kind> {
    let mut needed = NEEDED_EVERYWHERE.to_vec();
    needed.extend(match command {
        Command::UserAuthorization => &[UserName, PublicIdentity, VisitedNetworkIdentifier][..],
        Command::ServerAssignment => &[ServerName, ServerAssignmentType, UserDataAlreadyAvailable],
        Command::LocationInfo => &[PublicIdentity],
        Command::MultimediaAuth => &[UserName, PublicIdentity, SipAuthDataItem, SipNumberAuthItems, ServerName],
        Command::UserData => &[UserIdentity, DataReference],
    });
    needed
}

/// The name of an AVP that the documents know or write, or that real requests carry.
pub fn name_of(vendor: Option<u32>, code: u32) -> Option<&'static str> {
    if let Some(kind) = KINDS.iter().find(|kind| kind.vendor() == vendor && kind.code() == code) {
        return Some(kind.name());
    }
    Some(match (vendor, code) {
        (None, AUTH_APPLICATION_ID) => "Auth-Application-Id",
        (None, 259) => "Acct-Application-Id",
        (None, VENDOR_ID) => "Vendor-Id",
        (None, RESULT_CODE) => "Result-Code",
        (None, 278) => "Origin-State-Id",
        (None, FAILED_AVP) => "Failed-AVP",
        (None, EXPERIMENTAL_RESULT) => "Experimental-Result",
        (None, EXPERIMENTAL_RESULT_CODE) => "Experimental-Result-Code",
        (Some(VENDOR), SERVER_CAPABILITIES) => "Server-Capabilities",
        (Some(VENDOR), MANDATORY_CAPABILITY) => "Mandatory-Capability",
        (Some(VENDOR), OPTIONAL_CAPABILITY) => "Optional-Capability",
        (Some(VENDOR), USER_DATA) => "User-Data",
        (Some(VENDOR), SIP_AUTHENTICATION_SCHEME) => "SIP-Authentication-Scheme",
        (Some(VENDOR), SIP_AUTHENTICATE) => "SIP-Authenticate",
        (Some(VENDOR), SIP_AUTHORIZATION) => "SIP-Authorization",
        (Some(VENDOR), SIP_ITEM_NUMBER) => "SIP-Item-Number",
        (Some(VENDOR), CONFIDENTIALITY_KEY) => "Confidentiality-Key",
        (Some(VENDOR), INTEGRITY_KEY) => "Integrity-Key",
        (Some(VENDOR), FEATURE_LIST_ID) => "Feature-List-ID",
        (Some(VENDOR), FEATURE_LIST) => "Feature-List",
        (Some(VENDOR), MSISDN) => "MSISDN",
        (Some(VENDOR), SH_USER_DATA) => "User-Data",
        (Some(VENDOR), 633) => "Originating-Request",
        (Some(VENDOR), 637) => "UAR-Flags",
        _ => return None,
    })
}
