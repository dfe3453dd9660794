//! What the daemon states at each call, in the numbers behind the slices: which base standard its peer follows, and which features the server
//! supports.

use crate::slip::{Fault, Slip};

/// 260 may hold several Vendor-Ids.
pub const RFC_3588: u32 = 3588;
/// 260 holds exactly one.
pub const RFC_6733: u32 = 6733;

#[derive(Clone, Copy, PartialEq, Eq, Debug)]
pub struct Stated {
    /// The edition that the peer follows; every number but the two is refused.
    pub peer: u32,
    /// The bits of list 1 of vendor 10415 that the server supports; any are taken.
    pub features: u32,
}

impl Stated {
    /// What the program `answer` states.
    pub const OLDER: Stated = Stated { peer: RFC_3588, features: 0 };
    pub const NEWER: Stated = Stated { peer: RFC_6733, features: 0 };

    pub fn numbers(self) -> Vec<u32> {
        vec![self.peer, self.features]
    }

    /// Of a call's numbers; Sh is told of no features.
    pub fn of(numbers: &[u32]) -> Stated {
        Stated { peer: numbers[0], features: numbers.get(1).copied().unwrap_or(0) }
    }

    pub fn has_known_peer(self) -> bool {
        [RFC_3588, RFC_6733].contains(&self.peer)
    }

    /// Whether 260 must hold one Vendor-Id alone.
    pub fn is_newer(self) -> bool {
        self.peer == RFC_6733
    }

    /// As a faulty program takes it.
    pub fn taken(self, slip: Slip) -> Stated {
        let Stated { peer, features } = self;
        let features = match slip.0 {
            Some(Fault::NumbersTurned) => return Stated { peer: features, features: peer },
            Some(Fault::SetIn16Bits) => features & 0xFFFF,
            Some(Fault::SetWithSign) => features & 0x7FFF_FFFF,
            Some(Fault::SetLittleEndian) => features.swap_bytes(),
            _ => features,
        };
        let taken = match (slip.0, peer) {
            (Some(Fault::PeerIn16Bits), _) => peer & 0xFFFF,
            (Some(Fault::PeersTurned), RFC_3588) => RFC_6733,
            (Some(Fault::PeersTurned), RFC_6733) => RFC_3588,
            (Some(Fault::PeersFromOne), 1) | (Some(Fault::PeersFromZero), 0) => RFC_3588,
            (Some(Fault::PeersFromOne), 2) | (Some(Fault::PeersFromZero), 1) => RFC_6733,
            (Some(Fault::PeersFromOne | Fault::PeersFromZero), _) => 0,
            (Some(Fault::OlderPeersTaken), 0..=RFC_3588) => RFC_3588,
            (Some(Fault::NewerPeersTaken), RFC_6733..) => RFC_6733,
            (Some(Fault::PeersBetweenTaken), 3589..=RFC_6733) => RFC_6733,
            (Some(Fault::GreatSetRefused), _) if features >= 1 << 31 => 0,
            (Some(Fault::EmptySetRefused), _) if features == 0 => 0,
            (Some(Fault::UnknownPeerIsOlder), _) if !self.has_known_peer() => RFC_3588,
            (Some(Fault::UnknownPeerIsNewer), _) if !self.has_known_peer() => RFC_6733,
            _ => peer,
        };
        Stated { peer: taken, features }
    }
}
