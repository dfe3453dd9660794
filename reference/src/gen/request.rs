//! A request as its maker thinks of it, and its bytes.

use crate::kinds::{Dialect, Kind, AUTH_APPLICATION_ID, VENDOR, VENDOR_ID};
use crate::message::{padded, M, V};
use crate::rng::Rng;

/// Puts the header's length into a request, if it is there.
pub fn tell_length(bytes: &mut [u8], length: usize) {
    if let Some(told) = bytes.get_mut(1..4) {
        told.copy_from_slice(&(length as u32).to_be_bytes()[1..]);
    }
}

/// One AVP; it may lie about its length.
#[derive(Clone, Debug)]
pub struct Piece {
    pub code: u32,
    pub flags: u8,
    /// Written if V is set.
    pub vendor: u32,
    pub data: Vec<u8>,
    /// The length field, if it is not the true one.
    pub told_length: Option<u32>,
    /// Padding bytes are never looked at, so they are anything.
    pub padding: [u8; 3],
}

impl Piece {
    pub fn new(rng: &mut Rng, vendor: Option<u32>, code: u32, flags: u8, data: Vec<u8>) -> Piece {
        Piece {
            code,
            flags: if vendor.is_some() { flags | V } else { flags & !V },
            vendor: vendor.unwrap_or(0),
            data,
            told_length: None,
            padding: [rng.byte(), rng.byte(), rng.byte()],
        }
    }

    /// A known kind, marked as the standards have it.
    pub fn of(rng: &mut Rng, kind: Kind, data: Vec<u8>) -> Piece {
        Piece::new(rng, kind.vendor(), kind.code(), M, data)
    }

    pub fn number(rng: &mut Rng, kind: Kind, number: u32) -> Piece {
        Piece::of(rng, kind, number.to_be_bytes().to_vec())
    }

    pub fn has_vendor(&self) -> bool {
        self.flags & V != 0
    }

    pub fn is(&self, kind: Kind) -> bool {
        self.code == kind.code() && self.has_vendor() == kind.vendor().is_some()
    }

    pub fn header(&self) -> usize {
        if self.has_vendor() {
            12
        } else {
            8
        }
    }

    /// The true length without padding.
    pub fn length(&self) -> usize {
        self.header() + self.data.len()
    }

    pub fn padded(&self) -> usize {
        padded(self.length())
    }

    pub fn encode(&self, to: &mut Vec<u8>) {
        let length = self.told_length.unwrap_or(self.length() as u32) & 0xFF_FFFF;
        to.extend(self.code.to_be_bytes());
        to.extend((u32::from(self.flags) << 24 | length).to_be_bytes());
        if self.has_vendor() {
            to.extend(self.vendor.to_be_bytes());
        }
        to.extend(&self.data);
        let pad = self.padded() - self.length();
        to.extend(&self.padding[..pad]);
    }
}

#[derive(Clone, Debug)]
pub struct RequestModel {
    /// Of which interface it is, though its header may say otherwise.
    pub dialect: Dialect,
    pub version: u8,
    pub flags: u8,
    pub command: u32,
    pub application: u32,
    pub hop_by_hop: u32,
    pub end_to_end: u32,
    /// The header's length field, if it is not the true one.
    pub told_length: Option<u32>,
    pub pieces: Vec<Piece>,
    /// Bytes after the last AVP.
    pub tail: Vec<u8>,
}

impl RequestModel {
    pub fn length(&self) -> usize {
        20 + self.pieces.iter().map(Piece::padded).sum::<usize>() + self.tail.len()
    }

    pub fn encode(&self) -> Vec<u8> {
        let mut bytes = Vec::with_capacity(self.length());
        let length = self.told_length.unwrap_or(self.length() as u32) & 0xFF_FFFF;
        bytes.extend((u32::from(self.version) << 24 | length).to_be_bytes());
        bytes.extend((u32::from(self.flags) << 24 | self.command & 0xFF_FFFF).to_be_bytes());
        for word in [self.application, self.hop_by_hop, self.end_to_end] {
            bytes.extend(word.to_be_bytes());
        }
        for piece in &self.pieces {
            piece.encode(&mut bytes);
        }
        bytes.extend(&self.tail);
        bytes
    }

    /// The place of the first AVP of a kind.
    pub fn place(&self, kind: Kind) -> Option<usize> {
        self.pieces.iter().position(|piece| piece.is(kind))
    }

    /// Puts an AVP anywhere after the first.
    pub fn insert(&mut self, rng: &mut Rng, piece: Piece) {
        let at = if self.pieces.is_empty() { 0 } else { rng.between(1, self.pieces.len()) };
        self.pieces.insert(at, piece);
    }
}

/// AVPs one behind the other, as a group holds them.
pub fn put_together(pieces: &[Piece]) -> Vec<u8> {
    let mut data = Vec::new();
    for piece in pieces {
        piece.encode(&mut data);
    }
    data
}

/// What a group holds, rightly, that has one member of vendor 10415: M and P are free, and its padding is whole or cut.
pub fn single(rng: &mut Rng, code: u32, data: Vec<u8>) -> Vec<u8> {
    let flags = if rng.once_in(4) { *rng.pick(&[0, 0x20, 0x60]) } else { M };
    let member = Piece::new(rng, Some(VENDOR), code, flags, data);
    let padding = member.padded() - member.length();
    let mut data = Vec::new();
    member.encode(&mut data);
    if padding > 0 && rng.coin() {
        data.truncate(data.len() - rng.between(1, padding));
    }
    data
}

/// A member of 260, without V.
pub fn member(code: u32, flags: u8, number: u32) -> Vec<u8> {
    let mut bytes = code.to_be_bytes().to_vec();
    bytes.extend((u32::from(flags) << 24 | 12).to_be_bytes());
    bytes.extend(number.to_be_bytes());
    bytes
}

/// What 260 holds, rightly: mostly one Vendor-Id and the application after it.
pub fn application(rng: &mut Rng, dialect: Dialect) -> Vec<u8> {
    let vendors = if rng.once_in(10) { rng.between(1, 3) } else { 1 };
    application_of(rng, dialect, vendors)
}

/// With so many Vendor-Ids.
pub fn application_of(rng: &mut Rng, dialect: Dialect, vendors: usize) -> Vec<u8> {
    let mut members = vec![(VENDOR_ID, VENDOR); vendors];
    members.push((AUTH_APPLICATION_ID, dialect.application()));
    if rng.once_in(3) {
        rng.shuffle(&mut members);
    }
    let mut data = Vec::new();
    for (code, number) in members {
        // M and P are free.
        let flags = if rng.once_in(4) { *rng.pick(&[0, 0x20, 0x60]) } else { M };
        data.extend(member(code, flags, number));
    }
    data
}
