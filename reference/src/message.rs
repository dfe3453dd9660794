//! The Diameter header, and AVPs one after another.

use crate::block::word_at;
use crate::slip::{Fault, Slip};

pub const HEADER: usize = 20;

/// Flags of the header.
pub const R: u8 = 0x80;
pub const P: u8 = 0x40;
pub const E: u8 = 0x20;

/// Flags of an AVP.
pub const V: u8 = 0x80;
pub const M: u8 = 0x40;
pub const RESERVED: u8 = 0x1F;

/// A request that passed the refusals of length.
#[derive(Clone, Copy)]
pub struct Message<'a>(pub &'a [u8]);

impl<'a> Message<'a> {
    pub fn version(&self) -> u8 {
        self.0[0]
    }

    pub fn length(&self) -> usize {
        (word_at(self.0, 0) & 0xFF_FFFF) as usize
    }

    pub fn flags(&self) -> u8 {
        self.0[4]
    }

    pub fn command(&self) -> u32 {
        word_at(self.0, 4) & 0xFF_FFFF
    }

    pub fn application(&self) -> u32 {
        word_at(self.0, 8)
    }

    /// All that follows the header.
    pub fn avps(&self) -> Received<'a> {
        Received { at: HEADER, bytes: &self.0[HEADER..] }
    }
}

/// AVPs as received, one behind another.
#[derive(Clone, Copy)]
pub struct Received<'a> {
    /// At which byte of the message they begin.
    pub at: usize,
    pub bytes: &'a [u8],
}

/// An AVP whose length is sound.
#[derive(Clone, Copy, PartialEq, Debug)]
pub struct Avp<'a> {
    /// At which byte of the message it begins.
    pub at: usize,
    pub code: u32,
    pub flags: u8,
    /// Only with V.
    pub vendor: Option<u32>,
    pub data: &'a [u8],
    /// Header and data as received, without padding.
    pub whole: &'a [u8],
}

impl<'a> Avp<'a> {
    /// 8 bytes, or 12 with V.
    pub fn header(&self) -> &'a [u8] {
        let length = if self.vendor.is_some() { 12 } else { 8 };
        &self.whole[..length.min(self.whole.len())]
    }

    /// What a group holds.
    pub fn members(&self) -> Received<'a> {
        Received { at: self.at + self.header().len(), bytes: self.data }
    }

    pub fn is_marked(&self) -> bool {
        self.flags & M != 0
    }

    pub fn has_reserved_flags(&self) -> bool {
        self.flags & RESERVED != 0
    }
}

/// Rule (a): the length is no sound one.
#[derive(Clone, PartialEq, Debug)]
pub enum LengthFault {
    /// Too few bytes are left for the header.
    CutOff,
    /// The header is there; its length is set to 8 or 12.
    Header(Vec<u8>),
}

/// A length with its padding.
pub fn padded(length: usize) -> usize {
    (length + 3) / 4 * 4
}

impl<'a> Received<'a> {
    pub fn is_empty(&self) -> bool {
        self.bytes.is_empty()
    }

    /// The first AVP, and those that follow it and its padding.
    pub fn first(self, slip: Slip) -> Result<(Avp<'a>, Received<'a>), LengthFault> {
        let bytes = self.bytes;
        if bytes.len() < 8 {
            return Err(LengthFault::CutOff);
        }
        let flags = bytes[4];
        let header = if flags & V != 0 { 12 } else { 8 };
        if bytes.len() < header {
            if slip.is(Fault::CutVendorNotSeen) {
                return Err(LengthFault::Header(header_alone(&bytes[..8], slip)));
            }
            return Err(LengthFault::CutOff);
        }
        let mask = if slip.is(Fault::AvpLengthIn16Bits) { 0xFFFF } else { 0xFF_FFFF };
        let mut length = (word_at(bytes, 4) & mask) as usize;
        let least = if slip.is(Fault::VendorLengthNotAsked) { 8 } else { header };
        if length < least || length > bytes.len() {
            return Err(LengthFault::Header(header_alone(&bytes[..header], slip)));
        }
        let end = padded(length);
        let with_padding = end.min(bytes.len());
        if slip.is(Fault::LengthWithPadding) {
            length = with_padding;
        }
        let avp = Avp {
            at: self.at,
            code: word_at(bytes, 0),
            flags,
            vendor: (flags & V != 0).then(|| word_at(bytes, 8)),
            data: &bytes[header.min(length)..length],
            whole: &bytes[..if slip.is(Fault::PaddingCopied) { with_padding } else { length }],
        };
        // The last member of a group may have its padding cut.
        Ok((avp, Received { at: self.at + end, bytes: bytes.get(end..).unwrap_or(&[]) }))
    }

    /// At how many places AVPs begin, up to the first length fault and with it.
    pub fn places(self) -> usize {
        let (mut places, mut rest) = (0, self);
        while !rest.is_empty() {
            places += 1;
            match rest.first(Slip::NONE) {
                Ok((_, after)) => rest = after,
                Err(_) => break,
            }
        }
        places
    }

    /// The AVPs before the first length fault.
    pub fn sound(self, slip: Slip) -> Vec<Avp<'a>> {
        let mut avps = Vec::new();
        let mut rest = self;
        while let Ok((avp, after)) = rest.first(slip) {
            avps.push(avp);
            rest = after;
        }
        avps
    }
}

/// A header with its own length.
pub fn header_alone(header: &[u8], slip: Slip) -> Vec<u8> {
    let header = if slip.is(Fault::FaultyHeaderOf8) { &header[..8] } else { header };
    let mut alone = header.to_vec();
    if !slip.is(Fault::FaultyLengthLeft) {
        alone[5..8].copy_from_slice(&[0, 0, header.len() as u8]);
    }
    alone
}
