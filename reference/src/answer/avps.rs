//! Writing AVPs.

use crate::kinds::Kind;
use crate::message::{padded, M, V};
use crate::slip::{Fault, Slip};

/// AVPs one after another, each with its padding.
pub struct Avps {
    pub bytes: Vec<u8>,
    pub slip: Slip,
}

impl Avps {
    pub fn new(slip: Slip) -> Avps {
        Avps { bytes: Vec::new(), slip }
    }

    /// One of the server's own.
    pub fn own(&mut self, vendor: Option<u32>, code: u32, data: &[u8]) {
        let v = if vendor.is_some() { V } else { 0 };
        let m = if self.slip.is(Fault::OwnWithoutMark) { 0 } else { M };
        let length = 8 + 4 * vendor.is_some() as usize + data.len();
        self.bytes.extend(code.to_be_bytes());
        self.bytes.extend((u32::from(v | m) << 24 | length as u32).to_be_bytes());
        if let Some(vendor) = vendor {
            self.bytes.extend(vendor.to_be_bytes());
        }
        self.bytes.extend(data);
        self.pad();
    }

    /// One of the server's own, without M.
    pub fn own_unmarked(&mut self, vendor: Option<u32>, code: u32, data: &[u8]) {
        let at = self.bytes.len();
        self.own(vendor, code, data);
        self.bytes[at + 4] &= !M;
    }

    pub fn own_kind(&mut self, kind: Kind, data: &[u8]) {
        self.own(kind.vendor(), kind.code(), data);
    }

    pub fn own_number(&mut self, vendor: Option<u32>, code: u32, number: u32) {
        self.own(vendor, code, &number.to_be_bytes());
    }

    /// A copy keeps header and data; its padding is zero.
    pub fn copy(&mut self, whole: &[u8]) {
        let at = self.bytes.len();
        self.bytes.extend(whole);
        if self.slip.is(Fault::CopiedFlagsReset) {
            self.bytes[at + 4] = whole[4] & V | M;
        }
        self.pad();
    }

    fn pad(&mut self) {
        self.bytes.resize(padded(self.bytes.len()), 0);
    }
}
