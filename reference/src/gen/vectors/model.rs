//! A vector as its maker thinks of it, and its bytes.

use crate::block::{mend, BLOCK};
use crate::vectors::{vector, KIND};

#[derive(Clone, PartialEq, Debug, Default)]
pub struct VectorModel {
    pub used: bool,
    pub private: Vec<u8>,
    /// 32 bytes.
    pub rand_and_autn: Vec<u8>,
    pub xres: Vec<u8>,
    /// 16 bytes each.
    pub confidentiality_key: Vec<u8>,
    pub integrity_key: Vec<u8>,
}

/// The file of these vectors.
pub fn encode(vectors: &[VectorModel]) -> Vec<u8> {
    let mut bytes = vec![0; BLOCK * vectors.len()];
    for (vector, block) in vectors.iter().zip(bytes.chunks_exact_mut(BLOCK)) {
        vector.encode(block);
    }
    bytes
}

impl VectorModel {
    fn encode(&self, block: &mut [u8]) {
        block[0] = KIND;
        block[vector::USED] = self.used as u8;
        block[vector::XRES_LENGTH] = self.xres.len() as u8;
        block[vector::PRIVATE_LENGTH] = self.private.len() as u8;
        for (at, bytes) in [
            (vector::PRIVATE, &self.private),
            (vector::RAND_AND_AUTN, &self.rand_and_autn),
            (vector::XRES, &self.xres),
            (vector::CONFIDENTIALITY_KEY, &self.confidentiality_key),
            (vector::INTEGRITY_KEY, &self.integrity_key),
        ] {
            block[at..at + bytes.len()].copy_from_slice(bytes);
        }
        mend(block);
    }
}
