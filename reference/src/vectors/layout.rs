//! The vector file's layout, and the marking of a vector that is sent.

use crate::block::{mend, name, BLOCK};
use crate::slip::{Fault, Slip};

pub const KIND: u8 = 3;
pub const MOST_VECTORS: usize = 4096;
pub const LEAST_XRES: usize = 4;
pub const MOST_XRES: usize = 16;

/// Offsets in a block.
pub mod vector {
    pub const USED: usize = 1;
    pub const XRES_LENGTH: usize = 2;
    pub const PRIVATE_LENGTH: usize = 3;
    pub const PRIVATE: usize = 4;
    pub const RAND_AND_AUTN: usize = 132;
    pub const XRES: usize = 164;
    pub const CONFIDENTIALITY_KEY: usize = 180;
    pub const INTEGRITY_KEY: usize = 196;
    pub const REST: usize = 212;
}

/// A vector of a file that was found sound.
#[derive(Clone, Copy, PartialEq, Debug)]
pub struct Vector<'a>(pub &'a [u8]);

impl<'a> Vector<'a> {
    pub fn is_used(&self) -> bool {
        self.0[vector::USED] == 1
    }

    pub fn private(&self) -> &'a [u8] {
        name(self.0, vector::PRIVATE_LENGTH, vector::PRIVATE)
    }

    pub fn rand_and_autn(&self) -> &'a [u8] {
        &self.0[vector::RAND_AND_AUTN..vector::XRES]
    }

    /// Of its true length.
    pub fn xres(&self) -> &'a [u8] {
        name(self.0, vector::XRES_LENGTH, vector::XRES)
    }

    pub fn confidentiality_key(&self) -> &'a [u8] {
        &self.0[vector::CONFIDENTIALITY_KEY..vector::INTEGRITY_KEY]
    }

    pub fn integrity_key(&self) -> &'a [u8] {
        &self.0[vector::INTEGRITY_KEY..vector::REST]
    }
}

/// A sound vector file, to be read.
#[derive(Clone, Copy)]
pub struct Vectors<'a>(pub &'a [u8]);

impl<'a> Vectors<'a> {
    /// In file order, each with its block number, from 0.
    pub fn all(&self) -> impl Iterator<Item = (usize, Vector<'a>)> {
        self.0.chunks_exact(BLOCK).map(Vector).enumerate()
    }
}

/// Marks a vector used: its byte 1 and the check word, nothing else.
pub fn mark(block: &mut [u8], slip: Slip) {
    match slip.0 {
        Some(Fault::SentVectorWiped) => block[vector::RAND_AND_AUTN..vector::REST].fill(0),
        Some(Fault::MarkCountsUp) => block[vector::USED] = block[vector::USED].wrapping_add(2),
        _ => {}
    }
    block[vector::USED] |= 1;
    if !slip.is(Fault::VectorCheckWordStays) {
        mend(block);
    }
}
