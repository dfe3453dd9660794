//! The check: what document 02 says of a sound vector file.

use super::layout::{vector, KIND, LEAST_XRES, MOST_VECTORS, MOST_XRES};
use crate::block::{sum, word_at, zero, BLOCK, CHECK_WORD};
use crate::slip::{Fault, Slip};
use crate::table::{BEHIND_ISSUE, EDITION_2, ISSUE, LONGEST_IDENTITY};

/// The number of blocks of a sound file, or the number of its first bad block, from 0.
pub fn check(vectors: &[u8]) -> Result<u32, u32> {
    checked(vectors, Slip::NONE)
}

/// `check`, or as a program with a deliberate fault does it.
pub fn check_with(vectors: &[u8], slip: Slip) -> Result<u32, u32> {
    match slip.0 {
        None => check(vectors),
        Some(_) => checked(vectors, slip),
    }
}

/// Inlined with all that it calls, so that the true check has no trace of the faults.
#[inline(always)]
fn checked(vectors: &[u8], slip: Slip) -> Result<u32, u32> {
    if vectors.is_empty() && slip.is(Fault::NoVectorsRefused) {
        return Err(0);
    }
    if let (Err(block), true) = (length_fits(vectors.len(), slip), slip.is(Fault::VectorLengthFirst)) {
        return Err(block);
    }
    let most = if slip.is(Fault::VectorsNotLimited) { usize::MAX } else { MOST_VECTORS };
    let mut last_bad = None;
    for (number, block) in vectors.chunks_exact(BLOCK).take(most).enumerate() {
        let before = number.checked_sub(1).map(|before| &vectors[before * BLOCK..][..BLOCK]);
        let unasked = match slip.0 {
            Some(Fault::FirstVectorNotChecked) => number == 0,
            Some(Fault::LastVectorNotChecked) => (number + 1) * BLOCK == vectors.len(),
            _ => false,
        };
        if !unasked && (!vector_is_sound(block, slip) || !follows(before, block, slip)) {
            if !slip.is(Fault::LastBadVectorTold) {
                return Err(number as u32);
            }
            last_bad = Some(number as u32);
        }
    }
    last_bad.map_or(length_fits(vectors.len(), slip), Err)
}

/// A last piece under 512 bytes, and a block past the 4,096th, are bad ones.
#[inline(always)]
fn length_fits(length: usize, slip: Slip) -> Result<u32, u32> {
    let blocks = length / BLOCK;
    let most = match slip.0 {
        Some(Fault::VectorsNotLimited) => blocks,
        Some(Fault::MostVectorsRefused) => MOST_VECTORS - 1,
        _ => MOST_VECTORS,
    };
    if blocks > most {
        return Err(most as u32);
    }
    if length % BLOCK != 0 && !slip.is(Fault::CutVectorTaken) {
        return Err(blocks as u32);
    }
    Ok(blocks as u32)
}

#[inline(always)]
fn vector_is_sound(block: &[u8], slip: Slip) -> bool {
    (sum(block) == 0 || slip.is(Fault::VectorSumNotAsked))
        && (block[0] == KIND || slip.is(Fault::VectorKindNotAsked))
        && (block[vector::USED] <= 1 || slip.is(Fault::UsedNotLimited) || is_second(block, slip))
        && (block[vector::USED] == 1 || !slip.is(Fault::VectorEditionAsked))
        && xres_fits(block, slip)
        && private_fits(block, slip)
        && rest_is_zero(block, slip)
        && (word_at(block, vector::RAND_AND_AUTN) != 0 || !slip.is(Fault::RandOfZerosRefused))
}

/// The file has no edition: only a faulty program takes byte 1 for one.
#[inline(always)]
fn is_second(block: &[u8], slip: Slip) -> bool {
    block[vector::USED] == EDITION_2 && slip.is(Fault::VectorEdition2Taken)
}

#[inline(always)]
fn rest_is_zero(block: &[u8], slip: Slip) -> bool {
    match slip.0 {
        Some(Fault::VectorRestNotAsked) => true,
        Some(Fault::VectorIssueTaken) => zero(&block[vector::REST..ISSUE]) && zero(&block[BEHIND_ISSUE..CHECK_WORD]),
        _ => zero(&block[vector::REST..CHECK_WORD]),
    }
}

#[inline(always)]
fn xres_fits(block: &[u8], slip: Slip) -> bool {
    let length = block[vector::XRES_LENGTH] as usize;
    let unused = block[vector::XRES..vector::CONFIDENTIALITY_KEY].get(length..).unwrap_or(&[]);
    let fits = match slip.0 {
        Some(Fault::XresOf3Taken) => (LEAST_XRES - 1..=MOST_XRES).contains(&length),
        Some(Fault::XresOf4Refused) => (LEAST_XRES + 1..=MOST_XRES).contains(&length),
        Some(Fault::XresOf16Refused) => (LEAST_XRES..MOST_XRES).contains(&length),
        Some(Fault::XresOf17Taken) => (LEAST_XRES..=MOST_XRES + 1).contains(&length),
        Some(Fault::XresByFour) => (LEAST_XRES..=MOST_XRES).contains(&length) && length % 4 == 0,
        _ => (LEAST_XRES..=MOST_XRES).contains(&length),
    };
    fits && (zero(unused) || slip.is(Fault::XresTailNotAsked))
}

#[inline(always)]
fn private_fits(block: &[u8], slip: Slip) -> bool {
    let length = block[vector::PRIVATE_LENGTH] as usize;
    let unused = block[vector::PRIVATE..vector::RAND_AND_AUTN].get(length..).unwrap_or(&[]);
    let fits = match slip.0 {
        Some(Fault::VectorNameEmptyTaken) => length <= LONGEST_IDENTITY,
        Some(Fault::VectorNameOf128Refused) => (1..LONGEST_IDENTITY).contains(&length),
        Some(Fault::VectorNameOf129Taken) => (1..=LONGEST_IDENTITY + 1).contains(&length),
        _ => (1..=LONGEST_IDENTITY).contains(&length),
    };
    fits && (zero(unused) || slip.is(Fault::VectorNameTailNotAsked))
}

/// There is no order and no uniqueness: only a faulty program asks what stood before.
#[inline(always)]
fn follows(before: Option<&[u8]>, block: &[u8], slip: Slip) -> bool {
    match (slip.0, before) {
        (Some(Fault::EqualVectorsRefused), Some(before)) => before != block,
        (Some(Fault::VectorsInOrder), Some(before)) => {
            before[vector::PRIVATE..vector::RAND_AND_AUTN] <= block[vector::PRIVATE..vector::RAND_AND_AUTN]
        }
        _ => true,
    }
}
