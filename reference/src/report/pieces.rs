//! Requests laid end to end, cut by their header lengths alone.

use crate::block::word_at;
use crate::message::padded;
use crate::refuse::{LEAST_REQUEST, MOST_REQUEST};
use crate::slip::{Fault, Slip};

/// What a file of requests has at some byte.
#[derive(Clone, Copy, PartialEq, Debug)]
pub enum Next<'a> {
    Piece(&'a [u8]),
    /// The file is used up.
    End,
    /// No request can be cut out: 1 to 3 bytes are left, or the length is under 20 or past the end.
    Broken,
}

pub fn next(file: &[u8], at: usize, slip: Slip) -> Next<'_> {
    // Only a faulty program goes past the end.
    let left = file.get(at..).unwrap_or(&[]);
    if left.is_empty() {
        return match slip.0 {
            Some(Fault::EmptyFileBroken) if file.is_empty() => Next::Broken,
            Some(Fault::UsedUpBroken) if !file.is_empty() => Next::Broken,
            _ => Next::End,
        };
    }
    if left.len() < 4 {
        return if slip.is(Fault::FewBytesOverlooked) { Next::End } else { Next::Broken };
    }
    let length = match slip.0 {
        Some(Fault::PieceLengthIn16Bits) => word_at(left, 0) & 0xFFFF,
        Some(Fault::PieceLengthIn23Bits) => word_at(left, 0) & 0x7F_FFFF,
        Some(Fault::PieceLengthWithVersion) => word_at(left, 0),
        _ => word_at(left, 0) & 0xFF_FFFF,
    } as usize;
    if is_broken(left, length, slip) {
        return match slip.0 {
            Some(Fault::ZerosEndTheFile) if length == 0 => Next::End,
            Some(Fault::ShortPieceDecided) if (1..LEAST_REQUEST.min(left.len() + 1)).contains(&length) => {
                Next::Piece(&left[..length])
            }
            Some(Fault::PieceCutAtEnd) if length > left.len() => Next::Piece(left),
            Some(Fault::ShortRestOverlooked) if left.len() < LEAST_REQUEST => Next::End,
            _ => Next::Broken,
        };
    }
    Next::Piece(&left[..length])
}

fn is_broken(left: &[u8], length: usize, slip: Slip) -> bool {
    let least = if slip.is(Fault::LeastPieceBroken) { LEAST_REQUEST + 1 } else { LEAST_REQUEST };
    let past = if slip.is(Fault::LastPieceBroken) { length >= left.len() } else { length > left.len() };
    let besides = match slip.0 {
        Some(Fault::OtherVersionBroken) => left[0] != 1,
        Some(Fault::OddPieceBroken) => length % 4 != 0,
        Some(Fault::LongPieceBroken) => length > MOST_REQUEST,
        Some(Fault::AnswerBroken) => left.get(4).map_or(false, |flags| flags & 0x80 == 0),
        _ => false,
    };
    length < least || past || besides
}

/// How far the next piece is.
pub fn step(piece: &[u8], slip: Slip) -> usize {
    match slip.0 {
        Some(Fault::PiecesPadded) => padded(piece.len()),
        Some(Fault::PiecesCutDown) => piece.len() / 4 * 4,
        _ => piece.len(),
    }
}
