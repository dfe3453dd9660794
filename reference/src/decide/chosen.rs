//! Which vectors a MAR is given, and which are marked for it.

use crate::read::Request;
use crate::slip::{Fault, Slip};
use crate::vectors::{Vector, Vectors};

/// The most vectors that one answer sends.
pub const MOST_SENT: usize = 16;

/// The vectors that are sent: the name's first unused ones in file order, as many as asked, at most 16.
pub fn chosen<'a>(request: &Request<'a>, vectors: Vectors<'a>, slip: Slip) -> Vec<(usize, Vector<'a>)> {
    let asked = number_asked(request.number_asked, slip);
    let most = match slip.0 {
        Some(Fault::FifteenSent) => MOST_SENT - 1,
        Some(Fault::SeventeenSent) => MOST_SENT + 1,
        Some(Fault::OneSent) => 1,
        Some(Fault::MostSentNotAsked) => usize::MAX,
        _ => MOST_SENT,
    };
    let of_name = seen(vectors, slip).filter(|(_, vector)| is_of_name(*vector, request, slip));
    let counted: Vec<(usize, Vector)> = match slip.0 {
        Some(Fault::UsedCounted) => of_name.take(asked.min(most)).filter(|(_, vector)| !vector.is_used()).collect(),
        Some(Fault::UsedSentAgain) => of_name.collect(),
        _ => of_name.filter(|(_, vector)| !vector.is_used()).collect(),
    };
    if slip.is(Fault::FewerIsNone) && counted.len() < asked.min(most) {
        return Vec::new();
    }
    match slip.0 {
        Some(Fault::LastVectorsFirst) => counted.into_iter().rev().take(asked.min(most)).collect(),
        _ => counted.into_iter().take(asked.min(most)).collect(),
    }
}

/// All of them, for a program without fault.
fn seen<'a>(vectors: Vectors<'a>, slip: Slip) -> impl Iterator<Item = (usize, Vector<'a>)> {
    let count = vectors.all().count();
    vectors.all().filter(move |(block, _)| match slip.0 {
        Some(Fault::FirstVectorNotSeen) => *block != 0,
        Some(Fault::LastVectorNotSeen) => *block != count - 1,
        Some(Fault::VectorsSeenIn8Bits) => *block < count % 256,
        _ => true,
    })
}

fn number_asked(asked: u32, slip: Slip) -> usize {
    match slip.0 {
        Some(Fault::AskedIn8Bits) => (asked & 0xFF) as usize,
        Some(Fault::AskedIn16Bits) => (asked & 0xFFFF) as usize,
        Some(Fault::AskedSigned) => (asked as i32).max(0) as usize,
        Some(Fault::AskedAndOne) => asked.wrapping_add(1) as usize,
        Some(Fault::ZeroAskedIsOne) => asked.max(1) as usize,
        _ => asked as usize,
    }
}

/// The private identity, compared exactly.
fn is_of_name(vector: Vector, request: &Request, slip: Slip) -> bool {
    let (stored, asked) = (vector.private(), request.user_name.unwrap_or(&[]));
    match slip.0 {
        Some(Fault::VectorOfAnyName) => true,
        Some(Fault::VectorNameWithoutCase) => stored.eq_ignore_ascii_case(asked),
        Some(Fault::VectorNamePrefixTaken) => asked.starts_with(stored),
        Some(Fault::LongerVectorNameTaken) => stored.starts_with(asked),
        Some(Fault::VectorNameEndsAtZero) => before_zero(stored) == before_zero(asked),
        Some(Fault::VectorNameByField) => without_zeros(stored) == without_zeros(asked),
        Some(Fault::VectorOfPublicIdentity) => stored == request.identities[0].data,
        _ => stored == asked,
    }
}

fn before_zero(name: &[u8]) -> Option<&[u8]> {
    name.split(|byte| *byte == 0).next()
}

fn without_zeros(name: &[u8]) -> &[u8] {
    let zeros = name.iter().rev().take_while(|byte| **byte == 0).count();
    &name[..name.len() - zeros]
}

/// The blocks of the unused vectors of the request's User-Name.
pub fn unused(request: &Request, vectors: Vectors) -> Vec<usize> {
    let of_name = vectors.all().filter(|(_, vector)| Some(vector.private()) == request.user_name);
    of_name.filter(|(_, vector)| !vector.is_used()).map(|(block, _)| block).collect()
}

/// The blocks that are marked used: those that are sent.
pub fn marked(sent: &[(usize, Vector)], slip: Slip) -> Vec<usize> {
    let blocks = sent.iter().map(|(block, _)| *block);
    match (slip.0, sent.first()) {
        (Some(Fault::NoVectorMarked), _) => Vec::new(),
        (Some(Fault::MarkedIn8Bits), _) => blocks.map(|block| block % 256).collect(),
        (Some(Fault::FirstVectorMarked), _) => blocks.take(1).collect(),
        (Some(Fault::LastVectorMarked), _) => blocks.skip(sent.len() - 1).collect(),
        (Some(Fault::NextVectorsMarked), Some((first, _))) => (*first..first + sent.len()).collect(),
        _ => blocks.collect(),
    }
}
