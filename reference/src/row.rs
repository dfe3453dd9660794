//! The row: requests laid end to end, each decided over what the one before left, its answer behind the one before and a word for each.

use crate::refuse::LEAST_BUFFER;
use crate::report::{differing, next, Next};
use crate::serve::{call, parts};
use crate::slip::{Fault, Slip};
use crate::stated::{Stated, RFC_3588, RFC_6733};
use crate::verdict::Why;
use crate::{table, vectors};

/// Of a request's word, in bytes.
pub const WORD: usize = 8;

/// What is lent to a row.
pub struct Lent<'a> {
    pub requests: &'a [u8],
    pub table: &'a mut [u8],
    pub profile: &'a [u8],
    pub vectors: &'a mut [u8],
    pub answers: &'a mut [u8],
    pub words: &'a mut [u8],
    /// Of all requests.
    pub stated: Stated,
}

/// What a row has come to.
#[derive(Default)]
struct So {
    /// Of the requests, in bytes.
    read: usize,
    /// Of the answers, in bytes.
    answered: usize,
    /// How many requests have a word, and how many of them an answer.
    words: u32,
    answers: u32,
    /// Whether some request altered a record, or marked a vector.
    altered: bool,
    marked: bool,
    /// Only for a faulty program: how many records the requests altered, all and the last one alone.
    records: usize,
    by_last: usize,
    /// And whether the last one marked a vector.
    marked_by_last: bool,
}

/// The files as they came; only for a faulty program.
struct Came {
    table: Vec<u8>,
    vectors: Vec<u8>,
}

/// The return word. What was done up to where a row stops stays done.
pub fn row(mut lent: Lent, slip: Slip) -> (u64, Why) {
    if let Some(number) = refused(&lent, slip) {
        return (number << 48, Why::Rowed);
    }
    let came = Came { table: lent.table.to_vec(), vectors: lent.vectors.to_vec() };
    let mut so = So::default();
    let number = loop {
        match stop(&lent, &so, slip) {
            Ok(piece) => match step(&mut lent, piece, &mut so, &came, slip) {
                0 => {}
                number => break number,
            },
            Err(number) => break number,
        }
    };
    at_end(&mut lent, &so, &came, number, slip);
    (own_word(&lent, &so, &came, number, slip), Why::Rowed)
}

/// The next request; or the number by which the row stops: the file's end, then where a report would stop, then room.
fn stop<'a>(lent: &Lent<'a>, so: &So, slip: Slip) -> Result<&'a [u8], u64> {
    let is_short = is_short(lent, so, slip);
    let short = if slip.is(Fault::RowShortIsEleven) { 11 } else { 15 };
    match next(lent.requests, so.read, slip) {
        Next::End if is_short && slip.is(Fault::RowShortBeforeEnd) => Err(short),
        Next::End if slip.is(Fault::RowEndIsBroken) => Err(7),
        Next::End => Err(0),
        Next::Broken if is_short && slip.is(Fault::RowShortBeforeBroken) => Err(short),
        Next::Broken if slip.is(Fault::RowBrokenIsEnd) => Err(0),
        Next::Broken => Err(7),
        Next::Piece(_) if is_short => Err(short),
        Next::Piece(piece) => Ok(piece),
    }
}

/// Whether there is no room for the longest answer, or for a word.
fn is_short(lent: &Lent, so: &So, slip: Slip) -> bool {
    let answers = lent.answers.len() - so.answered.min(lent.answers.len());
    let words = lent.words.len() - (WORD * so.words as usize).min(lent.words.len());
    let of_answers = match slip.0 {
        Some(Fault::RowAnswersNotAsked) => false,
        Some(Fault::RowLeastAnswersRefused) => answers <= LEAST_BUFFER,
        Some(Fault::RowAnswersByteShortTaken) => answers + 1 < LEAST_BUFFER,
        _ => answers < LEAST_BUFFER,
    };
    let of_words = match slip.0 {
        Some(Fault::RowWordsNotAsked) => false,
        Some(Fault::RowWordsByteShortTaken) => words + 1 < WORD,
        Some(Fault::RowLeastWordsRefused) => words <= WORD,
        _ => words < WORD || so.words == u32::MAX,
    };
    of_answers || of_words
}

/// Decides a request; 0, but a faulty program may stop there.
fn step(lent: &mut Lent, piece: &[u8], so: &mut So, came: &Came, slip: Slip) -> u64 {
    let (table, vectors) = (lent.table.to_vec(), lent.vectors.to_vec());
    match slip.0 {
        Some(Fault::RowTableNotCarried) => lent.table.copy_from_slice(&came.table),
        Some(Fault::RowVectorsNotCarried) => lent.vectors.copy_from_slice(&came.vectors),
        _ => {}
    }
    let from = if slip.is(Fault::RowAnswersOverwritten) { 0 } else { so.answered.min(lent.answers.len()) };
    let stated = stated(lent.stated, slip);
    let done = call(piece, lent.table, lent.profile, lent.vectors, &mut lent.answers[from..], stated, slip);
    let (number, _, length) = parts(done.word);
    so.by_last = match slip.0 {
        Some(Fault::RowAlteredByRewriting) => done.rewritten,
        _ => differing(&table, lent.table).count(),
    };
    so.records += so.by_last;
    so.altered |= so.by_last > 0;
    so.marked_by_last = vectors != *lent.vectors;
    so.marked |= so.marked_by_last;
    so.read += piece.len();
    so.answers += (number == 0) as u32;
    if number == 0 || !slip.is(Fault::RowRefusedUnworded) {
        put_word(lent, so.words, done.word, slip);
        so.words += 1;
    }
    so.answered += match (number, slip.0) {
        (0, Some(Fault::RowAnswersInSlots)) => LEAST_BUFFER,
        (0, _) => length as usize,
        (_, Some(Fault::RowRefusedTakesRoom)) => piece.len().min(20),
        _ => 0,
    };
    if slip.is(Fault::RowStopsAtRefusal) {
        number
    } else {
        0
    }
}

/// The word of a request, the highest byte first.
fn put_word(lent: &mut Lent, at: u32, word: u64, slip: Slip) {
    let (number, place, value) = parts(word);
    let word = match slip.0 {
        Some(Fault::RowWordsWithoutPlace) => number << 48 | value,
        Some(Fault::RowWordsWithoutNumber) => place << 32 | value,
        _ => word,
    };
    let bytes = match slip.0 {
        Some(Fault::RowWordsLittleEndian) => word.to_le_bytes().to_vec(),
        Some(Fault::RowWordsOf4Bytes) => (word as u32).to_be_bytes().to_vec(),
        _ => word.to_be_bytes().to_vec(),
    };
    let from = (bytes.len() * at as usize).min(lent.words.len());
    lent.words[from..].iter_mut().zip(bytes).for_each(|(byte, new)| *byte = new);
}

/// The number, what was altered, and how many requests have a word.
fn own_word(lent: &Lent, so: &So, came: &Came, number: u64, slip: Slip) -> u64 {
    let altered = match slip.0 {
        Some(Fault::RowAlteredNotTold) => false,
        Some(Fault::RowAlteredAtEnd) => came.table != *lent.table,
        Some(Fault::RowAlteredByLast) => so.by_last > 0,
        Some(Fault::RowMarkedIsAltered) => so.altered || so.marked,
        _ => so.altered,
    };
    let marked = match slip.0 {
        Some(Fault::RowMarkedNotTold) => false,
        Some(Fault::RowMarkedByLast) => so.marked_by_last,
        _ => so.marked,
    };
    let flags = match slip.0 {
        Some(Fault::RowFlagsTurned) => u64::from(altered) << 1 | u64::from(marked),
        Some(Fault::RowAlteredCounted) => so.records as u64 & 0xFFFF,
        Some(Fault::RowStopTellsNothing) if number != 0 => 0,
        _ => u64::from(marked) << 1 | u64::from(altered),
    };
    let value = match slip.0 {
        Some(Fault::RowTellsAnswered) => u64::from(so.answers),
        Some(Fault::RowTellsBytes) => so.answered as u64,
        Some(Fault::RowTellsStop) => so.read as u64,
        Some(Fault::RowTellsZero) => 0,
        Some(Fault::RowBrokenCounted) if number == 7 => u64::from(so.words) + 1,
        _ => u64::from(so.words),
    };
    number << 48 | flags << 32 | value
}

/// A refusal of the whole row that there is not.
fn refused(lent: &Lent, slip: Slip) -> Option<u64> {
    let count = || {
        let mut at = 0;
        std::iter::from_fn(|| match next(lent.requests, at, Slip::NONE) {
            Next::Piece(piece) => {
                at += piece.len();
                Some(())
            }
            _ => None,
        })
        .count()
    };
    match slip.0? {
        Fault::RowPeerRefusesAll if !lent.stated.has_known_peer() => Some(12),
        Fault::RowUnsoundTableRefusesAll => table::check(lent.table, lent.profile.len()).err().map(|_| 5),
        Fault::RowUnsoundVectorsRefuseAll => vectors::check(lent.vectors).err().map(|_| 6),
        Fault::RowNeedsRoomForAll if lent.answers.len() < LEAST_BUFFER * count() => Some(15),
        Fault::RowNeedsWordsForAll if lent.words.len() < WORD * count() => Some(15),
        _ => None,
    }
}

/// What a faulty row tells its calls.
fn stated(stated: Stated, slip: Slip) -> Stated {
    match slip.0 {
        Some(Fault::RowOfOlderPeers) if stated.has_known_peer() => Stated { peer: RFC_3588, ..stated },
        Some(Fault::RowOfNewerPeers) if stated.has_known_peer() => Stated { peer: RFC_6733, ..stated },
        Some(Fault::RowOfNoFeatures) => Stated { features: 0, ..stated },
        Some(Fault::RowOfAllFeatures) => Stated { features: u32::MAX, ..stated },
        _ => stated,
    }
}

/// What a faulty row does where it stops.
fn at_end(lent: &mut Lent, so: &So, came: &Came, number: u64, slip: Slip) {
    let (answered, worded) = (so.answered.min(lent.answers.len()), (WORD * so.words as usize).min(lent.words.len()));
    match slip.0 {
        Some(Fault::RowStopUndone) if number != 0 => {
            lent.table.copy_from_slice(&came.table);
            lent.vectors.copy_from_slice(&came.vectors);
        }
        Some(Fault::RowStopClearsWords) if number != 0 => lent.words[..worded].fill(0),
        Some(Fault::RestOfRowAnswersCleared) => lent.answers[answered..].fill(0),
        Some(Fault::RestOfRowWordsCleared) => lent.words[worded..].fill(0),
        _ => {}
    }
}
