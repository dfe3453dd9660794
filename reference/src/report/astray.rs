//! Deliberate faults of a whole report: what it refuses, what it carries along, and what it leaves.

use super::lent::{Files, Lent, LEAST_REPORT};
use super::numbers::{word, Numbers, COLUMNS, ROWS};
use super::pieces::{next, Next};
use crate::kinds::Kind;
use crate::message::Message;
use crate::refuse::LEAST_BUFFER;
use crate::serve::{call, Done};
use crate::slip::{Fault, Slip};
use crate::stated::{Stated, RFC_3588, RFC_6733};
use crate::verdict::Why;
use crate::{table, vectors};

/// What was lent, as it came; only for a faulty program.
pub struct Came {
    files: Files,
    buffer: Vec<u8>,
}

impl Came {
    pub fn of(lent: &Lent) -> Came {
        Came { files: Files::of(lent), buffer: lent.buffer.to_vec() }
    }
}

/// The word for a report area that is too short: 15, and nothing run.
pub fn too_short(lent: &mut Lent, slip: Slip) -> u64 {
    let mut at = 0;
    match slip.0 {
        Some(Fault::ShortReportIsOne) => return 1 << 48,
        Some(Fault::ShortReportBehindPeer) if !lent.stated.has_known_peer() => return 12 << 48,
        Some(Fault::ShortReportTold) => return 15 << 48 | LEAST_REPORT as u64,
        Some(Fault::ShortReportWritten) => lent.report.fill(0),
        Some(Fault::ShortReportRuns) | Some(Fault::ShortReportBehindSeven) => {}
        _ => return 15 << 48,
    }
    while let Next::Piece(piece) = next(lent.requests, at, slip) {
        if slip.is(Fault::ShortReportRuns) {
            call(piece, lent.table, lent.profile, lent.vectors, lent.buffer, lent.stated, slip);
        }
        at += piece.len();
    }
    if slip.is(Fault::ShortReportBehindSeven) && at < lent.requests.len() {
        7 << 48
    } else {
        15 << 48
    }
}

/// A refusal of the whole report that there is not.
pub fn refusal(lent: &Lent, slip: Slip) -> Option<u64> {
    match slip.0? {
        Fault::ShortBufferRefusesReport if lent.buffer.len() < LEAST_BUFFER => Some(1 << 48),
        Fault::UnsoundTableRefusesReport => {
            table::check(lent.table, lent.profile.len()).err().map(|block| 5 << 48 | u64::from(block))
        }
        Fault::UnknownPeerRefusesReport if !lent.stated.has_known_peer() => Some(12 << 48),
        Fault::UnsoundVectorsRefuseReport => vectors::check(lent.vectors).err().map(|_| 6 << 48),
        _ => None,
    }
}

/// A refusal of a request before all others.
pub fn refused(lent: &Lent, slip: Slip) -> Option<Done> {
    let (number, block) = match slip.0? {
        Fault::ReportChecksTableFirst => (5, table::check(lent.table, lent.profile.len()).err()?),
        Fault::Edition2NotReported => {
            let sound = table::check(lent.table, lent.profile.len()).is_ok();
            (5, (sound && lent.table[table::EDITION] == table::EDITION_2).then_some(0)?)
        }
        Fault::ReportChecksVectorsFirst => (6, vectors::check(lent.vectors).err().map(|_| 0)?),
        _ => return None,
    };
    let word = u64::from(number) << 48 | u64::from(block);
    Some(Done { word, result: None, rewritten: 0, why: Why::Refused(number) })
}

/// What a faulty report tells its calls.
pub fn stated(stated: Stated, slip: Slip) -> Stated {
    match slip.0 {
        Some(Fault::PeerNotAskedInReports) if !stated.has_known_peer() => Stated { peer: RFC_3588, ..stated },
        Some(Fault::ReportOfOlderPeers) if stated.is_newer() => Stated { peer: RFC_3588, ..stated },
        Some(Fault::ReportOfNewerPeers) if stated.has_known_peer() => Stated { peer: RFC_6733, ..stated },
        Some(Fault::ReportOfNoFeatures) => Stated { features: 0, ..stated },
        Some(Fault::ReportOfAllFeatures) => Stated { features: u32::MAX, ..stated },
        _ => stated,
    }
}

/// What a faulty program does before each request.
pub fn before_request(lent: &mut Lent, came: &Came, slip: Slip) {
    match slip.0 {
        Some(Fault::TableNotCarried) => lent.table.copy_from_slice(&came.files.table),
        Some(Fault::VectorsNotCarried) => lent.vectors.copy_from_slice(&came.files.vectors),
        Some(Fault::AnswerBufferCleared) => lent.buffer.fill(0),
        _ => {}
    }
}

/// What a faulty program does at the end; and the word's value.
pub fn at_end(lent: &mut Lent, came: &Came, numbers: &mut Numbers, broken: bool, slip: Slip) -> u64 {
    let fault = match slip.0 {
        Some(fault) => fault,
        None => return 0,
    };
    let words = &mut numbers.0;
    match fault {
        Fault::BrokenPieceCounted if broken => words[word::READ] += 1,
        Fault::SevenCounted if broken => words[word::ANSWERED + 7] += 1,
        Fault::StopNotToldAtEnd if !broken => words[word::STOPPED] = 0,
        Fault::StopIsNumber => words[word::STOPPED] = words[word::READ],
        Fault::StopIsFileLength => words[word::STOPPED] = lent.requests.len() as u64,
        Fault::StopIsLastBegin if broken => words[word::STOPPED] = last_begin(lent.requests) as u64,
        Fault::BrokenReportEmpty if broken => {
            (0..word::ALL).filter(|at| *at != word::STOPPED).for_each(|at| words[at] = 0)
        }
        Fault::ReportLeavesTable => lent.table.copy_from_slice(&came.files.table),
        Fault::ReportLeavesVectors => lent.vectors.copy_from_slice(&came.files.vectors),
        Fault::ReportLeavesBuffer => lent.buffer.copy_from_slice(&came.buffer),
        Fault::BrokenUndone if broken => {
            lent.table.copy_from_slice(&came.files.table);
            lent.vectors.copy_from_slice(&came.files.vectors);
        }
        Fault::BrokenBufferUndone if broken => lent.buffer.copy_from_slice(&came.buffer),
        Fault::RequestsInValue => return words[word::READ],
        Fault::PlaceOfStopInValue if broken => return words[word::STOPPED],
        _ => {}
    }
    0
}

/// Where the last request read begins.
fn last_begin(requests: &[u8]) -> usize {
    let (mut last, mut at) = (0, 0);
    while let Next::Piece(piece) = next(requests, at, Slip::NONE) {
        (last, at) = (at, at + piece.len());
    }
    last
}

/// The words as they are written.
pub fn laid_out(numbers: &Numbers, slip: Slip) -> [u64; word::ALL] {
    let mut words = numbers.0;
    match slip.0 {
        Some(Fault::CountsIn8Bits) => counts(&mut words).for_each(|count| *count &= 0xFF),
        Some(Fault::CountsIn16Bits) => counts(&mut words).for_each(|count| *count &= 0xFFFF),
        Some(Fault::StoppedIn16Bits) => words[word::STOPPED] &= 0xFFFF,
        Some(Fault::AnsweredIsRead) => words[word::ANSWERED] = words[word::READ],
        Some(Fault::RefusalsOneOn) => words[word::ANSWERED + 1..word::CELLS].rotate_right(1),
        Some(Fault::RestFirst) => words[word::CELLS..].rotate_right(COLUMNS.len()),
        Some(Fault::ColumnsBeforeRows) => {
            let cells = &numbers.0[word::CELLS..];
            let turned = (0..cells.len()).map(|at| cells[COLUMNS.len() * (at % ROWS) + at / ROWS]);
            words[word::CELLS..].iter_mut().zip(turned).for_each(|(word, cell)| *word = cell);
        }
        _ => {}
    }
    words
}

fn counts(words: &mut [u64; word::ALL]) -> impl Iterator<Item = &mut u64> {
    let no_counts = [word::STOPPED, word::LARGEST];
    words.iter_mut().enumerate().filter(move |(at, _)| !no_counts.contains(at)).map(|(_, count)| count)
}

/// How many identities a request names.
pub fn identities(request: &[u8]) -> usize {
    let avps = Message(request).avps().sound(Slip::NONE);
    avps.iter().filter(|avp| Kind::of(avp.vendor, avp.code) == Some(Kind::PublicIdentity)).count()
}
