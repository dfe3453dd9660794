//! Cases of the row: files of requests as reports have them, with room for all answers and words, or just not.

use super::month::{Files, Month};
use super::pieces;
use crate::cases::Case;
use crate::gen::made::Made;
use crate::gen::peers;
use crate::refuse::LEAST_BUFFER;
use crate::rng::Rng;
use crate::row::WORD;

/// What a case may be noted as, beside what stands in its file.
pub const NOTES: [&str; 9] =
    [HEADERS, ONE_RECORD, CHALLENGES, REFUSALS, CUT, ROOM, LESS_FOR_ANSWERS, LESS_FOR_WORDS, UNKNOWN_PEER];
const HEADERS: &str = "some hundred headers";
const ONE_RECORD: &str = "one record altered again and again";
const CHALLENGES: &str = "MARs one behind the other";
const REFUSALS: &str = "refused requests among others";
const CUT: &str = "cut anywhere";
const ROOM: &str = "room for all";
const LESS_FOR_ANSWERS: &str = "less room for answers";
const LESS_FOR_WORDS: &str = "less room for words";
const UNKNOWN_PEER: &str = "an unknown peer";

/// Of the requests in a row, but for headers alone.
const MOST: usize = 64;

pub fn case(rng: &mut Rng) -> Made {
    let mut notes = vec![];
    let mut month = match rng.below(150) {
        0 => {
            notes.push(HEADERS);
            headers(rng)
        }
        1..=12 => {
            notes.push(ONE_RECORD);
            one_record(rng)
        }
        13..=20 => {
            notes.push(CHALLENGES);
            several(rng, pieces::challenge)
        }
        21..=28 => {
            notes.push(REFUSALS);
            several(rng, pieces::refused_or_right)
        }
        _ => pieces::month(rng, MOST, &mut notes),
    };
    let (answers, words) = areas(rng, &month, &mut notes);
    if rng.once_in(16) {
        notes.push(CUT);
        let length = rng.below(month.requests.len() + 1);
        month.requests.truncate(length);
    }
    if rng.once_in(16) {
        notes.push(UNKNOWN_PEER);
        month.stated.peer = peers::unknown(rng).peer;
    }
    month.came.spoil(rng, &mut notes);
    let Files { table, profile, vectors } = month.came;
    let case = Case::row(rng.byte(), month.requests, [table, profile, vectors], answers, words, month.stated);
    Made { case, notes, damaged: None }
}

/// Over a table of one record, and no vectors.
fn headers(rng: &mut Rng) -> Month {
    let mut month = Month::new(rng, 1);
    month.requests = pieces::headers(rng, 256);
    month.came.vectors.clear();
    month
}

/// What one request alters the next one restores, with another before, between or behind them now and then.
fn one_record(rng: &mut Rng) -> Month {
    let records = rng.between(1, 4);
    let mut month = Month::new(rng, records);
    let count = if rng.coin() { 2 } else { rng.between(3, 9) };
    for piece in pieces::of_one_record(rng, &month, count) {
        if rng.once_in(6) {
            let other = pieces::right(rng, &month);
            month.add(other);
        }
        month.add(piece);
    }
    month
}

/// Few requests of one kind, each for the table as the ones before left it.
fn several(rng: &mut Rng, make: fn(&mut Rng, &Month) -> Vec<u8>) -> Month {
    let records = rng.between(1, 4);
    let mut month = Month::new(rng, records);
    for _ in 0..rng.between(2, 9) {
        let piece = make(rng, &month);
        month.add(piece);
    }
    month
}

/// How many bytes for answers and for words: about as many as are needed for all, or up to one of the requests.
fn areas(rng: &mut Rng, month: &Month, notes: &mut Vec<&'static str>) -> (usize, usize) {
    let many = month.answers.len();
    let headers = month.requests.len() / 20;
    let requests = if many == 0 { headers } else { many };
    // Behind this many answers, few or all of them, the room is to end.
    let at = rng.below(many + 1);
    let up_to = |count: usize| month.answers[..count].iter().sum::<usize>() + LEAST_BUFFER;
    let mut answers = match many {
        0 => LEAST_BUFFER + 120 * headers.min(1000),
        _ => up_to(many - 1) + rng.below(2) * rng.below(200),
    };
    let mut words = WORD * requests + rng.below(2) * rng.below(20);
    match rng.below(6) {
        0 | 1 => {
            notes.push(LESS_FOR_ANSWERS);
            answers = match rng.below(8) {
                0 => *rng.pick(&[0, 20, LEAST_BUFFER / 2, LEAST_BUFFER - 1]),
                1..=5 => up_to(at) - rng.between(1, 2),
                _ => up_to(at),
            };
        }
        2 => {
            notes.push(LESS_FOR_WORDS);
            words = match rng.below(4) {
                0 => rng.below(WORD),
                1 => (WORD * requests).saturating_sub(1),
                _ => WORD * rng.below(requests + 1) + rng.below(WORD),
            };
        }
        3 => {
            notes.extend([LESS_FOR_ANSWERS, LESS_FOR_WORDS]);
            answers = up_to(at) - rng.below(2);
            words = WORD * at + rng.below(WORD);
        }
        _ => notes.push(ROOM),
    }
    (answers, words)
}
