//! The rows of the row: how it ends, what its words say and what its own word does.

use std::collections::{BTreeMap, BTreeSet};

use super::shown::{all, shown, Row};
use crate::cases::{Case, Outcome, Slice};
use crate::gen::reports::{NOTES, OF_ROWS};
use crate::refuse::LEAST_BUFFER;
use crate::report::{differing, next, Next};
use crate::row::WORD;
use crate::serve::{call, parts};
use crate::slip::Slip;
use crate::table::{check, EDITION};

/// What a row comes to, request by request.
#[derive(Default)]
struct Seen {
    rows: BTreeSet<String>,
    read: usize,
    answered: usize,
    words: usize,
    /// The number of each word.
    numbers: Vec<u64>,
    /// How many requests altered a block, and how many marked vectors.
    altered: BTreeMap<usize, usize>,
    marking: usize,
    rewritten: usize,
    /// Whether the table is as it came.
    same: bool,
    /// By which number the row stopped, and how many bytes were left for answers and for words.
    stop: u64,
    left: (usize, usize),
}

pub fn rows(case: &Case, outcome: &Outcome) -> Vec<String> {
    let (number, flags, count) = outcome.parts();
    let seen = seen(case, number, count as usize);
    let room = match (seen.left.0 < LEAST_BUFFER, seen.left.1 < WORD) {
        (true, true) => ", without room for both",
        (true, false) => ", without room for an answer",
        (false, true) => ", without room for a word",
        (false, false) => "",
    };
    let empty = if case.held(Slice::Requests).is_empty() { ", an empty file" } else { "" };
    let mut rows = vec![
        format!("ends by {number}{room}{empty}"),
        format!("words: {}", size(count)),
        format!("altered and marked: {flags}"),
        format!("ends by {number}, altered and marked: {flags}"),
    ];
    let stated = case.stated();
    rows.push(match stated.has_known_peer() {
        true => format!("from RFC {}", stated.peer),
        false => "from an unknown peer".to_string(),
    });
    let table = case.held(Slice::Table);
    if check(&table, case.held(Slice::Profile).len()).is_ok() {
        rows.push(format!("over edition {}", table[EDITION]));
    }
    rows.extend(shown(&of_all(), &seen));
    rows.extend(seen.rows);
    rows
}

fn size(count: u64) -> &'static str {
    match count {
        0 => "0",
        1 => "1",
        2..=8 => "2 to 8",
        9..=16 => "9 to 16",
        17..=64 => "up to 64",
        65..=255 => "up to 255",
        _ => "256 and more",
    }
}

/// The first requests of a row, each called by itself.
fn seen(case: &Case, stop: u64, count: usize) -> Seen {
    let held = |slice| case.held(slice).into_owned();
    let (requests, profile, came) = (held(Slice::Requests), held(Slice::Profile), held(Slice::Table));
    let (mut table, mut vectors, mut buffer) = (came.clone(), held(Slice::Vectors), vec![0; LEAST_BUFFER]);
    let mut seen = Seen { stop, ..Seen::default() };
    while let (Next::Piece(piece), true) = (next(&requests, seen.read, Slip::NONE), seen.words < count) {
        let before = (table.clone(), vectors.clone());
        let done = call(piece, &mut table, &profile, &mut vectors, &mut buffer, case.stated(), Slip::NONE);
        let (number, place, length) = parts(done.word);
        seen.rows.insert(match number {
            0 => "a request: answered".to_string(),
            _ => format!("a request: refused {number}"),
        });
        if place != 0 {
            seen.rows.insert("a request: a word with a place".to_string());
        }
        seen.read += piece.len();
        seen.answered += if number == 0 { length as usize } else { 0 };
        seen.words += 1;
        seen.numbers.push(number);
        differing(&before.0, &table).for_each(|block| *seen.altered.entry(block).or_insert(0) += 1);
        seen.marking += (before.1 != vectors) as usize;
        seen.rewritten += done.rewritten;
    }
    seen.same = table == came;
    seen.left = (held(Slice::Answers).len() - seen.answered, held(Slice::Words).len() - WORD * seen.words);
    seen
}

impl Seen {
    /// Whether a refused request stands between two that are answered.
    fn has_refused_between(&self) -> bool {
        let answered = || self.numbers.iter().enumerate().filter(|(_, number)| **number == 0).map(|(n, _)| n);
        let between = answered().next().zip(answered().last());
        between.map_or(false, |(first, last)| self.numbers[first..last].iter().any(|number| *number != 0))
    }
}

fn of_all() -> [Row<Seen>; 11] {
    [
        ("altered and restored", 1, |it| !it.altered.is_empty() && it.same),
        ("rewritten to what it was alone", 1, |it| it.rewritten > 0 && it.altered.is_empty()),
        ("one record altered by several", 1, |it| it.altered.values().any(|times| *times > 1)),
        ("vectors marked by several", 1, |it| it.marking > 1),
        ("a refused one between answered ones", 1, |it| it.has_refused_between()),
        ("several, each refused 12", 1, |it| it.words > 1 && it.numbers.iter().all(|number| *number == 12)),
        ("a byte too short for an answer", 1, |it| it.left.0 + 1 == LEAST_BUFFER && it.stop == 15),
        ("a byte too short for a word", 1, |it| it.left.1 + 1 == WORD && it.stop == 15),
        ("bytes past the answers", 1, |it| it.stop == 0 && it.left.0 > 0),
        ("bytes past the words", 1, |it| it.stop == 0 && it.left.1 > 0),
        ("as many words as there is room for", 1, |it| it.stop == 0 && it.left.1 == 0 && it.words > 0),
    ]
}

/// The rows that there must be, and how much rarer than others they may be.
pub fn wanted() -> Vec<(String, u64)> {
    let mut wanted: Vec<(String, u64)> = Vec::new();
    for number in [0, 7] {
        for room in ["", ", without room for an answer", ", without room for a word", ", without room for both"] {
            wanted.push((format!("ends by {number}{room}"), 1));
        }
        wanted.extend([0, 1, 2, 3].map(|flags| (format!("ends by {number}, altered and marked: {flags}"), 2)));
    }
    for room in ["an answer", "a word", "both"] {
        wanted.push((format!("ends by 15, without room for {room}"), 1));
    }
    wanted.extend([0, 1, 2, 3].map(|flags| (format!("ends by 15, altered and marked: {flags}"), 2)));
    wanted.push(("ends by 0, an empty file".to_string(), 1));
    for words in ["0", "1", "2 to 8", "9 to 16", "up to 64", "256 and more"] {
        wanted.push((format!("words: {words}"), 1));
    }
    wanted.extend([0, 1, 2, 3].map(|flags| (format!("altered and marked: {flags}"), 1)));
    wanted.extend(["from RFC 3588", "from RFC 6733", "from an unknown peer"].map(|row| (row.to_string(), 1)));
    wanted.extend(["over edition 1", "over edition 2"].map(|row| (row.to_string(), 1)));
    wanted.extend(["a request: answered", "a request: a word with a place"].map(|row| (row.to_string(), 1)));
    wanted.extend([2, 3, 4, 5, 6, 12].map(|number| (format!("a request: refused {number}"), 1)));
    wanted.extend(all("", &of_all()));
    // Those of reports about their own areas and long files are not made here.
    let of_reports = NOTES.into_iter().filter(|note| !OF_REPORTS_ALONE.contains(note));
    wanted.extend(of_reports.chain(OF_ROWS).map(|note| (format!("made by: {note}"), 1)));
    wanted
}

const OF_REPORTS_ALONE: [&str; 3] = ["another buffer", "another report area", "some hundred records"];
