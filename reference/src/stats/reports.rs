//! The rows of reports.

use std::collections::BTreeSet;

use super::moves;
use super::sets;
use super::takes;
use crate::block::word_at;
use crate::cases::{Case, Outcome, Slice};
use crate::gen::reports::NOTES;
use crate::read::SEVERAL;
use crate::report::{differing, name, next, row_name, word, Next, Numbers, LEAST_REPORT, REST};
use crate::serve::{call, parts};
use crate::slip::Slip;
use crate::table;
use crate::verdict::Why;

pub fn rows(case: &Case, outcome: &Outcome) -> Vec<String> {
    let requests = case.held(Slice::Requests);
    let area = case.after(outcome, Slice::Report).unwrap_or_default();
    let number = outcome.parts().0;
    if number == 15 {
        let nearly = if area.len() + 8 > LEAST_REPORT { ", nearly long enough" } else { "" };
        return vec![format!("refused 15{nearly}")];
    }
    let Numbers(words) = Numbers::of(&area);
    let read = words[word::READ];
    let mut rows = vec![
        format!("ends: {}", ending(&requests, number, words[word::STOPPED] as usize)),
        format!("read: {}", size(read)),
    ];
    let stated = case.stated();
    rows.push(match stated.has_known_peer() {
        true => format!("from RFC {}", stated.peer),
        false => "from an unknown peer".to_string(),
    });
    let counted = (word::ANSWERED + 1..word::ALL).filter(|at| words[*at] > 0);
    rows.extend(counted.map(|at| if at < word::CELLS { name(at) + " in it" } else { name(at) }));
    if area.len() > LEAST_REPORT {
        rows.push("a longer report area".to_string());
    }
    let table = case.held(Slice::Table);
    if table::check(&table, case.held(Slice::Profile).len()).is_ok() {
        rows.extend(moves::of_table(&table).into_iter().map(|row| format!("over {row}")));
        rows.extend(sets::of_table(&table).into_iter().map(|row| format!("over {row}")));
        rows.extend(takes::of_area(&table).into_iter().map(|row| format!("over {row}")));
    }
    if words[word::ANSWERED + 5] > 0 && sets::disagrees(&table, case.held(Slice::Profile).len()) {
        rows.push("refused 5 in it, a set disagrees".to_string());
    }
    if read < 1000 {
        rows.extend(of_requests(case));
    }
    rows
}

fn ending(requests: &[u8], number: u64, stopped: usize) -> &'static str {
    let left = &requests[stopped.min(requests.len())..];
    match (number, left.len()) {
        (0, _) if requests.is_empty() => "an empty file",
        (0, 0) => "used up",
        (7, 1..=3) => "1 to 3 bytes left",
        (7, 4..=19) => "4 to 19 bytes left",
        (7, 20..) if word_at(left, 0) & 0xFF_FFFF < 20 => "a length under 20",
        (7, 20..) => "a length past the end",
        _ => "otherwise",
    }
}

fn size(read: u64) -> &'static str {
    match read {
        0 => "0",
        1 => "1",
        2..=8 => "2 to 8",
        9..=255 => "9 to 255",
        256..=65_535 => "256 to 65,535",
        _ => "65,536 or more",
    }
}

/// What single requests of the file do.
fn of_requests(case: &Case) -> BTreeSet<String> {
    let held = |slice| case.held(slice).into_owned();
    let (requests, profile) = (held(Slice::Requests), held(Slice::Profile));
    let (mut table, mut vectors, mut buffer) = (held(Slice::Table), held(Slice::Vectors), held(Slice::Buffer));
    let (mut rows, mut ever, mut longest, mut at) = (BTreeSet::new(), BTreeSet::new(), 0, 0);
    while let Next::Piece(piece) = next(&requests, at, Slip::NONE) {
        at += piece.len();
        let before = (table.clone(), vectors.clone());
        let done = call(piece, &mut table, &profile, &mut vectors, &mut buffer, case.stated(), Slip::NONE);
        let altered: Vec<usize> = differing(&before.0, &table).collect();
        let (number, place, length) = parts(done.word);
        let again = altered.iter().filter(|block| !ever.insert(**block)).count() > 0;
        let shown = [
            ("a record altered", altered.len() == 1),
            ("records altered", altered.len() > 1),
            ("over 255 records altered", altered.len() > 255),
            ("records of a set altered", sets::shares_set(&table, &altered)),
            ("a record altered again", again),
            ("a record rewritten to what it was", done.rewritten > altered.len()),
            ("vectors marked and no record altered", before.1 != vectors && altered.is_empty()),
            ("vectors marked and a record altered", before.1 != vectors && !altered.is_empty()),
            ("an answer shorter than one before", number == 0 && length < longest),
            ("an answer with a place", place != 0),
            (SEVERAL, done.why == Why::Rule('h', SEVERAL)),
        ];
        rows.extend(shown.iter().filter(|(_, holds)| *holds).map(|(what, _)| format!("a request: {what}")));
        longest = longest.max(if number == 0 { length } else { 0 });
    }
    rows
}

/// The rows that there must be, and how much rarer than others they may be.
pub fn wanted() -> Vec<(String, u64)> {
    let mut wanted: Vec<(String, u64)> = Vec::new();
    for what in [
        "an empty file",
        "used up",
        "1 to 3 bytes left",
        "4 to 19 bytes left",
        "a length under 20",
        "a length past the end",
    ] {
        wanted.push((format!("ends: {what}"), 1));
    }
    for (read, times) in
        [("0", 1), ("1", 1), ("2 to 8", 1), ("9 to 255", 1), ("256 to 65,535", 1), ("65,536 or more", 20)]
    {
        wanted.push((format!("read: {read}"), times));
    }
    wanted.extend(["refused 15", "refused 15, nearly long enough", "a longer report area"].map(|row| (row.into(), 1)));
    wanted.extend((1..=6).chain([12]).map(|number| (format!("refused {number} in it"), 1)));
    wanted.extend(["from RFC 3588", "from RFC 6733", "from an unknown peer"].map(|row| (row.into(), 1)));
    let everywhere = "B3007 B3008 B3009 B5001 B5004 B5005 B5009 B5011 B5014 X5011";
    for (row, results) in [
        "B2001 B5003 X2001 X2002 X5001 X5002 X5003 X5004",
        "B2001 B5012 X2004 X5001 X5002 X5005 X5007",
        "B2001 X2003 X5001 X5003",
        "B2001 B5012 X5001 X5002 X5006",
        "",
    ]
    .into_iter()
    .enumerate()
    {
        let general = if row == REST { "B3001 B3008 B5011" } else { everywhere };
        let results = results.split_whitespace().chain(general.split_whitespace());
        wanted.extend(results.map(|result| (format!("{}: {result}", row_name(row)), 1)));
    }
    for what in [
        "a record altered",
        "records altered",
        "over 255 records altered",
        "records of a set altered",
        "a record altered again",
        "a record rewritten to what it was",
        "vectors marked and no record altered",
        "vectors marked and a record altered",
        "an answer shorter than one before",
        "an answer with a place",
        SEVERAL,
    ] {
        wanted.push((format!("a request: {what}"), 1));
    }
    wanted.extend(moves::editions().into_iter().map(|row| (format!("over {row}"), 1)));
    wanted.extend(takes::areas().map(|row| (format!("over {row}"), 1)));
    wanted.extend(sets::of_tables_wanted().into_iter().map(|(row, times)| (format!("over {row}"), times)));
    wanted.push(("refused 5 in it, a set disagrees".to_string(), 1));
    wanted.extend(NOTES.map(|note| (format!("made by: {note}"), 1)));
    wanted.push(("made by: a request of 16 MiB".to_string(), 20));
    wanted
}
