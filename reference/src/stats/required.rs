//! The rows that a histogram must have.

use super::authentication;
use super::features;
use super::lists;
use super::moves;
use super::peers;
use super::places;
use super::reports;
use super::rows;
use super::sets;
use super::sizes::MOST_PLACES;
use super::takes;
use super::voicemail;
use crate::gen::damage::damages;
use crate::gen::twists::twists;
use crate::gen::vectors::damage::{DAMAGES, OVER_THE_MOST};
use crate::gen::{Stream, CUTS, MANY, MIXED, OF_FEATURES, OF_PEERS, OF_SETS};
use crate::kinds::{needed, Command, Dialect, Kind};
use crate::read::SEVERAL;

/// A row has at least one case in so many, but for chance; where a stream is short, at least one.
const ONE_IN: u64 = 1000;

/// How each row begins, and in how many cases there is to be one.
pub fn of_stream(stream: Stream) -> Vec<(String, u64)> {
    match stream {
        Stream::Tables => of_tables(),
        Stream::Vectors => of_vectors(),
        Stream::Calls | Stream::Plain => of_calls(),
        Stream::Reports => reports::wanted().into_iter().map(|(row, times)| (row, times * ONE_IN)).collect(),
        Stream::Moves => moves::wanted().into_iter().map(|(row, times)| (row, times * ONE_IN)).collect(),
        Stream::Takes => takes::wanted().into_iter().map(|(row, times)| (row, times * ONE_IN)).collect(),
        Stream::Lists => lists::wanted().into_iter().map(|(row, times)| (row, times * ONE_IN)).collect(),
        Stream::Voicemail => of_voicemail(),
        Stream::Rows => rows::wanted().into_iter().map(|(row, times)| (row, times * ONE_IN)).collect(),
    }
}

fn of_tables() -> Vec<(String, u64)> {
    let mut wanted = Vec::new();
    for size in ["0", "1", "2", "3 to 12"] {
        wanted.push((format!("sound table of {size} records"), ONE_IN));
    }
    for (size, times) in [("13 to 255", 20), ("256 to 4,095", 20), ("4,096", 50)] {
        wanted.push((format!("sound table of {size} records"), times * ONE_IN));
    }
    wanted.push(("sound table, profile over 65,536 bytes".to_string(), 2 * ONE_IN));
    wanted.extend(moves::editions().into_iter().map(|row| (format!("sound table, {row}"), ONE_IN)));
    wanted.extend(
        sets::of_tables_wanted().into_iter().map(|(row, times)| (format!("sound table, {row}"), times * ONE_IN)),
    );
    wanted.extend(takes::areas().map(|row| (format!("sound table, {row}"), ONE_IN)));
    wanted.push(("sound table, more than 4,097 blocks".to_string(), 10 * ONE_IN));
    for cut in CUTS {
        wanted.extend(["sound", "the damaged block"].map(|outcome| (format!("{cut} -> {outcome}"), ONE_IN)));
    }
    for (damage, outcome) in DAMAGED_SETS {
        wanted.push((format!("set: {damage} -> {outcome}"), ONE_IN));
    }
    for outcome in ["sound", "block 0", "the damaged block", "the block after the damaged one"] {
        wanted.push((format!("all -> {outcome}"), ONE_IN));
    }
    for damage in damages() {
        let one_in = if damage.name.contains("over 4,096 records") { 10 * ONE_IN } else { ONE_IN };
        wanted.push((damage.name.to_string(), one_in));
    }
    wanted
}

/// What comes of sets that disagree, and of such as only seem to.
const DAMAGED_SETS: [(&str, &str); 10] = [
    ("another state", "the damaged block"),
    ("pending turned", "the damaged block"),
    ("another server name", "the damaged block"),
    ("another server name of another length", "the damaged block"),
    ("a server name with a zero behind it", "the damaged block"),
    ("one without registration", "the damaged block"),
    ("all that may differ", "sound"),
    ("none, of one subscription", "sound"),
    ("one number in two subscriptions", "sound"),
    ("numbers that share a byte", "sound"),
];

fn of_vectors() -> Vec<(String, u64)> {
    let mut wanted = Vec::new();
    for size in ["0", "1", "2", "3 to 12"] {
        wanted.push((format!("sound file of {size} vectors"), ONE_IN));
    }
    for (size, times) in [("13 to 255", 50), ("256 to 4,095", 20), ("4,096", 50)] {
        wanted.push((format!("sound file of {size} vectors"), times * ONE_IN));
    }
    for outcome in ["sound", "block 0", "the damaged block"] {
        wanted.push((format!("all -> {outcome}"), ONE_IN));
    }
    for damage in DAMAGES {
        let one_in = if OVER_THE_MOST.contains(&damage.name) { 10 * ONE_IN } else { ONE_IN };
        wanted.push((damage.name.to_string(), one_in));
    }
    wanted
}

/// The rows of calls of either interface.
fn of_either(dialect: Dialect) -> Vec<(String, u64)> {
    let mut wanted: Vec<String> = (1..=5).map(|number| format!("refused {number}")).collect();
    wanted.extend(
        ["unknown peer: refused 12", "made by: an unknown peer", "made by: several refusals"].map(String::from),
    );
    wanted.push(format!("rule (h): {SEVERAL}"));
    wanted.push("refused 5, a set disagrees".to_string());
    wanted.push("refused 5, a cut take-over".to_string());
    wanted.extend(takes::areas().map(|row| format!("decided over {row}")));
    wanted.extend([5011, 3008, 3001, 3007].map(|code| format!("header: B{code}")));
    rules(&mut wanted, dialect);
    missing(&mut wanted, dialect);
    wanted.extend(places::wanted(dialect));
    wanted.extend(moves::editions().into_iter().map(|row| format!("decided over {row}")));
    wanted.push("request: 16,384 bytes".to_string());
    for what in [
        "no Session-Id",
        "1 Proxy-Info",
        "2 or more Proxy-Info",
        "Failed-AVP",
        "Failed-AVP without data",
        "Failed-AVP with a Proxy-Info",
        "over 16,384 bytes",
        "over 32,000 bytes",
    ] {
        wanted.push(format!("answer: {what}"));
    }
    wanted.extend(twists(dialect).map(|twist| twist.name).chain(OF_PEERS).map(|name| format!("made by: {name}")));
    let mut rows: Vec<(String, u64)> = wanted.into_iter().map(|row| (row, ONE_IN)).collect();
    rows.extend(peers::wanted().into_iter().map(|(row, times)| (row, times * ONE_IN)));
    for size in ["13 to 255", "256 to 4,095", "4,096"] {
        rows.push((format!("decided over {size} records"), 5 * ONE_IN));
    }
    rows
}

fn of_calls() -> Vec<(String, u64)> {
    let mut wanted = vec!["refused 6".to_string()];
    results(&mut wanted);
    authorizations_and_locations(&mut wanted);
    assignments(&mut wanted);
    answers(&mut wanted);
    wanted.push("request: over 65,536 bytes".to_string());
    let made = MIXED.into_iter().chain(OF_SETS).chain(OF_FEATURES).chain(MANY);
    wanted.extend(made.map(|name| format!("made by: {name}")));
    wanted.extend(["UAR", "SAR", "LIR", "MAR"].map(|command| format!("refused 6 to a {command}")));
    let mut rows = of_either(Dialect::Cx);
    rows.extend(wanted.into_iter().map(|row| (row, ONE_IN)));
    rows.push(("refused 6 to a header fault".to_string(), 10 * ONE_IN));
    rows.extend(MOST_PLACES.map(|(_, row)| (row.to_string(), 5 * ONE_IN)));
    rows.extend(features::wanted().into_iter().map(|(row, times)| (row, times * ONE_IN)));
    rows.extend(authentication::wanted().into_iter().map(|(row, times)| (row, times * ONE_IN)));
    rows.extend(sets::of_decisions_wanted().into_iter().map(|(row, times)| (row, times * ONE_IN)));
    rows.extend(
        sets::of_tables_wanted().into_iter().map(|(row, times)| (format!("decided over {row}"), times * ONE_IN)),
    );
    for (size, times) in [("1", 2), ("2", 2), ("3 to 12", 1), ("13 to 255", 1), ("256 to 4,095", 10), ("4,096", 50)] {
        rows.push((format!("sent of {size} vectors"), times * ONE_IN));
    }
    rows
}

fn of_voicemail() -> Vec<(String, u64)> {
    let mut rows = of_either(Dialect::Sh);
    rows.push(("made by: a UDR".to_string(), ONE_IN));
    rows.push(("request: over 65,536 bytes".to_string(), 2 * ONE_IN));
    rows.extend(voicemail::wanted().into_iter().map(|(row, times)| (row, times * ONE_IN)));
    rows
}

fn rules(wanted: &mut Vec<String>, dialect: Dialect) {
    for what in ["with V", "without V", "header cut off"] {
        wanted.push(format!("rule (a): {what}"));
    }
    for rule in ['b', 'c', 'd'] {
        wanted.push(format!("rule ({rule})"));
    }
    for kind in dialect.kinds() {
        let once_in = |command: &Command| kind.is_named_in(*command) && !kind.may_repeat_in(*command);
        if dialect.commands().iter().any(once_in) {
            wanted.push(format!("rule (f): {}", kind.name()));
        }
        if kind.is_four_bytes() {
            wanted.push(format!("rule (g): {}", kind.name()));
            // The number asked and the reference are not judged.
            if !matches!(kind, Kind::SipNumberAuthItems | Kind::DataReference) {
                wanted.push(format!("rule (h): {}", kind.name()));
            }
        }
    }
    let judged = match dialect {
        Dialect::Cx => &[Kind::ServerName, Kind::SipAuthDataItem, Kind::SupportedFeatures][..],
        Dialect::Sh => &[Kind::UserIdentity],
    };
    for kind in judged.iter().chain(&[Kind::VendorSpecificApplicationId]) {
        wanted.push(format!("rule (h): {}", kind.name()));
    }
}

fn missing(wanted: &mut Vec<String>, dialect: Dialect) {
    for command in dialect.commands() {
        // A missing Session-Id is rule (b), unless there are no AVPs.
        for kind in needed(*command).into_iter().skip(1) {
            wanted.push(format!("missing: {}", kind.name()));
        }
    }
}

fn results(wanted: &mut Vec<String>) {
    for code in [2001, 3001, 3007, 3008, 3009, 5001, 5003, 5004, 5005, 5009, 5011, 5012, 5014] {
        wanted.push(format!("result: B{code}"));
    }
    for code in [2001, 2002, 2003, 2004, 5001, 5002, 5003, 5004, 5005, 5006, 5007, 5011] {
        wanted.push(format!("result: X{code}"));
    }
}

fn authorizations_and_locations(wanted: &mut Vec<String>) {
    for (asked_type, state, result) in [
        (0, 0, "X2001"),
        (0, 0, "X2002"),
        (0, 1, "X2002"),
        (0, 2, "X2002"),
        (0, 1, "X5004"),
        (1, 0, "X5003"),
        (1, 1, "B2001"),
        (1, 2, "B2001"),
        (2, 0, "B2001"),
        (2, 1, "B2001"),
        (2, 2, "B2001"),
        (2, 1, "X5004"),
    ] {
        wanted.push(format!("UAR: type {asked_type}, state {state}: {result}"));
    }
    for (state, result) in [(0, "X5003"), (0, "B2001"), (0, "X2003"), (1, "B2001"), (2, "B2001")] {
        wanted.push(format!("LIR: state {state}: {result}"));
    }
}

fn assignments(wanted: &mut Vec<String>) {
    for asked_type in 0..=11 {
        for state in 0..=2 {
            for keep in 0..=1 {
                let result = match (asked_type, state) {
                    (2, 0 | 2) | (3, 1) | (4..=8 | 11, 0) => "X5007",
                    (6 | 7, _) if keep == 0 => "X2004",
                    (0, 0) => "B5012",
                    _ => "B2001",
                };
                wanted.push(format!("SAR: type {asked_type:2}, state {state}, keep {keep}: {result}"));
            }
        }
        wanted.push(format!("SAR: type {asked_type:2}, no record, keep"));
    }
    for result in ["B2001", "X2004", "X5002", "X5005", "X5007"] {
        wanted.push(format!("SAR of many: {result}"));
    }
}

fn answers(wanted: &mut Vec<String>) {
    for what in [
        "Server-Capabilities",
        "User-Name",
        "Server-Name",
        "User-Data",
        "User-Data of 4,096",
        "User-Data from past 65,536",
        "an item",
        "the own list",
        "records rewritten",
        "of edition 1 rewritten",
        "of edition 2 and no set rewritten",
        "of a set rewritten",
        "vectors marked",
    ] {
        wanted.push(format!("answer: {what}"));
    }
}
