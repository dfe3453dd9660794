//! The rows of moves, and of the editions of tables.

use super::sets;
use super::sizes::{size, sizes_wanted};
use crate::block::{word_at, BLOCK};
use crate::cases::{Case, Entry, Outcome, Slice};
use crate::gen::moves::NOTES;
use crate::report::differing;
use crate::table::{self, Header, Table, ISSUE};

pub fn rows(case: &Case, outcome: &Outcome) -> Vec<String> {
    let which = if case.entry == Entry::Forward { "forward" } else { "back" };
    let table = case.held(Slice::Table);
    let (number, _, value) = outcome.parts();
    let mut rows = match (number, value) {
        (0, count) => vec![format!("{which}: {} records", size(count as usize))],
        (8, 1) => vec![format!("{which}: refused 8, block 1")],
        (8, _) => vec![format!("{which}: refused 8, a later block")],
        (_, 0) if table::check_exactly(&table, case.held(Slice::Profile).len()).is_ok() => {
            vec![format!("{which}: refused 5, the other edition")]
        }
        (_, block) => vec![format!("{which}: refused 5, {}", if block == 0 { "block 0" } else { "a record" })],
    };
    if number == 0 && case.entry == Entry::Forward {
        rows.push(format!("forward: {}", issue(case.numbers[0])));
    }
    if number == 0 && case.entry == Entry::Back {
        rows.push(format!("back: {}", issue(word_at(&table, ISSUE))));
    }
    if number == 8 {
        rows.push(format!("back: refused 8, {}", set(Table(&table).record(value as usize).set())));
        let sets = Table(&table).records().filter(|(_, record)| record.set() != 0).count();
        rows.extend((sets > 1).then(|| "back: refused 8, several".to_string()));
    }
    if number == 5 && sets::disagrees(&table, case.held(Slice::Profile).len()) {
        rows.push(format!("{which}: refused 5, a set disagrees"));
    }
    let at_front = || table::check(&table, case.held(Slice::Profile).len());
    if number == 5 && at_front().map_or(false, |count| table.len() > BLOCK * (count as usize + 1)) {
        rows.push(format!("{which}: refused 5, a longer table"));
    }
    if number == 5 && has_sets(&table) {
        rows.push(format!("{which}: refused 5, though a set is there"));
    }
    rows
}

/// By its bytes alone, whatever its edition.
fn has_sets(table: &[u8]) -> bool {
    table.chunks_exact(BLOCK).skip(1).any(|block| table::Record(block).set() != 0)
}

fn issue(issue: u32) -> String {
    match issue {
        0 | 1 => format!("issue {issue}"),
        u32::MAX => "issue 2^32 - 1".to_string(),
        2..=0xFFFF => "another issue of 16 bits".to_string(),
        _ => "another issue of 32 bits".to_string(),
    }
}

fn set(set: u16) -> &'static str {
    match set {
        0 => "no set",
        1 => "set 1",
        u16::MAX => "set 65,535",
        _ if set & 0xFF == 0 => "a set whose last byte is 0",
        _ => "another set",
    }
}

/// What a sound table is by its edition.
pub fn of_table(table: &[u8]) -> Vec<String> {
    let number = match Header(&table[..BLOCK]).issue() {
        None => return vec!["edition 1".to_string()],
        Some(number) => number,
    };
    let mut rows = vec![format!("edition 2, {}", issue(number))];
    let mut sets: Vec<&str> = Table(table).records().map(|(_, record)| set(record.set())).collect();
    sets.sort_unstable();
    sets.dedup();
    rows.extend(sets.iter().map(|set| format!("edition 2, {set}")));
    rows
}

/// What was rewritten: a record of edition 1, or one of edition 2 with a set or without.
pub fn rewritten(case: &Case, outcome: &Outcome) -> &'static str {
    let (before, after) = (case.held(Slice::Table), case.after(outcome, Slice::Table).unwrap_or_default());
    let mut altered = differing(&before, &after).map(|block| Table(&before).record(block).set());
    match Header(&before[..BLOCK]).issue() {
        None => "of edition 1 rewritten",
        Some(_) if altered.any(|set| set != 0) => "of a set rewritten",
        Some(_) => "of edition 2 and no set rewritten",
    }
}

/// The rows of tables by their edition, where each must come up.
pub fn editions() -> Vec<String> {
    let mut wanted = vec!["edition 1".to_string()];
    for what in ISSUES.into_iter().chain(["no set"]).chain(SETS) {
        wanted.push(format!("edition 2, {what}"));
    }
    wanted
}

const ISSUES: [&str; 5] =
    ["issue 0", "issue 1", "issue 2^32 - 1", "another issue of 16 bits", "another issue of 32 bits"];
const SETS: [&str; 4] = ["set 1", "set 65,535", "a set whose last byte is 0", "another set"];

/// The rows that there must be, and how much rarer than others they may be.
pub fn wanted() -> Vec<(String, u64)> {
    let mut wanted: Vec<(String, u64)> = Vec::new();
    for which in ["forward", "back"] {
        wanted.extend(sizes_wanted(which));
        wanted.extend(ISSUES.map(|issue| (format!("{which}: {issue}"), 1)));
        for what in
            ["the other edition", "block 0", "a record", "though a set is there", "a set disagrees", "a longer table"]
        {
            wanted.push((format!("{which}: refused 5, {what}"), 1));
        }
    }
    for what in ["block 1", "a later block", "several"].into_iter().chain(SETS) {
        wanted.push((format!("back: refused 8, {what}"), 1));
    }
    wanted.extend(NOTES.map(|note| (format!("made by: {note}"), 1)));
    wanted
}
