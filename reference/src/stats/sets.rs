//! The rows of sets: what sets a table has, and what a request has to do with them.

use std::collections::{BTreeMap, BTreeSet};

use crate::cases::{Case, Outcome, Slice};
use crate::kinds::{Command, Kind};
use crate::message::Message;
use crate::report::differing;
use crate::slip::{Fault, Slip};
use crate::table::{check, check_with, Record, Set, Table, BARRED, NOT_REGISTERED, PENDING};
use crate::verdict::{Code, Decision};

/// The records of each set.
fn sets(table: Table) -> BTreeMap<Set, Vec<(usize, Record)>> {
    let mut sets: BTreeMap<Set, Vec<(usize, Record)>> = BTreeMap::new();
    for (block, record) in table.records() {
        if let Some(set) = record.implicit_set() {
            sets.entry(set).or_default().push((block, record));
        }
    }
    sets
}

/// State, pending and server name.
fn form<'a>(record: Record<'a>) -> (u8, bool, &'a [u8]) {
    (record.state(), record.has(PENDING), record.server_name())
}

/// What sets a sound table has.
pub fn of_table(table: &[u8]) -> BTreeSet<String> {
    let mut rows = BTreeSet::new();
    let sets = sets(Table(table));
    for members in sets.values() {
        rows.insert(format!("a set of {}", many(members.len())));
        if members.len() > 1 {
            rows.extend(of_set(members));
        }
    }
    let mut subscriptions: BTreeMap<u16, BTreeSet<&[u8]>> = BTreeMap::new();
    for (private, number) in sets.keys() {
        subscriptions.entry(*number).or_default().insert(private);
    }
    if subscriptions.values().any(|of| of.len() > 1) {
        rows.insert("one set number in two subscriptions".to_string());
    }
    let mut alone: BTreeMap<&[u8], BTreeSet<(u8, bool, &[u8])>> = BTreeMap::new();
    for (_, record) in Table(table).records().filter(|(_, record)| record.set() == 0) {
        alone.entry(record.private()).or_default().insert(form(record));
    }
    if !sets.is_empty() && alone.values().any(|forms| forms.len() > 1) {
        rows.insert("records without a set that differ beside sets".to_string());
    }
    rows
}

fn many(members: usize) -> &'static str {
    match members {
        1 => "one",
        2 => "two",
        3..=12 => "3 to 12",
        _ => "13 or more",
    }
}

/// Of a set of several: what they have in common, and whether they have all else.
fn of_set(members: &[(usize, Record)]) -> Vec<String> {
    let (first, last) = (members[0], members[members.len() - 1]);
    let pending = if first.1.has(PENDING) { ", pending" } else { "" };
    let barred = members.iter().filter(|(_, record)| record.has(BARRED)).count();
    let mut rows = vec![format!("a set in state {}{pending}", first.1.state())];
    let shown = [
        ("a set with others between its records", last.0 - first.0 >= members.len()),
        ("a set of barred records alone", barred == members.len()),
        ("a set of barred records and others", barred > 0 && barred < members.len()),
    ];
    rows.extend(shown.iter().filter(|(_, holds)| *holds).map(|(row, _)| row.to_string()));
    rows
}

/// Whether a table is unsound because a set disagrees, and would else be sound or bad in a later block.
pub fn disagrees(table: &[u8], profile_length: usize) -> bool {
    match (check(table, profile_length), check_with(table, profile_length, Slip::of(Fault::SetsMayDisagree))) {
        (Err(block), Err(later)) => block < later,
        (Err(_), Ok(_)) => true,
        (Ok(_), _) => false,
    }
}

/// What the decision of a case has to do with sets.
pub fn of_decision(case: &Case, outcome: &Outcome, decision: &Decision) -> Vec<String> {
    let (request, table) = (case.held(Slice::Request), case.held(Slice::Table));
    let avps = Message(&request).avps().sound(Slip::NONE);
    let publics = avps.iter().filter(|avp| Kind::of(avp.vendor, avp.code) == Some(Kind::PublicIdentity));
    let publics: BTreeSet<&[u8]> = publics.map(|avp| avp.data).collect();
    let named: Vec<Record> =
        Table(&table).records().map(|(_, record)| record).filter(|record| publics.contains(record.public())).collect();
    match (decision.command, named.first()) {
        (Some(Command::UserAuthorization), Some(asked)) => of_authorization(Table(&table), *asked, decision),
        (Some(Command::ServerAssignment), _) => of_assignment(case, outcome, &named, decision),
        (Some(Command::MultimediaAuth), Some(asked)) if is_of_several(Table(&table), *asked) => match decision.result {
            Some(Code::Base(2001)) => vec![format!("MAR: of a set, state {}", asked.state())],
            _ => vec![],
        },
        _ => vec![],
    }
}

fn is_of_several(table: Table, record: Record) -> bool {
    let set = record.implicit_set();
    set.is_some() && table.records().filter(|(_, it)| it.implicit_set() == set).count() > 1
}

/// Whether a barred identity goes on, and whom it would go on with; or a free one that shares its set with a barred one.
fn of_authorization(table: Table, asked: Record, decision: &Decision) -> Vec<String> {
    let result = match decision.result {
        Some(Code::Experimental(5001 | 5002)) | None => return vec![],
        Some(Code::Base(5003)) => "rejected",
        Some(_) => "goes on",
    };
    let set = asked.implicit_set();
    let members: Vec<Record> =
        table.records().map(|(_, it)| it).filter(|it| set.is_some() && it.implicit_set() == set).collect();
    if !asked.has(BARRED) {
        return match members.iter().any(|it| it.has(BARRED)) {
            true => vec![format!("UAR: free, a barred one in its set: {result}")],
            false => vec![],
        };
    }
    let with = match (set, members.len()) {
        (None, _) => "no set",
        (Some(_), 1) => "alone in its set",
        _ if members.iter().all(|it| it.has(BARRED)) => "all of its set barred",
        _ => "a free one in its set",
    };
    let mut rows = vec![format!("UAR: barred, {with}, type {}: {result}", decision.asked_type)];
    let free = |counts: &dyn Fn(Record) -> bool| table.records().any(|(_, it)| !it.has(BARRED) && counts(it));
    let elsewhere = [
        (
            "a free one of its set number elsewhere",
            free(&|it| it.set() == asked.set() && it.private() != asked.private()),
        ),
        ("a free one of its subscription", free(&|it| it.private() == asked.private())),
    ];
    if result == "rejected" {
        let shown = elsewhere.iter().filter(|(_, holds)| *holds && set.is_some());
        rows.extend(shown.map(|(with, _)| format!("UAR: barred, {with}: {result}")));
    }
    rows
}

fn of_assignment(case: &Case, outcome: &Outcome, named: &[Record], decision: &Decision) -> Vec<String> {
    let (table, asked_type) = (case.held(Slice::Table), decision.asked_type);
    let result = decision.result.map_or(String::new(), |result| result.to_string());
    let success = matches!(decision.result, Some(Code::Base(2001) | Code::Experimental(2004)));
    let mut rows = vec![];
    if success && altered_of_several(case, outcome) {
        rows.push(format!("SAR: type {asked_type:2} alters a set"));
    }
    let of_one = named.iter().all(|it| it.implicit_set().is_some() && it.implicit_set() == named[0].implicit_set());
    if named.len() > 1 && of_one {
        rows.push(format!("SAR: type {asked_type:2}, several of one set: {result}"));
    }
    if let ([one], true) = (named, success) {
        let several = is_of_several(Table(&table), *one);
        if several && asked_type == 0 && one.has(PENDING) {
            rows.push("SAR: type 0, pending, of a set".to_string());
        }
        if several && asked_type <= 3 {
            rows.extend(shared_data(Table(&table), *one));
        }
    }
    if named.is_empty() && success && altered_of_several(case, outcome) {
        rows.push("SAR: without identity, of a set".to_string());
    }
    if named.is_empty() && success && pending_sets(&table, case, outcome) {
        rows.push("SAR: without identity, beside a pending set".to_string());
    }
    rows
}

/// Whether the record's profile part is another's in the set too.
fn shared_data(table: Table, one: Record) -> Option<String> {
    let part = |it: Record| (it.profile_start(), it.profile_length());
    let mut others = table.records().filter(|(_, it)| it.implicit_set() == one.implicit_set());
    others.any(|(_, it)| part(it) != part(one)).then(|| "SAR: of a set with several profile parts".to_string())
}

/// Whether two altered records are of one set.
pub fn altered_of_several(case: &Case, outcome: &Outcome) -> bool {
    let (before, after) = (case.held(Slice::Table), case.after(outcome, Slice::Table).unwrap_or_default());
    shares_set(&before, &differing(&before, &after).collect::<Vec<usize>>())
}

/// Whether two of these blocks are of one set.
pub fn shares_set(table: &[u8], blocks: &[usize]) -> bool {
    let of: Vec<Set> = blocks.iter().filter_map(|block| Table(table).record(*block).implicit_set()).collect();
    of.iter().collect::<BTreeSet<&Set>>().len() < of.len()
}

/// Whether a set of the altered records' subscription is pending in state 0, and stays.
fn pending_sets(table: &[u8], case: &Case, outcome: &Outcome) -> bool {
    let after = case.after(outcome, Slice::Table).unwrap_or_default();
    let private = differing(table, &after).next().map(|block| Table(table).record(block).private());
    Table(table).records().any(|(_, it)| {
        Some(it.private()) == private && it.set() != 0 && it.state() == NOT_REGISTERED && it.has(PENDING)
    })
}

/// The rows of tables by their sets, and how much rarer than others they may be.
pub fn of_tables_wanted() -> Vec<(String, u64)> {
    let mut wanted: Vec<(String, u64)> = ["one", "two", "3 to 12"].map(|many| (format!("a set of {many}"), 1)).to_vec();
    wanted.push(("a set of 13 or more".to_string(), 20));
    for form in ["0", "0, pending", "1", "1, pending", "2", "2, pending"] {
        wanted.push((format!("a set in state {form}"), 1));
    }
    for what in [
        "a set with others between its records",
        "a set of barred records alone",
        "a set of barred records and others",
        "one set number in two subscriptions",
        "records without a set that differ beside sets",
    ] {
        wanted.push((what.to_string(), 1));
    }
    wanted
}

/// The rows of decisions, and how much rarer than others they may be.
pub fn of_decisions_wanted() -> Vec<(String, u64)> {
    let mut wanted = Vec::new();
    for asked_type in 0..=2 {
        for with in ["no set", "alone in its set", "all of its set barred"] {
            wanted.push((format!("UAR: barred, {with}, type {asked_type}: rejected"), 4));
        }
        wanted.push((format!("UAR: barred, a free one in its set, type {asked_type}: goes on"), 4));
    }
    wanted.push(("UAR: barred, a free one of its set number elsewhere: rejected".to_string(), 4));
    wanted.push(("UAR: barred, a free one of its subscription: rejected".to_string(), 2));
    wanted.push(("UAR: free, a barred one in its set: goes on".to_string(), 1));
    for asked_type in 1..=11 {
        wanted.push((format!("SAR: type {asked_type:2} alters a set"), if asked_type == 2 { 10 } else { 2 }));
    }
    for asked_type in [0, 1, 2, 3, 9, 10] {
        wanted.push((format!("SAR: type {asked_type:2}, several of one set: B5009"), 4));
    }
    for asked_type in [4, 5, 8, 11] {
        wanted.push((format!("SAR: type {asked_type:2}, several of one set: B2001"), 4));
    }
    for asked_type in [6, 7] {
        wanted.push((format!("SAR: type {asked_type:2}, several of one set: B2001"), 8));
        wanted.push((format!("SAR: type {asked_type:2}, several of one set: X2004"), 8));
    }
    for (what, times) in [
        ("type 0, pending, of a set", 10),
        ("of a set with several profile parts", 1),
        ("without identity, of a set", 2),
        ("without identity, beside a pending set", 10),
    ] {
        wanted.push((format!("SAR: {what}"), times));
    }
    wanted.extend((0..=2).map(|state| (format!("MAR: of a set, state {state}"), 2)));
    wanted
}
