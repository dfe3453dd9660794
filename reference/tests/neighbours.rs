//! The neighbour's line: pairs satisfy the hypotheses of document 02's request 9 as they are asked of their bytes, each breach breaks its
//! own, and answers are the same or differ as they should.

mod common;

use common::*;
use reference::cases::{Case, Slice};
use reference::gen::model::{RecordModel, TableModel};
use reference::gen::neighbours::{broken, pair, Breach, BREACHES, SILENT};
use reference::hypotheses::{self, Hypothesis};
use reference::kinds::Dialect;
use reference::neighbours::required_rows;
use reference::slip::{by_name, Slip};
use reference::stated::Stated;

fn answers(calls: &[Case; 2], slip: Slip) -> [Option<(u64, Vec<u8>)>; 2] {
    [0, 1].map(|side| {
        let outcome = calls[side].outcome(slip);
        let answer = calls[side].answer(&outcome);
        answer.filter(|_| outcome.parts().0 == 0).map(|answer| (outcome.word, answer))
    })
}

/// Files of many blocks take a debug build long.
fn is_small(calls: &[Case; 2]) -> bool {
    let length = |slice| calls.iter().map(|case| case.held(slice).len()).max().unwrap();
    length(Slice::Table) <= 100 * 512 && length(Slice::Vectors) <= 100 * 512
}

#[test]
fn the_hypotheses_hold_of_every_pair_and_the_answers_are_the_same() {
    let mut answered = 0;
    for calls in (0..1500).map(|number| pair(Dialect::Cx, 9, number)).filter(is_small) {
        assert_eq!(hypotheses::broken(&calls), [].into());
        if let [Some(one), Some(other)] = answers(&calls, Slip::NONE) {
            assert!(one == other);
            answered += 1;
        }
    }
    assert!(answered > 1400);
}

/// Of the voicemail box too: the line is drawn for it as it is for the others.
#[test]
fn a_neighbour_does_not_show_in_a_document_either() {
    let mut answered = 0;
    for calls in (0..500).map(|number| pair(Dialect::Sh, 9, number)).filter(is_small) {
        assert_eq!(hypotheses::broken(&calls), [].into());
        if let [Some(one), Some(other)] = answers(&calls, Slip::NONE) {
            assert!(one == other);
            answered += 1;
        }
    }
    assert!(answered > 450);
}

#[test]
fn a_pair_can_be_made_again() {
    for number in [0, 1, 77] {
        assert!(pair(Dialect::Cx, 3, number) == pair(Dialect::Cx, 3, number));
        assert!(pair(Dialect::Cx, 3, number) != pair(Dialect::Cx, 3, number + 1));
        assert!(broken(Breach::State, 3, number) == broken(Breach::State, 3, number));
    }
}

/// The hypotheses that pairs of a breach may break.
fn may_break(breach: Breach) -> Vec<Hypothesis> {
    match breach {
        Breach::Request => vec![Hypothesis::Request, Hypothesis::Public, Hypothesis::Private, Hypothesis::Profile],
        Breach::Peer | Breach::Features => vec![Hypothesis::Stated],
        Breach::Vectors => vec![Hypothesis::Command],
        Breach::Unsound => vec![Hypothesis::Sound],
        Breach::Edition => vec![Hypothesis::Edition],
        Breach::Keep | Breach::Host | Breach::Realm | Breach::Network => vec![Hypothesis::Header],
        Breach::ProfileBytes => vec![Hypothesis::Profile],
        Breach::RecordMore | Breach::Order => vec![Hypothesis::Private],
        _ => vec![Hypothesis::Public, Hypothesis::Private],
    }
}

#[test]
fn a_breach_breaks_its_hypothesis_and_no_other() {
    for (breach, _) in BREACHES.into_iter().chain(SILENT) {
        for calls in (0..25).map(|number| broken(breach, 9, number)).filter(is_small) {
            let found = hypotheses::broken(&calls);
            let may = may_break(breach);
            assert!(!found.is_empty() && found.iter().all(|it| may.contains(it)), "{breach:?}: {found:?}");
        }
    }
}

#[test]
fn answers_show_a_breach_but_for_the_silent_ones() {
    let differ = |breach, count: u64| {
        let calls = (0..count).map(|number| broken(breach, 9, number));
        calls.filter(is_small).any(|calls| match answers(&calls, Slip::NONE) {
            [Some(one), Some(other)] => one != other,
            _ => false,
        })
    };
    for (breach, _) in BREACHES {
        assert!(differ(breach, 2000), "{breach:?}");
    }
    for (breach, _) in SILENT {
        assert!(!differ(breach, 30), "{breach:?}");
    }
}

#[test]
fn a_program_that_looks_at_a_neighbour_is_found_out() {
    for name in ["NameOfAnySubscription", "FreeOfNumberCounts", "StaleRecordsDecided"] {
        let slip = Slip::of(by_name(name).unwrap());
        let shows = |calls: [Case; 2]| match answers(&calls, slip) {
            [Some(one), Some(other)] => one != other,
            _ => false,
        };
        assert!((0..6000).map(|number| pair(Dialect::Cx, 9, number)).filter(is_small).any(shows), "{name}");
    }
}

#[test]
fn the_readme_names_rows_breaches_and_faults_that_there_are() {
    let readme = include_str!("../README.md");
    let section = readme.split("\n### The neighbour's line").nth(1).unwrap().split("\n## ").next().unwrap();
    let rows: Vec<Vec<&str>> = section.lines().filter(|line| line.starts_with("| ")).skip(1).map(columns).collect();
    let spans = |column: &'static str| column.split('`').skip(1).step_by(2);
    let breaches: Vec<String> = BREACHES.into_iter().chain(SILENT).map(|(breach, _)| format!("{breach:?}")).collect();
    let mut named = Vec::new();
    for columns in rows {
        for row in spans(columns[1]) {
            assert!(required_rows().iter().any(|it| it == row), "no row {row}");
        }
        for span in spans(columns[2]) {
            assert!(breaches.iter().any(|it| it == span) || by_name(span).is_some(), "no breach or fault {span}");
            named.push(span);
        }
    }
    assert!(breaches.iter().all(|breach| named.contains(&breach.as_str())));
    assert_eq!(named.len(), breaches.len() + 4);
}

fn columns(line: &'static str) -> Vec<&'static str> {
    line.trim_matches('|').split(" | ").collect()
}

// ---- the hypotheses one by one, over tables put together by hand

fn calls_over(request: &[u8], tables: [&TableModel; 2], profiles: [&[u8]; 2], stated: [Stated; 2]) -> [Case; 2] {
    [0, 1].map(|side| {
        let (table, profile) = (tables[side].encode(), profiles[side].to_vec());
        Case::decide(side as u8, request.to_vec(), table, profile, vec![], 36_864, stated[side])
    })
}

fn found(request: &[u8], tables: [&TableModel; 2], profiles: [&[u8]; 2]) -> Vec<Hypothesis> {
    hypotheses::broken(&calls_over(request, tables, profiles, [Stated::OLDER; 2])).into_iter().collect()
}

fn registered(public: &str, private: &str, server_name: &str) -> RecordModel {
    RecordModel { state: 1, server_name: server_name.as_bytes().to_vec(), ..record(public, private) }
}

#[test]
fn what_may_differ_breaks_nothing_and_what_may_not_does() {
    let lir = request(302, &[avp(601, b"b")]);
    let mut mine = registered("b", "p", "s");
    mine.profile_length = 2;
    let one = TableModel { issue: Some(1), ..isle(vec![registered("a", "q", "t"), mine.clone(), record("c", "p")]) };
    let mut other = TableModel { issue: Some(2), ..one.clone() };
    other.records[0] = record("Z", "r");
    other.records.push(record("d", "r"));
    other.records[1].profile_start = 1;
    let profiles: [&[u8]; 2] = [b"xyz", b"wxy"];
    assert_eq!(found(&lir, [&one, &other], profiles), []);

    let breaks = |change: fn(&mut TableModel), expected: &[Hypothesis]| {
        let mut changed = other.clone();
        change(&mut changed);
        assert_eq!(found(&lir, [&one, &changed], profiles), expected);
        assert_eq!(found(&lir, [&changed, &one], [profiles[1], profiles[0]]), expected);
    };
    let both = [Hypothesis::Public, Hypothesis::Private];
    breaks(|table| table.issue = None, &[Hypothesis::Edition]);
    breaks(|table| table.keep = true, &[Hypothesis::Header]);
    breaks(|table| table.host[0] = b'H', &[Hypothesis::Header]);
    breaks(|table| table.realm[0] = b'H', &[Hypothesis::Header]);
    breaks(|table| table.networks[1][0] = b'H', &[Hypothesis::Header]);
    breaks(|table| table.records[1].state = 2, &both);
    breaks(|table| table.records[1].bits = 2, &both);
    breaks(|table| table.records[1].roaming = 2, &both);
    breaks(|table| table.records[1].mandatory = vec![0], &both);
    breaks(|table| table.records[1].optional = vec![0], &both);
    breaks(|table| table.records[1].server_name = b"S".to_vec(), &both);
    breaks(|table| table.records[1].set = 1, &both);
    breaks(|table| table.records[1].profile_length = 1, &both);
    breaks(|table| table.records[1].private = b"P".to_vec(), &both);
    // The list of the subscription alone.
    breaks(|table| table.records[2].bits = 2, &[Hypothesis::Private]);
    breaks(|table| table.records[2].public = b"cc".to_vec(), &[Hypothesis::Private]);
    breaks(|table| table.records[3].private = b"p".to_vec(), &[Hypothesis::Private]);
    breaks(
        |table| {
            table.records.remove(2);
        },
        &[Hypothesis::Private],
    );
    // A neighbour's may be anything.
    breaks(|table| table.records[3].bits = 2, &[]);
    breaks(|table| table.records[0].roaming = 3, &[]);
    breaks(|table| table.records[3].private = b"q".to_vec(), &[]);
    breaks(|table| table.records[1].profile_start = 0, &[Hypothesis::Profile]);
    assert_eq!(found(&lir, [&one, &other], [b"xyz", b"wx"]), [Hypothesis::Sound]);
}

#[test]
fn whom_a_request_is_about() {
    let one = isle(vec![registered("a", "q", "t"), registered("b", "p", "s"), record("d", "r")]);
    let without = |public: &str| {
        let mut other = one.clone();
        other.records.retain(|record| record.public != public.as_bytes());
        other
    };
    let asks = |own: &[Vec<u8>], command, gone: &str| found(&request(command, own), [&one, &without(gone)], [b"", b""]);
    // A LIR does not name the User-Name; nor does a group, or 601 without vendor, count.
    assert_eq!(asks(&[avp(601, b"b"), avp(1, b"q")], 302, "a"), []);
    assert_eq!(asks(&[avp(601, b"b"), avp(284, &avp(601, b"a"))], 302, "a"), []);
    assert_eq!(asks(&[avp(601, b"b")], 302, "b"), [Hypothesis::Public, Hypothesis::Private]);
    // A SAR does, and several identities.
    let sar = |first: &[u8], more: &[Vec<u8>]| {
        let own = [avp(601, first), avp(602, b"s"), number(614, 4), number(624, 0)];
        [&own[..], more].concat()
    };
    assert_eq!(asks(&sar(b"b", &[]), 301, "a"), []);
    assert_eq!(asks(&sar(b"b", &[avp(1, b"q")]), 301, "a"), [Hypothesis::Private]);
    assert_eq!(asks(&sar(b"b", &[avp(601, b"d")]), 301, "d"), [Hypothesis::Public, Hypothesis::Private]);
    // With a fault in reading nobody is asked for.
    assert_eq!(asks(&sar(b"b", &[avp(614, b"")]), 301, "b"), []);
    // A name that neither table has.
    assert_eq!(asks(&sar(b"x", &[avp(1, b"y")]), 301, "a"), []);
}

/// With several Vendor-Ids a request from a newer peer has a fault in reading, so that it is about nobody.
#[test]
fn what_is_stated_is_a_hypothesis() {
    let two = [number(266, 10_415), number(266, 10_415), number(258, 16_777_216)].concat();
    let mut lir = vec![avp(263, b"s;1"), avp(260, &two), number(277, 1), avp(264, b"cscf.isle"), avp(296, b"isle")];
    lir.extend([avp(283, b"isle"), avp(601, b"b")]);
    let lir = message(302, &lir);
    let one = isle(vec![registered("b", "p", "s")]);
    let none = isle(vec![]);
    let found = |other, stated| {
        let calls = calls_over(&lir, [&one, other], [b"", b""], stated);
        hypotheses::broken(&calls).into_iter().collect::<Vec<_>>()
    };
    let (older, newer) = (Stated::OLDER, Stated::NEWER);
    let both = [Hypothesis::Public, Hypothesis::Private];
    assert_eq!(found(&one, [older; 2]), []);
    assert_eq!(found(&one, [newer; 2]), []);
    assert_eq!(found(&one, [older, newer]), [Hypothesis::Stated]);
    assert_eq!(found(&one, [newer, older]), [Hypothesis::Stated]);
    assert_eq!(found(&none, [older; 2]), both);
    assert_eq!(found(&none, [newer; 2]), []);
    assert_eq!(found(&none, [older, newer]), [&[Hypothesis::Stated], &both[..]].concat());
    assert_eq!(found(&none, [newer, older]), [&[Hypothesis::Stated], &both[..]].concat());
    let supporting = |features| Stated { features, ..newer };
    assert_eq!(found(&none, [supporting(3), supporting(3)]), []);
    assert_eq!(found(&none, [supporting(3), supporting(2)]), [Hypothesis::Stated]);
}

/// As a guest house may ask: another subscriber registers, is barred, leaves; the answer for my line stays.
#[test]
fn a_neighbour_does_not_show() {
    let lir = request(302, &[avp(601, b"b")]);
    let mut mine = record("b", "p");
    mine.bits = 4;
    let quiet = isle(vec![mine.clone()]);
    let loud = isle(vec![registered("a", "q", "t"), mine.clone(), registered("bb", "pp", "u")]);
    let answer = |table: &TableModel| call(&lir, &table.encode(), b"").answer;
    assert_eq!(result(&answer(&quiet)), "X2003");
    assert!(answer(&quiet) == answer(&loud));
    // One of my own subscription does.
    let own = isle(vec![registered("a", "p", "t"), mine]);
    assert_eq!(result(&answer(&own)), "B2001");
}
