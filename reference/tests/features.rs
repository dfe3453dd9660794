//! Features, as document 02 has them: what a 628 may hold, what is X5011, and which answers carry the server's own list, with its bytes.

mod common;

use common::*;
use reference::cases::{Case, Slice};
use reference::gen::model::RecordModel;
use reference::gen::{make, Stream};
use reference::message::Message;
use reference::report::{report, Lent};
use reference::slip::Slip;
use reference::stated::Stated;

const ROOM: usize = 36_864;

/// Where the own AVPs of a request begin: after the header 263 of 12 bytes, 260 of 32, 277 of 12, 264 of 20, 296 and 283 of 12 each.
const OWN: u64 = 120;

const ALICE: &[u8] = b"sip:alice@isle";

fn isle_of_alice() -> Vec<u8> {
    let alice = record("sip:alice@isle", "alice@isle");
    isle(vec![RecordModel { state: 1, server_name: b"sip:s1".to_vec(), ..alice }]).encode()
}

fn over(features: u32, request: &[u8], vectors: &[u8]) -> Done {
    call_stating(Stated { peer: 3588, features }, request, &isle_of_alice(), b"", vectors, ROOM)
}

/// The result over a set, with the place.
fn told(features: u32, request: &[u8]) -> (String, u64) {
    let done = over(features, request, b"");
    assert_eq!(done.number, 0);
    (result(&done.answer), done.place)
}

/// 266, 629 and 630, as the standard has them.
fn members(vendor: u32, list: u32, bits: u32) -> [Vec<u8>; 3] {
    [number(266, vendor), flagged(number(629, list), 0x80), flagged(number(630, bits), 0x80)]
}

fn group(members: &[Vec<u8>]) -> Vec<u8> {
    avp(628, &members.concat())
}

/// A 628 with M, and one without.
fn marked(vendor: u32, list: u32, bits: u32) -> Vec<u8> {
    group(&members(vendor, list, bits))
}

fn unmarked(vendor: u32, list: u32, bits: u32) -> Vec<u8> {
    flagged(marked(vendor, list, bits), 0x80)
}

/// The question where Alice is, with these behind her name.
fn lir(more: &[Vec<u8>]) -> Vec<u8> {
    request(302, &[&[avp(601, ALICE)], more].concat())
}

/// 628 of list 1 with these bits.
fn own(bits: u32) -> Vec<u8> {
    let mut list = bytes(
        "00000274 80000038 000028AF 0000010A 4000000C 000028AF 00000275 80000010 000028AF 00000001 00000276 80000010 000028AF",
    );
    list.extend(bits.to_be_bytes());
    list
}

/// The answer's AVPs by their codes, and every 628 in it as its bytes.
fn shape(answer: &[u8]) -> (Vec<u32>, Vec<Vec<u8>>) {
    let avps = Message(answer).avps().sound(Slip::NONE);
    let lists = avps.iter().filter(|avp| avp.code == 628).map(|avp| avp.whole.to_vec()).collect();
    (avps.iter().map(|avp| avp.code).collect(), lists)
}

/// Whether the answer has the own list of a set, once; it has no other.
fn has_list(features: u32, request: &[u8]) -> bool {
    let lists = shape(&over(features, request, b"").answer).1;
    assert!(lists.is_empty() || lists == [own(features)]);
    !lists.is_empty()
}

// ---- the own list

#[test]
fn the_own_list_stands_right_behind_296() {
    let asks = |bits| unmarked(10_415, 1, bits);
    for set in [0, 1, 0x8000_0000, u32::MAX, 0x0102_0304] {
        let (codes, lists) = shape(&over(set, &lir(&[asks(7)]), b"").answer);
        assert_eq!((codes, lists), (vec![263, 260, 268, 277, 264, 296, 628, 602], vec![own(set)]));
    }
    assert_eq!(own(0).len(), 56);
    let vectors = vector(0, "alice@isle", 1, b"xres");
    let mar = |more: &[Vec<u8>]| {
        let mine = [avp(1, b"alice@isle"), avp(601, ALICE), item(b"Digest-AKAv1-MD5"), number(607, 1), avp(602, b"s")];
        request(303, &[&mine[..], more].concat())
    };
    let (codes, lists) = shape(&over(3, &mar(&[marked(10_415, 1, 3)]), &vectors).answer);
    assert_eq!((codes, lists), (vec![263, 260, 268, 277, 264, 296, 628, 1, 601, 607, 612], vec![own(3)]));
    let sar = request(301, &[avp(601, ALICE), avp(602, b"sip:s1"), number(614, 0), number(624, 1), asks(0)]);
    assert_eq!(shape(&over(3, &sar, b"").answer).0, [263, 260, 268, 277, 264, 296, 628, 1]);
    let unknown = [asks(0), avp(284, b"proxy"), number(633, 0)];
    assert_eq!(shape(&over(3, &lir(&unknown), b"").answer).0, [263, 260, 268, 277, 264, 296, 628, 279, 284]);
    // Without a 628 there is none, and the set does not matter.
    for set in [0, 3, u32::MAX] {
        assert_eq!(over(set, &lir(&[]), b"").answer, over(0, &lir(&[]), b"").answer);
        assert!(!has_list(set, &lir(&[])));
    }
}

#[test]
fn any_number_of_628s_calls_for_it_once() {
    let many: Vec<Vec<u8>> = (0..50).map(|n| unmarked(10_415, n % 3, n)).collect();
    for command in 300..=303 {
        let names = [avp(1, b"alice@isle"), avp(601, ALICE), avp(600, b"isle"), avp(602, b"sip:s1")];
        let rest = [number(614, 1), number(624, 0), number(607, 1), item(b"Digest-AKAv1-MD5")];
        assert!(has_list(9, &request(command, &[&names[..], &rest[..], &many[..]].concat())), "{command}");
    }
}

/// Whatever else is wrong, a 628 that is good itself calls for it, before the fault or behind it.
#[test]
fn another_avps_fault_does_not_matter() {
    let (good, reserved) = (unmarked(10_415, 1, 0), flagged(avp(282, b"relay"), 0x41));
    let faults = [reserved, number(633, 0), avp(283, b"again"), avp(277, b"x"), avp(602, b"")];
    for fault in &faults {
        assert!(has_list(1, &lir(&[fault.clone(), good.clone()])));
        assert!(has_list(1, &lir(&[good.clone(), fault.clone()])));
    }
    // (g) is no length fault in this sense.
    let four = request(301, &[avp(614, b"abc"), good.clone()]);
    assert_eq!((told(1, &four), has_list(1, &four)), (is("B5014", OWN), true));
    // Missing AVPs, and decisions.
    assert!(has_list(1, &request(302, std::slice::from_ref(&good))));
    assert!(has_list(1, &request(302, &[avp(601, b"nobody"), good.clone()])));
    // (b), with the 628 behind the AVP that stands first.
    assert!(has_list(1, &message(302, &[avp(264, b"cscf.isle"), good.clone()])));
    assert!(has_list(1, &message(302, &[number(633, 0), good])));
}

#[test]
fn a_628_that_fails_itself_does_not_call_for_it() {
    let good = unmarked(10_415, 1, 0);
    let reserved = flagged(good.clone(), 0x81);
    let empty = flagged(group(&[]), 0x80);
    let other_vendor = {
        let mut avp = good.clone();
        avp[8..12].copy_from_slice(&50u32.to_be_bytes());
        avp
    };
    for bad in [&reserved, &empty, &other_vendor] {
        assert!(!has_list(1, &lir(std::slice::from_ref(bad))));
        assert!(has_list(1, &lir(&[bad.clone(), good.clone()])), "another good one does");
        assert!(has_list(1, &lir(&[good.clone(), bad.clone()])), "another good one does");
    }
    // As the first AVP it fails (b); a second one counts.
    assert_eq!(told(1, &message(302, std::slice::from_ref(&good))), is("B5005", 0));
    assert!(!has_list(1, &message(302, &[good.clone(), avp(263, b"s;1")])));
    assert!(has_list(1, &message(302, &[good.clone(), good.clone()])));
}

#[test]
fn behind_a_length_fault_it_is_not_seen() {
    let good = unmarked(10_415, 1, 0);
    let mut short = avp(282, b"relay");
    short[7] = 7;
    let past = bytes("0000011A 40FFFFFF");
    for fault in [short, past] {
        assert!(!has_list(1, &lir(&[fault.clone(), good.clone()])));
        assert!(has_list(1, &lir(&[good.clone(), fault.clone()])));
        assert!(has_list(1, &lir(&[good.clone(), fault, good.clone()])));
    }
    assert!(has_list(1, &lir(&[good, bytes("00000274")])), "a header cut off");
}

#[test]
fn header_faults_have_none() {
    let right = lir(&[unmarked(10_415, 1, 0)]);
    for (at, byte) in [(0, 2), (4, 0xE0), (7, 48), (11, 1)] {
        let mut request = right.clone();
        request[at] = byte;
        assert!(!has_list(1, &request), "byte {at}");
        let done = over(1, &request, b"");
        assert!(["B5011", "B3008", "B3001", "B3007"].contains(&result(&done.answer).as_str()));
    }
    assert!(has_list(1, &right));
}

// ---- what a 628 holds

#[test]
fn three_members_in_any_order_and_nothing_else() {
    let [v, l, b] = members(10_415, 1, 0);
    let (v, l, b) = (&v, &l, &b);
    let orders = [[v, l, b], [v, b, l], [l, v, b], [l, b, v], [b, v, l], [b, l, v]];
    for order in orders {
        let group = group(&order.map(|member| member.clone()));
        assert_eq!(told(0, &lir(&[group])), is("B2001", 0));
    }
    // M and P of the members are free.
    for flags in [0, 0x20, 0x40, 0x60] {
        let group =
            group(&[flagged(v.clone(), flags), flagged(l.clone(), 0x80 | flags), flagged(b.clone(), 0x80 | flags)]);
        assert_eq!(told(0, &lir(&[group])), is("B2001", 0));
    }
    let without_v = |code: u32, value: u32| {
        let mut avp = code.to_be_bytes().to_vec();
        avp.extend((0x40u32 << 24 | 12).to_be_bytes());
        avp.extend(value.to_be_bytes());
        avp
    };
    let with_v = |code: u32, vendor: u32, value: u32| {
        let mut avp = code.to_be_bytes().to_vec();
        avp.extend((0xC0u32 << 24 | 16).to_be_bytes());
        avp.extend([vendor.to_be_bytes(), value.to_be_bytes()].concat());
        avp
    };
    let bad: Vec<Vec<Vec<u8>>> = vec![
        vec![],
        vec![l.clone(), b.clone()],
        vec![v.clone(), b.clone()],
        vec![v.clone(), l.clone()],
        vec![v.clone(), v.clone(), l.clone(), b.clone()],
        vec![v.clone(), l.clone(), l.clone(), b.clone()],
        vec![v.clone(), l.clone(), b.clone(), b.clone()],
        vec![v.clone(), l.clone(), b.clone(), number(258, 1)],
        vec![v.clone(), l.clone(), b.clone(), flagged(number(631, 1), 0x80)],
        vec![v.clone(), without_v(629, 1), b.clone()],
        vec![v.clone(), l.clone(), without_v(630, 0)],
        vec![with_v(266, 10_415, 10_415), l.clone(), b.clone()],
        vec![with_v(266, 0, 10_415), l.clone(), b.clone()],
        vec![v.clone(), with_v(629, 50, 1), b.clone()],
        vec![v.clone(), l.clone(), with_v(630, 0, 0)],
        vec![flagged(v.clone(), 0x41), l.clone(), b.clone()],
        vec![v.clone(), flagged(l.clone(), 0x90), b.clone()],
        vec![v.clone(), l.clone(), flagged(b.clone(), 0x82)],
        vec![avp(266, &[0, 0, 0x28, 0xAF, 0]), l.clone(), b.clone()],
        vec![v.clone(), avp(629, &[1]), b.clone()],
        vec![v.clone(), l.clone(), avp(630, &[0; 8])],
        vec![v.clone(), l.clone(), b.clone(), vec![0]],
        vec![v.clone(), l.clone(), b.clone(), vec![0; 3]],
        vec![v.clone(), l.clone(), b.clone(), vec![0; 8]],
        vec![v.clone(), l.clone(), b[..15].to_vec()],
    ];
    for members in bad {
        for flags in [0xC0, 0x80] {
            let faulty = flagged(group(&members), flags);
            let request = lir(&[avp(282, b"relay"), faulty.clone()]);
            let place = OWN + 28 + 16;
            assert_eq!(told(u32::MAX, &request), is("B5004", place), "{members:?}");
            let failed = find(&over(0, &request, b"").answer, 279).unwrap();
            let length = u32::from_be_bytes([0, faulty[5], faulty[6], faulty[7]]) as usize;
            assert!(failed[..length] == faulty[..length] && failed[length..].iter().all(|byte| *byte == 0));
        }
    }
}

#[test]
fn the_members_kinds_are_unknown_at_the_top() {
    for code in [629, 630] {
        assert_eq!(told(1, &lir(&[number(code, 1)])), is("B5001", OWN + 28));
        assert_eq!(told(1, &lir(&[flagged(number(code, 1), 0x80)])), is("B2001", 0));
    }
    // 628 without V, and of another vendor.
    let mut without = 628u32.to_be_bytes().to_vec();
    without.extend((0x40u32 << 24 | 8).to_be_bytes());
    let mut other = marked(10_415, 1, 0);
    other[8..12].copy_from_slice(&[0, 0, 0, 50]);
    for unknown in [without, other] {
        assert_eq!(told(1, &lir(&[unknown])), is("B5001", OWN + 28));
    }
}

// ---- X5011

#[test]
fn what_is_unsupported() {
    for (set, vendor, list, bits, goes_on) in [
        (0, 10_415, 1, 0, true),
        (0, 10_415, 1, 1, false),
        (5, 10_415, 1, 4, true),
        (5, 10_415, 1, 5, true),
        (5, 10_415, 1, 7, false),
        (5, 10_415, 1, 2, false),
        (u32::MAX, 10_415, 1, u32::MAX, true),
        (u32::MAX >> 1, 10_415, 1, 1 << 31, false),
        (1 << 31, 10_415, 1, 1 << 31, true),
        (0xFFFF, 10_415, 1, 1 << 16, false),
        (u32::MAX, 10_415, 2, 0, false),
        (u32::MAX, 10_415, 0, 0, false),
        (u32::MAX, 10_415, 257, 1, false),
        (u32::MAX, 0, 1, 0, false),
        (u32::MAX, 50, 1, 1, false),
        (u32::MAX, 10_415 | 1 << 16, 1, 0, false),
        (u32::MAX, 50, 2, 3, false),
    ] {
        let result = if goes_on { "B2001" } else { "X5011" };
        assert_eq!(told(set, &lir(&[marked(vendor, list, bits)])), is(result, 0), "{set} {vendor} {list} {bits}");
        assert_eq!(told(set, &lir(&[unmarked(vendor, list, bits)])), is("B2001", 0), "without M");
        // Among others it counts as it does alone.
        let (good, other) = (marked(10_415, 1, set), unmarked(50, 2, 1));
        for order in
            [[good.clone(), marked(vendor, list, bits), other.clone()], [marked(vendor, list, bits), other, good]]
        {
            assert_eq!(told(set, &lir(&order)), is(result, 0));
        }
        assert!(has_list(set, &lir(&[marked(vendor, list, bits)])), "X5011 has the own list");
    }
    // M of the members does not matter.
    let [v, l, b] = members(10_415, 1, 2);
    let deep = group(&[v, flagged(l, 0xC0), flagged(b, 0xC0)]);
    assert_eq!(told(1, &lir(&[flagged(deep.clone(), 0x80)])), is("B2001", 0));
    assert_eq!(told(1, &lir(&[deep])), is("X5011", 0));
}

#[test]
fn it_stands_behind_reading_and_before_every_decision() {
    let asks = marked(50, 2, 1);
    // Reading goes before, also where the fault stands behind.
    assert_eq!(told(0, &lir(&[asks.clone(), number(633, 0)])), is("B5001", OWN + 28 + 56));
    assert_eq!(told(0, &lir(&[asks.clone(), avp(283, b"isle")])), is("B5009", OWN + 28 + 56));
    assert_eq!(told(0, &request(302, std::slice::from_ref(&asks))), is("B5005", 0), "a missing AVP goes before");
    // Decisions come behind: unknown identities, and what a SAR has of its own.
    assert_eq!(told(0, &request(302, &[avp(601, b"nobody"), asks.clone()])), is("X5011", 0));
    let sar = |identities: &[Vec<u8>], asked_type| {
        let own = [avp(602, b"sip:s1"), number(614, asked_type), number(624, 0), asks.clone()];
        request(301, &[identities, &own].concat())
    };
    for (identities, asked_type) in [
        (vec![], 1),
        (vec![avp(601, ALICE), avp(601, b"b")], 1),
        (vec![], 4),
        (vec![avp(601, ALICE)], 4),
        (vec![avp(601, ALICE)], 3),
    ] {
        let request = sar(&identities, asked_type);
        let done = over(0, &request, b"");
        assert_eq!((result(&done.answer), done.place), is("X5011", 0));
        assert!(find(&done.answer, 279).is_none() && done.table == isle_of_alice());
    }
    // No vector is used.
    let vectors = vector(0, "alice@isle", 1, b"xres");
    let own = [avp(1, b"alice@isle"), avp(601, ALICE), item(b"Digest-AKAv1-MD5"), number(607, 1), avp(602, b"s"), asks];
    let done = over(0, &request(303, &own), &vectors);
    assert_eq!(
        (result(&done.answer), done.vectors == vectors, done.table == isle_of_alice()),
        ("X5011".into(), true, true)
    );
}

// ---- every set is taken

#[test]
fn no_set_is_refused() {
    for set in (0..32).map(|bit| 1 << bit).chain([0, 3588, 6733, u32::MAX, u32::MAX - 1]) {
        assert_eq!(told(set, &lir(&[marked(10_415, 1, set)])), is("B2001", 0));
        assert!(has_list(set, &lir(&[unmarked(10_415, 1, 0)])));
    }
}

/// Without a 628 a set makes no difference, and with one the answer carries the list once if one of them is good.
#[test]
fn the_set_shows_in_answers_to_628s_alone() {
    let (mut without, mut with, mut listed) = (0, 0, 0);
    for number in 0..700 {
        let case = make(Stream::Calls, 81, number).case;
        if [Slice::Table, Slice::Vectors].iter().any(|slice| case.held(*slice).len() > 60 * 512) {
            continue;
        }
        let request = case.held(Slice::Request);
        let stating = |features| Case { numbers: Stated { features, ..case.stated() }.numbers(), ..case.clone() };
        let (none, all) = (stating(0).outcome(Slip::NONE), stating(u32::MAX).outcome(Slip::NONE));
        let has_628 = request.len() >= 20 && request.windows(4).any(|it| it == [0, 0, 2, 0x74]);
        if !has_628 {
            without += 1;
            assert!(none == all, "case {number}");
            continue;
        }
        with += 1;
        for (set, outcome) in [(0, &none), (u32::MAX, &all)] {
            let (refused, _, length) = outcome.parts();
            let answer = &case.after(outcome, Slice::Buffer).unwrap()[..if refused == 0 { length as usize } else { 0 }];
            if answer.is_empty() {
                continue;
            }
            let (codes, lists) = shape(answer);
            assert!(lists.is_empty() || lists == [own(set)], "case {number}");
            if !lists.is_empty() {
                listed += 1;
                assert_eq!(codes[codes.iter().position(|code| *code == 628).unwrap() - 1], 296, "case {number}");
            }
        }
    }
    assert!(without > 250 && with > 80 && listed > 80, "{without} {with} {listed}");
}

// ---- the report

#[test]
fn a_report_has_one_set_for_all() {
    let file =
        [lir(&[marked(10_415, 1, 6)]), lir(&[marked(10_415, 1, 1)]), lir(&[unmarked(50, 9, 9)]), lir(&[])].concat();
    let run = |features| {
        let (mut table, mut buffer, mut area) = (isle_of_alice(), vec![0; ROOM], vec![0; 1_160]);
        let lent = Lent {
            requests: &file,
            table: &mut table,
            profile: b"",
            vectors: &mut [],
            buffer: &mut buffer,
            report: &mut area,
            stated: Stated { peer: 6733, features },
        };
        assert_eq!(report(lent, Slip::NONE).0, 0);
        let word = |at: usize| area[8 * at..][..8].iter().fold(0, |sum, byte| sum << 8 | u64::from(*byte));
        let cell = |column: usize| word(20 + 25 * 2 + column);
        // Read, B2001, B5011 and X5011 of 302.
        (word(0), cell(0), cell(10), cell(24))
    };
    assert_eq!([run(0), run(6), run(7), run(1)], [(4, 2, 0, 2), (4, 3, 0, 1), (4, 4, 0, 0), (4, 3, 0, 1)]);
}
