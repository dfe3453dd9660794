//! The newer base standard, as document 02 has it: what is refused by 12, what of 260 the peer's edition decides, and that nothing else is.

mod common;

use common::*;
use reference::cases::{Case, Slice};
use reference::gen::{make, Stream};
use reference::message::Message;
use reference::report::{report, Lent};
use reference::slip::Slip;
use reference::stated::Stated;
use reference::table::check;

const OLDER: u32 = 3588;
const NEWER: u32 = 6733;
const ROOM: usize = 36_864;

/// Where 260 stands in a request of these tests: behind the header and a Session-Id of 12 bytes.
const PLACE: u64 = 32;

fn isle_of_alice() -> Vec<u8> {
    isle(vec![record("sip:alice@isle", "alice@isle")]).encode()
}

fn from(peer: u32, request: &[u8]) -> Done {
    call_stating(Stated { peer, ..Stated::OLDER }, request, &isle_of_alice(), b"", b"", ROOM)
}

/// The result, with the place.
fn told(peer: u32, request: &[u8]) -> (String, u64) {
    let done = from(peer, request);
    assert_eq!(done.number, 0);
    (result(&done.answer), done.place)
}

fn vendor() -> Vec<u8> {
    number(266, 10_415)
}

fn application() -> Vec<u8> {
    number(258, 16_777_216)
}

/// An assignment of Alice's with these members in its 260, and these AVPs before that and behind all.
fn assignment(members: &[Vec<u8>], before: &[Vec<u8>], behind: &[Vec<u8>]) -> Vec<u8> {
    let mut avps = vec![avp(263, b"s;1")];
    avps.extend_from_slice(before);
    avps.extend([avp(260, &members.concat()), number(277, 1), avp(264, b"cscf.isle"), avp(296, b"isle")]);
    avps.extend([avp(283, b"isle"), avp(601, b"sip:alice@isle"), avp(602, b"sip:s1"), number(614, 1), number(624, 0)]);
    avps.extend_from_slice(behind);
    message(301, &avps)
}

// ---- refusal 12

#[test]
fn a_peer_edition_but_the_two_is_refused() {
    let request = assignment(&[vendor(), application()], &[], &[]);
    for peer in [OLDER, NEWER] {
        assert_eq!(told(peer, &request), is("B2001", 0));
    }
    let near = [0, 1, 2, 3, 3587, 3589, 6732, 6734, 5000, 33_588, u32::MAX, OLDER << 16, NEWER.swap_bytes()];
    let far = (16..32).flat_map(|bit| [OLDER | 1 << bit, NEWER | 1 << bit]);
    for peer in near.into_iter().chain(far) {
        let done = from(peer, &request);
        assert_eq!((done.number, done.place, done.value), (12, 0, 0), "{peer}");
        assert_eq!(done.table, isle_of_alice());
    }
}

#[test]
fn it_goes_before_all_others() {
    let (table, request) = (isle_of_alice(), assignment(&[vendor(), application()], &[], &[]));
    let (mut bad_table, bad_vectors, mut answer) = (table.clone(), vec![0; 512], request.clone());
    bad_table[600] ^= 1;
    answer[4] &= 0x7F;
    let none: &[u8] = &[];
    for (number, request, table, vectors, room) in [
        (1, &request[..], &table, none, ROOM - 1),
        (2, &request[..19], &table, none, ROOM),
        (2, none, &table, none, ROOM),
        (3, &request[..40], &table, none, ROOM),
        (4, &answer[..], &table, none, ROOM),
        (5, &request[..], &bad_table, none, ROOM),
        (6, &request[..], &table, &bad_vectors[..], ROOM),
        (1, none, &bad_table, &bad_vectors[..], 0),
    ] {
        let call = |peer| call_stating(Stated { peer, ..Stated::OLDER }, request, table, b"", vectors, room);
        for peer in [OLDER, NEWER] {
            assert_eq!(call(peer).number, number);
        }
        let done = call(6734);
        assert_eq!((done.number, done.place, done.value), (12, 0, 0), "over {number}");
        assert!(done.table == *table && done.vectors == vectors);
    }
}

// ---- 260

#[test]
fn several_vendor_ids_are_too_many_under_the_newer_alone() {
    let (v, a) = (vendor(), application());
    let unlike = flagged(v.clone(), 0x20);
    for members in [
        vec![v.clone(), v.clone(), a.clone()],
        vec![v.clone(), a.clone(), v.clone()],
        vec![a.clone(), v.clone(), v.clone()],
        vec![v.clone(), v.clone(), v.clone(), a.clone()],
        vec![v.clone(), unlike, a.clone()],
        [vec![v.clone(); 60], vec![a.clone()]].concat(),
    ] {
        let request = assignment(&members, &[], &[]);
        assert_eq!(told(OLDER, &request), is("B2001", 0));
        assert_eq!(told(NEWER, &request), is("B5009", PLACE));
        let done = from(NEWER, &request);
        assert_eq!(find(&done.answer, 279), Some(avp(260, &members.concat())), "the whole 260");
        assert_eq!(done.table, isle_of_alice());
    }
    for members in [vec![v.clone(), a.clone()], vec![a, v]] {
        let request = assignment(&members, &[], &[]);
        assert_eq!(told(NEWER, &request), told(OLDER, &request));
    }
}

#[test]
fn in_every_command_they_are() {
    let (v, a) = (vendor(), application());
    for command in 300..=303 {
        let request = message(command, &[avp(263, b"s;1"), avp(260, &[v.clone(), v.clone(), a.clone()].concat())]);
        assert_eq!(told(OLDER, &request), is("B5005", 0), "{command}");
        assert_eq!(told(NEWER, &request), is("B5009", PLACE), "{command}");
    }
}

#[test]
fn with_another_fault_in_260_both_say_so() {
    let (v, a) = (vendor(), application());
    let with_v = |vendor: u32| {
        let mut member = 266u32.to_be_bytes().to_vec();
        member.extend((0xC0u32 << 24 | 16).to_be_bytes());
        member.extend([vendor.to_be_bytes(), 10_415u32.to_be_bytes()].concat());
        member
    };
    for members in [
        vec![v.clone(), v.clone()],
        vec![v.clone(), v.clone(), a.clone(), a.clone()],
        vec![v.clone(), number(266, 50), a.clone()],
        vec![number(266, 50), v.clone(), a.clone()],
        vec![number(266, 50), number(266, 50), a.clone()],
        vec![v.clone(), v.clone(), number(258, 1)],
        vec![v.clone(), v.clone(), a.clone(), number(259, 16_777_216)],
        vec![v.clone(), flagged(v.clone(), 0x41), a.clone()],
        vec![v.clone(), with_v(10_415), a.clone()],
        vec![v.clone(), with_v(0), a.clone()],
        vec![v.clone(), avp(266, &[0, 0, 0x28, 0xAF, 0]), a.clone()],
        vec![v.clone(), v.clone(), a.clone(), vec![0; 4]],
        vec![a.clone()],
        vec![a, vec![0, 0, 1]],
        vec![],
    ] {
        let request = assignment(&members, &[], &[]);
        for peer in [OLDER, NEWER] {
            assert_eq!(told(peer, &request), is("B5004", PLACE), "{members:?}");
        }
    }
}

/// By position as ever; of one AVP after reserved flags, and of a second 260 it is the second.
#[test]
fn it_stands_among_the_rules_as_content_does() {
    let several = [vendor(), vendor(), application()];
    let group = avp(260, &several.concat());
    let (unknown, cut) = (number(633, 0), bytes("00000259"));
    for (before, behind, older, newer) in [
        (vec![unknown.clone()], vec![], is("B5001", 32), is("B5001", 32)),
        (vec![], vec![unknown], is("B5001", 212), is("B5009", 32)),
        (vec![], vec![cut], is("B5014", 212), is("B5009", 32)),
        (vec![], vec![group.clone()], is("B5009", 212), is("B5009", 32)),
        (vec![avp(260, &[vendor(), application()].concat())], vec![], is("B5009", 64), is("B5009", 64)),
    ] {
        let request = assignment(&several, &before, &behind);
        assert_eq!((told(OLDER, &request), told(NEWER, &request)), (older, newer));
    }
    let reserved = message(301, &[avp(263, b"s;1"), flagged(group.clone(), 0x44)]);
    assert_eq!(told(NEWER, &reserved), is("B3009", PLACE));
    let first = message(301, std::slice::from_ref(&group));
    assert_eq!(told(NEWER, &first), is("B5005", 0));
    // Nothing of the others is there: it goes before what is missing.
    assert_eq!(told(NEWER, &message(301, &[avp(263, b"s;1"), group])), is("B5009", PLACE));
}

// ---- nothing else

fn is_small(case: &Case) -> bool {
    [Slice::Table, Slice::Vectors].iter().all(|slice| case.held(*slice).len() <= 60 * 512)
}

/// The same call from another peer.
fn from_peer(case: &Case, peer: u32) -> Case {
    Case { numbers: Stated { peer, ..case.stated() }.numbers(), ..case.clone() }
}

/// Whether some 260 at the top of a request has several 266, by bytes alone.
fn has_several(request: &[u8]) -> bool {
    let all = Message(request).avps().sound(Slip::NONE);
    let groups = all.iter().filter(|avp| avp.code == 260 && avp.vendor.is_none());
    groups.into_iter().any(|group| group.data.chunks(12).filter(|it| it.starts_with(&[0, 0, 1, 10])).count() > 1)
}

/// A message with just one is treated alike under both, refusals included; and several are B5009 of 260 or make no difference.
#[test]
fn with_one_vendor_id_the_editions_are_alike() {
    let (mut alike, mut several, mut apart) = (0, 0, 0);
    for number in 0..900 {
        let case = make(Stream::Calls, 71, number).case;
        if !is_small(&case) {
            continue;
        }
        let (older, newer) = (from_peer(&case, OLDER), from_peer(&case, NEWER));
        let (of_older, of_newer) = (older.outcome(Slip::NONE), newer.outcome(Slip::NONE));
        let request = case.held(Slice::Request);
        let whole = request.len() >= 20;
        if !(whole && has_several(&request)) {
            alike += 1;
            assert!(of_older == of_newer, "case {number}");
            continue;
        }
        several += 1;
        if of_older != of_newer {
            apart += 1;
            let (number, place, length) = of_newer.parts();
            let answer = &newer.after(&of_newer, Slice::Buffer).unwrap()[..length as usize];
            assert_eq!((number, result(answer).as_str()), (0, "B5009"));
            assert!(find(answer, 279).unwrap().starts_with(&[0, 0, 1, 4]));
            assert_eq!(request[place as usize..][..4], [0, 0, 1, 4]);
        }
    }
    assert!(alike > 400 && several > 20 && apart > 10, "{alike} {several} {apart}");
}

// ---- the report

struct Run {
    word: u64,
    words: Vec<u64>,
    table: Vec<u8>,
}

fn run(peer: u32, requests: &[u8], room: usize, area: usize) -> Run {
    let (mut table, mut buffer, mut area) = (isle_of_alice(), vec![0xA5; room], vec![0; area]);
    let lent = Lent {
        requests,
        table: &mut table,
        profile: b"",
        vectors: &mut [],
        buffer: &mut buffer,
        report: &mut area,
        stated: Stated { peer, ..Stated::OLDER },
    };
    let word = report(lent, Slip::NONE).0;
    let words = area.chunks(8).map(|word| word.iter().fold(0, |sum, byte| sum << 8 | u64::from(*byte))).collect();
    Run { word, words, table }
}

/// Words 0 to 19: read, stopped, altered, largest, answered, and the refusals by their numbers.
fn front(pairs: &[(usize, u64)]) -> Vec<u64> {
    (0..20).map(|at| pairs.iter().find(|(it, _)| *it == at).map_or(0, |(_, word)| *word)).collect()
}

#[test]
fn a_report_has_one_edition_for_all() {
    let one = assignment(&[vendor(), application()], &[], &[]);
    let several = assignment(&[vendor(), vendor(), application()], &[], &[]);
    let file = [several.clone(), one, message(304, &[]), several].concat();
    let cell = |row: usize, column: usize| 20 + 25 * row + column;
    let older = run(OLDER, &file, ROOM, 1_160);
    assert_eq!((older.word, older.words[cell(1, 0)], older.words[cell(1, 9)]), (0, 3, 0));
    let newer = run(NEWER, &file, ROOM, 1_160);
    assert_eq!((newer.word, newer.words[cell(1, 0)], newer.words[cell(1, 9)]), (0, 1, 2));
    assert_eq!((older.words[cell(4, 1)], newer.words[cell(4, 1)]), (1, 1));
}

#[test]
fn under_an_unknown_edition_each_request_counts_under_12() {
    let one = assignment(&[vendor(), application()], &[], &[]);
    let file = [one.clone(), message(304, &[]), one].concat();
    let length = file.len() as u64;
    for room in [ROOM, 0] {
        let done = run(6734, &file, room, 1_160);
        assert_eq!((done.word, &done.words[..20]), (0, &front(&[(0, 3), (1, length), (16, 3)])[..]));
        assert!(done.words[20..].iter().all(|word| *word == 0) && done.table == isle_of_alice());
    }
    let done = run(0, &[&file[..], &[1, 0, 0]].concat(), ROOM, 1_160);
    assert_eq!((done.word, &done.words[..20]), (7 << 48, &front(&[(0, 3), (1, length), (16, 3)])[..]));
    assert_eq!(run(0, &[], ROOM, 1_160).word, 0);
    assert_eq!(run(0, &file, ROOM, 1_159).word, 15 << 48);
}

/// It takes two slices and no number: whatever the peer, the same table is sound.
#[test]
fn the_table_check_takes_no_peer() {
    let case = Case::check(0, isle_of_alice(), vec![]);
    assert_eq!((case.numbers.len(), check(&isle_of_alice(), 0)), (0, Ok(1)));
}
