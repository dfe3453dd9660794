//! The report as document 02 has it: how the file is cut, what is counted where, how it ends and what it leaves.

mod common;

use common::*;
use reference::cases::Slice;
use reference::gen::model::RecordModel;
use reference::gen::{make, Stream};
use reference::report::{report, Lent};
use reference::serve::{parts, serve};
use reference::slip::Slip;
use reference::stated::Stated;
use std::collections::BTreeMap;

const ROOM: usize = 36_864;
const AREA: usize = 1_160;

/// What a report left.
struct Run {
    word: u64,
    table: Vec<u8>,
    vectors: Vec<u8>,
    buffer: Vec<u8>,
    area: Vec<u8>,
}

impl Run {
    /// The report's words, big-endian.
    fn words(&self) -> Vec<u64> {
        assert!(self.area.len() >= AREA);
        self.area[..AREA].chunks(8).map(|word| u64::from_be_bytes(word.try_into().unwrap())).collect()
    }

    /// The words that are not 0, by their number.
    fn told(&self) -> BTreeMap<usize, u64> {
        self.words().into_iter().enumerate().filter(|(_, word)| *word != 0).collect()
    }
}

fn run(requests: &[u8], table: &[u8], vectors: &[u8], room: usize, area: usize) -> Run {
    run_over(requests, table, b"", vectors, vec![0xA5; room], area)
}

fn run_over(requests: &[u8], table: &[u8], profile: &[u8], vectors: &[u8], mut buffer: Vec<u8>, area: usize) -> Run {
    let (mut table, mut vectors, mut area) = (table.to_vec(), vectors.to_vec(), vec![0x5A; area]);
    let lent = Lent {
        requests,
        table: &mut table,
        profile,
        vectors: &mut vectors,
        buffer: &mut buffer,
        report: &mut area,
        stated: Stated::OLDER,
    };
    let (word, _) = report(lent, Slip::NONE);
    Run { word, table, vectors, buffer, area }
}

fn plain(requests: &[u8]) -> Run {
    run(requests, &people(), &vectors(), ROOM, AREA)
}

fn alice(state: u8, bits: u8, server_name: &str) -> RecordModel {
    let server_name = server_name.as_bytes().to_vec();
    RecordModel { state, bits, server_name, ..record("sip:alice@isle", "alice@isle") }
}

/// Alice, who was never registered, and Bob, who is.
fn people() -> Vec<u8> {
    let bob = RecordModel { state: 1, server_name: b"sip:s1".to_vec(), ..record("sip:bob@isle", "bob@isle") };
    isle(vec![alice(0, 0, ""), bob]).encode()
}

fn vectors() -> Vec<u8> {
    [vector(0, "alice@isle", 1, b"xres"), vector(0, "bob@isle", 2, b"xres"), vector(0, "bob@isle", 3, b"xres")].concat()
}

fn lir(public: &str) -> Vec<u8> {
    request(302, &[avp(601, public.as_bytes())])
}

/// The length field set to so much.
fn told_length(mut request: Vec<u8>, length: usize) -> Vec<u8> {
    request[1..4].copy_from_slice(&(length as u32).to_be_bytes()[1..]);
    request
}

/// So many bytes more, and counted.
fn longer(request: &[u8], by: usize) -> Vec<u8> {
    told_length([request, &vec![0; by]].concat(), request.len() + by)
}

fn with_byte(mut request: Vec<u8>, at: usize, byte: u8) -> Vec<u8> {
    request[at] = byte;
    request
}

fn answer_to(request: &[u8]) -> Vec<u8> {
    call_with_vectors(request, &people(), &vectors()).answer
}

#[test]
fn every_request_is_counted_once() {
    let uar = request(300, &[avp(1, b"alice@isle"), avp(601, b"sip:alice@isle"), avp(600, b"isle")]);
    let asked = |scheme: &[u8], number_asked| {
        let own = [avp(1, b"bob@isle"), avp(601, b"sip:bob@isle"), item(scheme), number(607, number_asked)];
        request(303, &[&own[..], &[avp(602, b"sip:s1")]].concat())
    };
    let requests = [
        message(302, &[]),                       // B5005 of 302
        uar.clone(),                             // X2001 of 300
        sar("sip:alice@isle", b"sip:s1", 1),     // B2001 of 301: a record altered
        sar("sip:alice@isle", b"sip:s1", 1),     // B2001 of 301: rewritten to what it was
        uar,                                     // X2002 of 300, since the table is carried along
        lir("sip:bob@isle"),                     // B2001 of 302
        lir("sip:nobody@isle"),                  // X5001 of 302
        asked(b"Digest-AKAv1-MD5", 1),           // B2001 of 303: no record altered, a vector marked
        asked(b"Digest-AKAv1-MD5", 9),           // B2001 of 303
        asked(b"Digest-AKAv1-MD5", 1),           // B5012 of 303, since the vectors are carried along
        asked(b"MD5", 1),                        // X5006 of 303
        message(304, &[]),                       // B3001 of another command
        message(306, &[]),                       // B3001 of another command
        with_byte(message(303, &[]), 0, 2),      // B5011 of 303
        with_byte(message(301, &[]), 4, 0xA0),   // B3008 of 301
        with_byte(message(300, &[]), 11, 1),     // B3007 of 300
        with_byte(message(304, &[]), 0, 0),      // B5011 of another command
        with_byte(lir("sip:bob@isle"), 4, 0x40), // refused 4
        longer(&lir("sip:bob@isle"), 1),         // refused 3
        longer(&lir("sip:bob@isle"), 3),         // refused 3
        longer(&lir("sip:bob@isle"), 16_384),    // refused 2
        longer(&lir("sip:bob@isle"), 65_536),    // refused 2
        request(302, &[number(633, 0)]),         // B5001 of 302
        sar("sip:bob@isle", b"sip:s1", 4),       // B2001 of 301: a record altered
        sar("sip:alice@isle", b"sip:s1", 4),     // B2001 of 301: a record altered again
    ];
    let file = requests.concat();
    let done = plain(&file);
    assert_eq!(done.word, 0);
    let cell = |row: usize, column: usize| 20 + 25 * row + column;
    // Header, 263, 260, 268, 277, 264, 296, then 1, 601, 607 and one item.
    let largest = 20 + 12 + 32 + 12 + 12 + 16 + 12 + 16 + 24 + 16 + 172;
    let expected = [
        (0, 25),
        (1, file.len() as u64),
        (2, 3),
        (3, largest),
        (4, 20),
        (4 + 2, 2),
        (4 + 3, 2),
        (4 + 4, 1),
        (cell(0, 2), 1),
        (cell(0, 13), 1),
        (cell(0, 14), 1),
        (cell(1, 0), 4),
        (cell(1, 3), 1),
        (cell(2, 0), 1),
        (cell(2, 5), 1),
        (cell(2, 8), 1),
        (cell(2, 17), 1),
        (cell(3, 0), 2),
        (cell(3, 10), 1),
        (cell(3, 11), 1),
        (cell(3, 22), 1),
        (cell(4, 1), 2),
        (cell(4, 10), 1),
    ];
    assert_eq!(done.told(), expected.into_iter().collect());
    let used: Vec<u8> = done.vectors.chunks(512).map(|block| block[1]).collect();
    assert_eq!(used, [0, 1, 1]);
    let bob = RecordModel { state: 0, ..record("sip:bob@isle", "bob@isle") };
    assert!(done.table == isle(vec![alice(0, 0, ""), bob]).encode());
}

/// By the numbers that the agreed reading gives the columns.
#[test]
fn the_columns_in_their_order() {
    let base = [2001, 3001, 3007, 3008, 3009, 5001, 5003, 5004, 5005, 5009, 5011, 5012, 5014].map(|n| format!("B{n}"));
    let experimental =
        [2001, 2002, 2003, 2004, 5001, 5002, 5003, 5004, 5005, 5006, 5007, 5011].map(|n| format!("X{n}"));
    let columns: Vec<String> = reference::report::COLUMNS.iter().map(|code| code.to_string()).collect();
    assert_eq!(columns, [&base[..], &experimental].concat());
    assert_eq!(reference::report::LEAST_REPORT, AREA);
}

#[test]
fn what_ends_a_report() {
    let one = lir("sip:bob@isle");
    let head = one.len() as u64;
    let broken: Vec<Vec<u8>> = vec![
        one[..1].to_vec(),
        one[..3].to_vec(),
        one[..4].to_vec(),
        one[..19].to_vec(),
        told_length(one[..19].to_vec(), 19),
        told_length(one.clone(), 0),
        told_length(one.clone(), 4),
        told_length(one.clone(), 19),
        [told_length(one.clone(), 0), one.clone()].concat(),
        one[..20].to_vec(),
        one[..one.len() - 1].to_vec(),
        told_length(one.clone(), one.len() + 1),
        told_length(one.clone(), one.len() + 65_536),
        told_length(one.clone(), 0xFF_FFFF),
        with_byte(one[..8].to_vec(), 0, 2),
    ];
    for tail in broken {
        for before in [0, 1, 3] {
            let done = plain(&[one.repeat(before), tail.clone()].concat());
            assert_eq!(done.word, 7 << 48, "{tail:?}");
            let words = done.words();
            assert_eq!(words[..5], [before as u64, before as u64 * head, 0, words[3], before as u64], "{tail:?}");
            // Slot 7 is no count of ends.
            assert_eq!(words[4 + 7], 0);
        }
    }
    for before in [0, 1, 3] {
        let done = plain(&one.repeat(before));
        assert_eq!((done.word, done.words()[1]), (0, before as u64 * head));
    }
    // 20 bytes are a request, and a piece may end with the file.
    let done = plain(&message(302, &[]));
    assert_eq!((done.word, done.words()[0], done.words()[1]), (0, 1, 20));
}

#[test]
fn a_piece_is_cut_by_its_length_alone() {
    let one = lir("sip:bob@isle");
    // An odd length moves the next begin by as much; another version does not matter.
    let file =
        [longer(&one, 1), longer(&one, 2), with_byte(one.clone(), 0, 255), longer(&one, 3), one.clone()].concat();
    let done = plain(&file);
    assert_eq!((done.word, done.words()[1]), (0, file.len() as u64));
    assert_eq!((done.words()[0], done.words()[4], done.words()[4 + 3]), (5, 2, 3));
    // A length inside of a request cuts it, and its rest is what comes next: the Session-Id's code 263 is then a length.
    assert_eq!(one.len(), 144);
    let done = plain(&[told_length(one.clone(), 20), one].concat());
    assert_eq!((done.word, done.words()[1]), (7 << 48, 20 + 263));
    assert_eq!((done.words()[0], done.words()[4], done.words()[4 + 3]), (2, 1, 1));
}

/// Over the limit goes before an odd length, and that before the R bit; the longest piece of all is read over.
#[test]
fn a_piece_is_refused_by_the_first_of_its_refusals() {
    let one = lir("sip:bob@isle");
    let answer = with_byte(one.clone(), 4, 0);
    let longest = longer(&answer, 0xFF_FFFF - answer.len());
    for (piece, number) in [
        (longest.clone(), 2),
        (longer(&one, 16_385 - one.len()), 2),
        (longer(&answer, 16_383 - one.len()), 3),
        (longer(&answer, 1), 3),
        (longer(&answer, 16_384 - one.len()), 4),
        (answer, 4),
    ] {
        let done = plain(&[piece.clone(), one.clone()].concat());
        let stop = (piece.len() + one.len()) as u64;
        let told = BTreeMap::from([(0, 2), (1, stop), (3, done.words()[3]), (4, 1), (4 + number, 1), (20 + 50, 1)]);
        assert_eq!((done.word, done.told()), (0, told), "{number}");
    }
    // 16,384 bytes are a request.
    assert_eq!(plain(&longer(&one, 16_384 - one.len())).words()[4], 1);
    let done = plain(&longest[..longest.len() - 1]);
    assert_eq!((done.word, done.told()), (7 << 48, BTreeMap::new()));
}

#[test]
fn with_7_stands_what_the_requests_before_left() {
    let ask = mar("alice@isle", "sip:alice@isle", 1, b"sip:s1");
    let done = plain(&[ask.clone(), vec![1, 2, 3]].concat());
    assert_eq!(done.word, 7 << 48);
    assert_eq!(done.words()[..5], [1, ask.len() as u64, 1, done.words()[3], 1]);
    let called = call_with_vectors(&ask, &people(), &vectors());
    assert!(done.table == called.table && done.vectors == called.vectors && done.table != people());
    assert_eq!(done.buffer[..called.answer.len()], called.answer[..]);
    assert!(done.buffer[called.answer.len()..].iter().all(|byte| *byte == 0xA5));
}

#[test]
fn a_report_area_too_short_is_15_and_nothing_is_run() {
    let ask = mar("alice@isle", "sip:alice@isle", 1, b"sip:s1");
    for file in [ask.clone(), vec![], vec![1], [ask.clone(), vec![1]].concat()] {
        for area in [0, 8, 1_152, 1_159] {
            let done = run(&file, &people(), &vectors(), ROOM, area);
            assert_eq!(done.word, 15 << 48);
            assert!(done.table == people() && done.vectors == vectors());
            assert!(done.buffer.iter().all(|byte| *byte == 0xA5) && done.area.iter().all(|byte| *byte == 0x5A));
        }
    }
    // 15 goes before everything, also before a short buffer and unsound files.
    assert_eq!(run(&ask, b"", b"x", 0, 1_159).word, 15 << 48);
    let done = run(&ask, &people(), &vectors(), ROOM, 1_200);
    assert_eq!((done.word, done.words()[0]), (0, 1));
    assert!(done.area[AREA..].iter().all(|byte| *byte == 0x5A));
}

#[test]
fn what_refuses_every_request_does_not_refuse_the_report() {
    let one = lir("sip:bob@isle");
    let file = [one.clone(), with_byte(one.clone(), 4, 0), longer(&one, 2), longer(&one, 16_384), one].concat();
    let mut unsound = people();
    unsound[600] ^= 1;
    let counts = |done: Run| {
        assert_eq!((done.word, done.words()[0], done.words()[2], done.words()[3]), (0, 5, 0, 0));
        done.words()[4..11].to_vec()
    };
    assert_eq!(counts(run(&file, &people(), &vectors(), ROOM - 1, AREA)), [0, 5, 0, 0, 0, 0, 0]);
    assert_eq!(counts(run(&file, &unsound, &vectors(), ROOM, AREA)), [0, 0, 1, 1, 1, 2, 0]);
    assert_eq!(counts(run(&file, &people(), b"x", ROOM, AREA)), [0, 0, 1, 1, 1, 0, 2]);
    assert_eq!(counts(run(&file, &unsound, b"x", ROOM, AREA)), [0, 0, 1, 1, 1, 2, 0]);
    assert_eq!(counts(run(&file, &unsound, b"x", 0, AREA)), [0, 5, 0, 0, 0, 0, 0]);
    // Nor does it matter where there is no request, or where the file is broken.
    let done = run(b"", &unsound, b"x", 0, AREA);
    assert_eq!((done.word, done.told()), (0, BTreeMap::new()));
    let done = run(&[&file[..], &[1, 0, 0]].concat(), &unsound, b"x", 0, AREA + 9);
    let told = BTreeMap::from([(0, 5), (1, file.len() as u64), (5, 5)]);
    assert_eq!((done.word, done.told()), (7 << 48, told));
    assert!(done.table == unsound && done.vectors == b"x" && done.area[AREA..] == [0x5A; 9]);
}

#[test]
fn the_largest_answer_and_the_last_ones_in_the_buffer() {
    let (long, short) = (lir("sip:bob@isle"), message(302, &[]));
    let (longest, last) = (answer_to(&long), answer_to(&short));
    assert!(longest.len() > last.len());
    let done = plain(&[long, short].concat());
    assert_eq!(done.words()[3], longest.len() as u64);
    // The last answer, then what it did not write over, then what came.
    assert_eq!(done.buffer[..last.len()], last[..]);
    assert_eq!(done.buffer[last.len()..longest.len()], longest[last.len()..]);
    assert!(done.buffer[longest.len()..].iter().all(|byte| *byte == 0xA5));
    // The place of an AVP at fault is no part of an answer's length.
    let faulty = request(302, &[number(633, 0)]);
    assert_eq!(plain(&faulty).words()[3], answer_to(&faulty).len() as u64);
    assert_eq!(plain(b"").words()[..5], [0; 5]);
}

#[test]
fn records_altered_are_counted_for_each_request() {
    let publics = ["a", "b", "c"];
    let three = |state, name: &str| {
        let one = |public: &&str| RecordModel { public: public.as_bytes().to_vec(), ..alice(state, 0, name) };
        isle(publics.iter().map(one).collect()).encode()
    };
    let removal = |named: &[&str]| {
        let mut own: Vec<Vec<u8>> = named.iter().map(|public| avp(601, public.as_bytes())).collect();
        own.extend([avp(602, b"s"), number(614, 5), number(624, 1)]);
        request(301, &own)
    };
    let altered = |requests: &[Vec<u8>]| run(&requests.concat(), &three(1, "s"), b"", ROOM, AREA).words()[2];
    assert_eq!(altered(&[removal(&publics)]), 3);
    assert_eq!(altered(&[removal(&["a", "c"])]), 2);
    assert_eq!(altered(&[removal(&["a", "a", "c", "a"])]), 2);
    assert_eq!(altered(&[removal(&["a"]), removal(&["a"])]), 1);
    assert_eq!(altered(&[sar("a", b"s", 2), sar("b", b"s", 1)]), 0);
    // A removal that fails leaves all; so does one of all records, the second time.
    assert_eq!(altered(&[removal(&["a", "b", "d"])]), 0);
    assert_eq!(altered(&[removal(&publics), removal(&publics)]), 3);
    assert_eq!(altered(&[removal(&["a", "b"]), sar("a", b"s", 1), sar("a", b"s", 1), removal(&["a", "c"])]), 5);
}

/// A file of some hundred requests: the counts have more than 8 bits.
#[test]
fn counts_pass_a_byte() {
    let done = plain(&message(302, &[]).repeat(300));
    assert_eq!(done.told(), BTreeMap::from([(0, 300), (1, 6000), (3, 120), (4, 300), (20 + 50 + 8, 300)]));
}

/// A report of two files, the second over what the first left, is that of both laid end to end.
#[test]
fn two_reports_in_turn_are_one() {
    let mut tried = 0;
    for number in 0..100 {
        let case = make(Stream::Reports, 32, number).case;
        let held = |slice| case.held(slice).into_owned();
        let (requests, profile) = (held(Slice::Requests), held(Slice::Profile));
        let (table, vectors, room) = (held(Slice::Table), held(Slice::Vectors), held(Slice::Buffer).len());
        if requests.len() < 20 || requests.len() > 30_000 || table.len() > 100 * 512 {
            continue;
        }
        let cut = u32::from_be_bytes([0, requests[1], requests[2], requests[3]]) as usize;
        if cut < 20 || cut > requests.len() {
            continue;
        }
        let whole = run_over(&requests, &table, &profile, &vectors, vec![0xA5; room], AREA);
        let first = run_over(&requests[..cut], &table, &profile, &vectors, vec![0xA5; room], AREA);
        let then = run_over(&requests[cut..], &first.table, &profile, &first.vectors, first.buffer.clone(), AREA);
        assert_eq!((first.word, then.word), (0, whole.word), "case {number}");
        for (at, ((one, other), both)) in first.words().iter().zip(then.words()).zip(whole.words()).enumerate() {
            assert_eq!(if at == 3 { *one.max(&other) } else { one + other }, both, "case {number}, word {at}");
        }
        assert!(then.table == whole.table && then.vectors == whole.vectors && then.buffer == whole.buffer);
        tried += 1;
    }
    assert!(tried > 40, "{tried}");
}

/// Counted again from the answers' bytes, one call after the other.
#[test]
fn the_numbers_are_those_of_the_requests_in_turn() {
    let (mut whole, mut broken, mut refused) = (0, 0, 0);
    for number in 0..150 {
        let case = make(Stream::Reports, 31, number).case;
        let held = |slice| case.held(slice).into_owned();
        let (requests, profile, area) = (held(Slice::Requests), held(Slice::Profile), held(Slice::Report));
        let (mut table, mut vectors, mut buffer) = (held(Slice::Table), held(Slice::Vectors), held(Slice::Buffer));
        if requests.len() > 30_000 || table.len() > 100 * 512 {
            continue;
        }
        let outcome = case.outcome(Slip::NONE);
        let after = |slice| case.after(&outcome, slice).unwrap();
        if area.len() < AREA {
            refused += 1;
            assert_eq!(outcome.word, 15 << 48);
            assert!(outcome.changes.iter().all(|change| change.bytes.is_empty()));
            continue;
        }
        let mut words = vec![0u64; 145];
        let mut at = 0;
        while let Some(head) = requests.get(at..at + 4) {
            let length = u32::from_be_bytes([0, head[1], head[2], head[3]]) as usize;
            if length < 20 || length > requests.len() - at {
                break;
            }
            let piece = &requests[at..at + length];
            at += length;
            let before = table.clone();
            let (word, _) = serve(piece, &mut table, &profile, &mut vectors, &mut buffer, case.stated(), Slip::NONE);
            words[0] += 1;
            words[2] += before.chunks(512).zip(table.chunks(512)).filter(|(old, new)| old != new).count() as u64;
            let (number, _, value) = parts(word);
            words[4 + number as usize] += 1;
            if number == 0 {
                words[3] = words[3].max(value);
                let command = u32::from_be_bytes([0, piece[5], piece[6], piece[7]]) as usize;
                let row = if (300..=303).contains(&command) { command - 300 } else { 4 };
                let said = result(&buffer[..value as usize]);
                let column = reference::report::COLUMNS.iter().position(|code| code.to_string() == said).unwrap();
                words[20 + 25 * row + column] += 1;
            }
        }
        words[1] = at as u64;
        let ends = at == requests.len();
        assert_eq!(outcome.word, if ends { 0 } else { 7 << 48 }, "case {number}");
        let told: Vec<u8> = words.iter().flat_map(|word| word.to_be_bytes()).collect();
        let report = after(Slice::Report);
        assert!(report[..AREA] == told[..] && report[AREA..] == area[AREA..], "case {number}");
        assert!(after(Slice::Table) == table && after(Slice::Vectors) == vectors, "case {number}");
        assert!(after(Slice::Buffer) == buffer, "case {number}");
        // The rows and the refusals together are the requests read.
        assert_eq!(words[20..].iter().sum::<u64>(), words[4], "case {number}");
        assert_eq!(words[4..20].iter().sum::<u64>(), words[0], "case {number}");
        whole += ends as u32;
        broken += !ends as u32;
    }
    assert!(whole > 30 && broken > 30 && refused > 2, "{whole} {broken} {refused}");
}
