//! The row: as many decisions, each over what the one before left, with their answers and words; where it stops, and its own word.

mod common;

use common::*;
use reference::cases::{Case, Slice};
use reference::gen::model::RecordModel;
use reference::gen::{make, Stream};
use reference::refuse::LEAST_BUFFER;
use reference::report::{self, word, Numbers, LEAST_REPORT};
use reference::row::{row, Lent};
use reference::serve::{parts, serve};
use reference::slip::Slip;
use reference::stated::Stated;

struct Rowed {
    number: u64,
    flags: u64,
    count: u64,
    answers: Vec<u8>,
    words: Vec<u64>,
    table: Vec<u8>,
    vectors: Vec<u8>,
}

/// A row of an older peer with so many bytes for answers and words; what is past them stays.
fn rowed(requests: &[u8], table: &[u8], vectors: &[u8], answers: usize, words: usize) -> Rowed {
    let (mut table, mut vectors) = (table.to_vec(), vectors.to_vec());
    let (mut answers, mut words) = (vec![0xA5; answers], vec![0xA5; words]);
    let lent = Lent {
        requests,
        table: &mut table,
        profile: b"",
        vectors: &mut vectors,
        answers: &mut answers,
        words: &mut words,
        stated: Stated::OLDER,
    };
    let (number, flags, count) = parts(row(lent, Slip::NONE).0);
    let told: Vec<u64> = words.chunks_exact(8).map(|word| u64::from_be_bytes(word.try_into().unwrap())).collect();
    let told = told[..count as usize].to_vec();
    let written: u64 =
        told.iter().map(|word| parts(*word)).filter(|(number, ..)| *number == 0).map(|(.., it)| it).sum();
    assert!(answers[written as usize..].iter().all(|byte| *byte == 0xA5));
    assert!(words[8 * count as usize..].iter().all(|byte| *byte == 0xA5));
    answers.truncate(written as usize);
    Rowed { number, flags, count, answers, words: told, table, vectors }
}

fn lir() -> Vec<u8> {
    request(302, &[avp(601, b"a")])
}

/// `a` was never registered, `b` is.
fn table() -> Vec<u8> {
    let b = RecordModel { state: 1, server_name: b"s".to_vec(), ..record("b", "p") };
    isle(vec![record("a", "p"), b]).encode()
}

const ROOM: usize = 100_000;

#[test]
fn a_row_is_so_many_decisions() {
    let mut unasked = lir();
    unasked[4] &= 0x7F;
    let faulty = request(302, &[avp(601, b"a"), avp(601, b"b")]);
    let requests = [lir(), sar("a", b"s", 1), unasked.clone(), faulty.clone(), lir()];
    let done = rowed(&requests.concat(), &table(), b"", ROOM, 40);
    let mut now = table();
    let (mut answers, mut words) = (Vec::new(), Vec::new());
    for request in &requests {
        let one = call(request, &now, b"");
        words.push(one.number << 48 | one.place << 32 | one.value);
        answers.extend(one.answer);
        now = one.table;
    }
    assert_eq!((done.number, done.flags, done.count), (0, 1, 5));
    assert!(done.answers == answers && done.words == words && done.table == now);
    // The second LIR finds the name that the SAR stored, the refused one has no bytes, and the fault its place.
    assert_eq!((words[2] >> 48, parts(words[3]).1), (4, faulty.len() as u64 - 16));
    assert!(words[4] != words[0]);
}

#[test]
fn the_files_end_goes_before_a_broken_request_and_that_before_room() {
    let answer = call(&lir(), &table(), b"").answer.len();
    let two = [lir(), lir()].concat();
    for (requests, answers, words, expected) in [
        (vec![], 0, 0, (0, 0)),
        (vec![1, 0, 0], 0, 0, (7, 0)),
        (lir(), 0, 8, (15, 0)),
        (lir(), LEAST_BUFFER - 1, 8, (15, 0)),
        (lir(), LEAST_BUFFER, 7, (15, 0)),
        (lir(), LEAST_BUFFER, 8, (0, 1)),
        (two.clone(), LEAST_BUFFER + answer - 1, 16, (15, 1)),
        (two.clone(), LEAST_BUFFER + answer, 15, (15, 1)),
        (two.clone(), LEAST_BUFFER + answer, 16, (0, 2)),
        ([&two[..], &[1]].concat(), LEAST_BUFFER + answer, 16, (7, 2)),
        ([&two[..], &lir()[..40]].concat(), LEAST_BUFFER + answer, 16, (7, 2)),
        ([&two[..], &lir()[..]].concat(), LEAST_BUFFER + answer, 99, (15, 2)),
        ([&two[..], &[1, 0, 0, 19]].concat(), ROOM, 99, (7, 2)),
    ] {
        let done = rowed(&requests, &table(), b"", answers, words);
        assert_eq!((done.number, done.count), expected, "{answers} {words}");
    }
}

#[test]
fn what_was_done_stays_done() {
    let vectors = vector(0, "p", 1, b"xres");
    let requests = [mar("p", "a", 1, b"s"), lir()[..40].to_vec()].concat();
    let done = rowed(&requests, &table(), &vectors, ROOM, 80);
    assert_eq!((done.number, done.flags, done.count), (7, 3, 1));
    assert!(done.table != table() && done.vectors != vectors);
    assert_eq!(result(&done.answers), "B2001");
}

/// 1 for a record that some request altered, though a later one restored it; 2 for a marked vector.
#[test]
fn the_own_word_tells_what_was_altered() {
    let vectors = [vector(0, "p", 1, b"xres"), vector(0, "p", 2, b"xres")].concat();
    for (requests, flags) in [
        (vec![lir()], 0),
        (vec![sar("a", b"s", 1)], 1),
        (vec![sar("a", b"s", 1), sar("a", b"s", 4)], 1),
        (vec![sar("b", b"s", 1)], 0),
        (vec![sar("b", b"x", 1)], 0),
        (vec![mar("p", "b", 1, b"s")], 2),
        (vec![mar("p", "b", 0, b"s")], 0),
        (vec![mar("p", "b", 1, b"s"), sar("a", b"s", 1), lir()], 3),
        (vec![mar("p", "a", 1, b"s")], 3),
    ] {
        let done = rowed(&requests.concat(), &table(), &vectors, ROOM, 80);
        assert_eq!((done.number, done.flags, done.count), (0, flags, requests.len() as u64));
        if requests.len() == 2 {
            assert!(done.table == table());
        }
    }
}

#[test]
fn refusals_are_told_in_the_words_alone() {
    let requests = [lir(), sar("a", b"s", 1)].concat();
    let mut unsound = table();
    unsound[512 + 8] = 9;
    let done = rowed(&requests, &unsound, b"", LEAST_BUFFER, 16);
    assert_eq!((done.number, done.flags, done.count, done.words), (0, 0, 2, vec![5 << 48 | 1; 2]));
    let done = rowed(&requests, &table(), b"x", LEAST_BUFFER, 16);
    assert_eq!((done.number, done.count, done.words), (0, 2, vec![6 << 48; 2]));
    let case = Case::row(0, requests, [table(), vec![], vec![]], LEAST_BUFFER, 16, Stated { peer: 1, features: 0 });
    let outcome = case.outcome(Slip::NONE);
    assert_eq!(outcome.parts(), (0, 0, 2));
    assert_eq!(case.after(&outcome, Slice::Words).unwrap(), [0, 12, 0, 0, 0, 0, 0, 0].repeat(2));
}

fn cases() -> impl Iterator<Item = Case> {
    let small = |case: &Case| case.held(Slice::Requests).len() < 60_000;
    (0..700).map(|number| make(Stream::Rows, 15, number).case).filter(small)
}

/// Of every case the words, the answers and the files are those of single calls, as far as the row went.
#[test]
fn a_row_of_any_requests_is_so_many_calls() {
    let mut ends = [0; 16];
    for case in cases() {
        let outcome = case.outcome(Slip::NONE);
        let (number, flags, count) = outcome.parts();
        ends[number as usize] += 1;
        let held = |slice| case.held(slice).into_owned();
        let (requests, profile) = (held(Slice::Requests), held(Slice::Profile));
        let (mut table, mut vectors) = (held(Slice::Table), held(Slice::Vectors));
        let (mut answers, mut words) = (held(Slice::Answers), held(Slice::Words));
        let (mut at, mut used, mut told) = (0, 0, 0);
        for n in 0..count as usize {
            let length = u32::from_be_bytes([0, requests[at + 1], requests[at + 2], requests[at + 3]]) as usize;
            let before = (table.clone(), vectors.clone());
            let buffer = &mut answers[used..];
            assert!(buffer.len() >= LEAST_BUFFER);
            let piece = &requests[at..at + length];
            let (word, _) = serve(piece, &mut table, &profile, &mut vectors, buffer, case.stated(), Slip::NONE);
            words[8 * n..][..8].copy_from_slice(&word.to_be_bytes());
            at += length;
            used += if parts(word).0 == 0 { parts(word).2 as usize } else { 0 };
            told |= u64::from(before.0 != table) | u64::from(before.1 != vectors) << 1;
        }
        assert_eq!(flags, told);
        for (slice, expected) in
            [(Slice::Table, table), (Slice::Vectors, vectors), (Slice::Answers, answers), (Slice::Words, words)]
        {
            assert!(case.after(&outcome, slice).unwrap() == expected, "{slice:?}");
        }
        assert_eq!(number == 0, at == requests.len());
    }
    assert!([0, 7, 15].iter().all(|number| ends[*number] > 30), "{ends:?}");
}

/// A report over the same files reads as many requests, and stops as a row does that has room for all.
#[test]
fn a_row_with_room_reads_what_a_report_reads() {
    let mut rows = 0;
    for case in cases() {
        let outcome = case.outcome(Slip::NONE);
        let (number, flags, count) = outcome.parts();
        if number == 15 {
            continue;
        }
        rows += 1;
        let held = |slice| case.held(slice).into_owned();
        let (mut table, mut vectors, mut report) = (held(Slice::Table), held(Slice::Vectors), vec![0; LEAST_REPORT]);
        let lent = report::Lent {
            requests: &held(Slice::Requests),
            table: &mut table,
            profile: &held(Slice::Profile),
            vectors: &mut vectors,
            buffer: &mut vec![0; LEAST_BUFFER],
            report: &mut report,
            stated: case.stated(),
        };
        assert_eq!(report::report(lent, Slip::NONE).0 >> 48, number);
        let Numbers(words) = Numbers::of(&report);
        assert_eq!((words[word::READ], words[word::ALTERED] > 0), (count, flags & 1 == 1));
        assert!(case.after(&outcome, Slice::Table).unwrap() == table);
    }
    assert!(rows > 200, "{rows}");
}
