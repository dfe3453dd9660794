//! Document 02's second stored form: what a sound table of edition 2 is, mixed tables, the moves, and that no answer depends on
//! edition, issue or a set of one.

mod common;

use common::*;
use reference::cases::{Case, Entry, Slice};
use reference::gen::{make, Stream};
use reference::moves::{back, forward, Refusal};
use reference::report;
use reference::rng::Rng;
use reference::serve::serve;
use reference::slip::Slip;
use reference::table::check;
use reference::vectors;

const ISSUES: [u32; 5] = [0, 1, 0x0102_0304, 0x8000_0000, u32::MAX];

/// Three records with these set numbers.
fn second(issue: u32, sets: [u16; 3]) -> Vec<u8> {
    let blocks = [block_of(1, "a", sets[0], issue), block_of(2, "b", sets[1], issue), block_of(3, "c", sets[2], issue)];
    [header_of(3, issue), blocks.concat()].concat()
}

/// The same in edition 1.
fn first() -> Vec<u8> {
    with_form(&second(0, [0; 3]), 0..4, 1, 0)
}

/// These blocks with another edition and issue, and right check words.
fn with_form(table: &[u8], blocks: std::ops::Range<usize>, edition: u8, issue: u32) -> Vec<u8> {
    let mut table = table.to_vec();
    for block in table.chunks_mut(512).take(blocks.end).skip(blocks.start) {
        block[1] = edition;
        block[408..412].copy_from_slice(&issue.to_be_bytes());
        let right = summed(block.to_vec());
        block.copy_from_slice(&right);
    }
    table
}

/// A byte set in a block, and its check word right.
fn with(table: &[u8], block: usize, at: usize, byte: u8) -> Vec<u8> {
    let mut table = table.to_vec();
    table[block * 512 + at] = byte;
    let right = summed(table[block * 512..][..512].to_vec());
    table[block * 512..][..512].copy_from_slice(&right);
    table
}

fn moved_forward(table: &[u8], profile: usize, issue: u32) -> (Result<u32, Refusal>, Vec<u8>) {
    let mut table = table.to_vec();
    (forward(&mut table, profile, issue, Slip::NONE), table)
}

fn moved_back(table: &[u8], profile: usize) -> (Result<u32, Refusal>, Vec<u8>) {
    let mut table = table.to_vec();
    (back(&mut table, profile, Slip::NONE), table)
}

#[test]
fn any_issue_and_any_set_is_sound() {
    for issue in ISSUES {
        for set in [0, 1, 2, 255, 256, 65_535] {
            assert_eq!(check(&second(issue, [set, 0, 1]), 0), Ok(3), "{issue} {set}");
        }
        assert_eq!(check(&header_of(0, issue), 0), Ok(0));
    }
    assert_eq!(check(&first(), 0), Ok(3));
}

/// 400 to 407 and 412 to 507 of the header, 412 to 507 of a record; in edition 1 also what edition 2 names.
#[test]
fn bytes_that_the_edition_does_not_name_are_zero() {
    let (first, second) = (first(), second(5, [0; 3]));
    for block in 0..4 {
        // Of a record 400 to 405 are the profile part.
        for at in if block == 0 { 400..508 } else { 406..508 } {
            assert_eq!(check(&with(&first, block, at, 1), 0), Err(block as u32), "block {block}, byte {at}");
            let expected = match at {
                408..=411 => continue,
                406 | 407 if block > 0 => Ok(3),
                _ => Err(block as u32),
            };
            assert_eq!(check(&with(&second, block, at, 1), 0), expected, "block {block}, byte {at}");
        }
    }
}

#[test]
fn the_later_block_of_a_mixed_table_is_blamed() {
    let (first, second) = (first(), second(7, [0; 3]));
    for block in 1..4 {
        for (table, edition, issue) in
            [(&first, 2, 0), (&first, 2, 7), (&second, 1, 0), (&second, 2, 8), (&second, 2, 0)]
        {
            let told = Err(block as u32);
            assert_eq!(check(&with_form(table, block..4, edition, issue), 0), told, "from block {block} on");
            assert_eq!(check(&with_form(table, 0..block, edition, issue), 0), told, "up to block {block}");
            assert_eq!(check(&with_form(table, block..block + 1, edition, issue), 0), told, "block {block}");
        }
        for at in 408..412 {
            assert_eq!(check(&with(&second, block, at, second[at] ^ 0x80), 0), Err(block as u32));
        }
        // An issue number that edition 1 does not have.
        assert_eq!(check(&with_form(&first, block..4, 1, 9), 0), Err(block as u32));
    }
    assert_eq!(check(&with_form(&first, 0..4, 1, 9), 0), Err(0));
    assert_eq!(check(&with_form(&second, 0..4, 1, 7), 0), Err(0));
}

#[test]
fn there_is_no_other_edition() {
    for edition in [0, 3, 4, 255] {
        for table in [first(), second(7, [0; 3])] {
            let issue = u32::from(table[411]);
            assert_eq!(check(&with_form(&table, 0..4, edition, issue), 0), Err(0));
            assert_eq!(check(&with_form(&table, 0..1, edition, issue), 0), Err(0));
            assert_eq!(check(&with_form(&table, 2..3, edition, issue), 0), Err(2));
        }
    }
}

#[test]
fn a_move_writes_edition_issue_and_check_word_and_nothing_else() {
    for issue in ISSUES {
        assert_eq!(moved_forward(&first(), 0, issue), (Ok(3), second(issue, [0; 3])));
        assert_eq!(moved_back(&second(issue, [0; 3]), 0), (Ok(3), first()));
        assert_eq!(moved_forward(&with_form(&header_of(0, 0), 0..1, 1, 0), 0, issue), (Ok(0), header_of(0, issue)));
        assert_eq!(moved_back(&header_of(0, issue), 0), (Ok(0), with_form(&header_of(0, 0), 0..1, 1, 0)));
    }
}

#[test]
fn a_sound_table_of_the_other_edition_is_refused_by_5_and_block_0() {
    let (first, second) = (first(), second(7, [0, 1, 0]));
    assert_eq!(moved_back(&first, 0), (Err((5, 0)), first.clone()));
    assert_eq!(moved_forward(&second, 0, 7), (Err((5, 0)), second.clone()));
    assert_eq!(moved_forward(&second, 0, 8), (Err((5, 0)), second.clone()));
    // An unsound one by its first bad block.
    let (first, second) = (with(&first, 2, 8, 3), with(&second, 3, 8, 3));
    assert_eq!(moved_back(&first, 0), (Err((5, 2)), first.clone()));
    assert_eq!(moved_forward(&second, 0, 8), (Err((5, 3)), second.clone()));
}

#[test]
fn a_set_number_is_not_moved_back() {
    for (sets, told) in [([1, 0, 0], 1), ([0, 65_535, 0], 2), ([0, 0, 256], 3), ([0, 2, 2], 2), ([1, 1, 1], 1)] {
        let table = second(7, sets);
        assert_eq!(moved_back(&table, 0), (Err((8, told)), table.clone()), "{sets:?}");
        // Soundness goes first, also of a later block.
        let table = with(&table, 3, 8, 3);
        assert_eq!(moved_back(&table, 0), (Err((5, 3)), table.clone()), "{sets:?}");
    }
}

#[test]
fn the_moves_want_the_exact_length_and_the_profile_file() {
    for table in [first(), second(7, [0; 3])] {
        let is_first = table[1] == 1;
        let moved = |table: &[u8], profile| match is_first {
            true => moved_forward(table, profile, 7),
            false => moved_back(table, profile),
        };
        for length in [0, 1, 511, 512, 1024, 2047, 2049, 2560] {
            let mut other = table.clone();
            other.resize(length, 0);
            assert_eq!(moved(&other, 0), (Err((5, 0)), other.clone()), "{length}");
        }
        // A profile part of 5 bytes in block 2.
        let long = with(&table, 2, 405, 5);
        assert_eq!(moved(&long, 4), (Err((5, 2)), long.clone()));
        assert_eq!(moved(&long, 5).0, Ok(3));
    }
}

/// Small made cases of a stream.
fn cases(stream: Stream, seed: u64, count: u64) -> impl Iterator<Item = Case> {
    let all = (0..count).map(move |number| make(stream, seed, number).case);
    all.filter(|case| [Slice::Table, Slice::Vectors, Slice::Requests].iter().all(|it| case.held(*it).len() < 60_000))
}

#[test]
fn laws_of_every_move() {
    let (mut there, mut and_back, mut refused) = (0, 0, 0);
    for (number, case) in cases(Stream::Moves, 41, 400).enumerate() {
        let outcome = case.outcome(Slip::NONE);
        let (before, after) = (case.held(Slice::Table), case.after(&outcome, Slice::Table).unwrap());
        let profile = case.held(Slice::Profile).len();
        let (told, place, value) = outcome.parts();
        assert_eq!(place, 0);
        if told != 0 {
            refused += 1;
            assert!(*before == after, "case {number}: a refused move writes");
            assert!(told == 5 || (told == 8 && case.entry == Entry::Back && check(&before, profile).is_ok()));
            continue;
        }
        assert_eq!((check(&before, profile), check(&after, profile)), (Ok(value as u32), Ok(value as u32)));
        for (old, new) in before.chunks(512).zip(after.chunks(512)) {
            let kept = |block: &[u8]| [&block[..1], &block[2..408], &block[412..508]].concat();
            assert_eq!(kept(old), kept(new), "case {number}");
        }
        if case.entry == Entry::Forward {
            there += 1;
            assert_eq!(after[408..412], case.numbers[0].to_be_bytes());
            assert_eq!(moved_back(&after, profile), (Ok(value as u32), before.to_vec()), "case {number}");
        } else {
            and_back += 1;
            let issue = u32::from_be_bytes([before[408], before[409], before[410], before[411]]);
            assert_eq!(moved_forward(&after, profile, issue), (Ok(value as u32), before.to_vec()), "case {number}");
            let other = moved_forward(&after, profile, issue ^ 1).1;
            assert!(other != *before, "case {number}");
        }
    }
    assert!(there > 50 && and_back > 50 && refused > 50, "{there} {and_back} {refused}");
}

/// The table in edition 2, with any issue, some records in sets of one; none if it is not a sound one of edition 1.
fn in_edition_2(rng: &mut Rng, table: &[u8], profile: usize) -> Option<Vec<u8>> {
    let mut table = table.to_vec();
    forward(&mut table, profile, rng.word(), Slip::NONE).ok()?;
    for (number, block) in table.chunks_mut(512).enumerate().skip(1) {
        block[406..408].copy_from_slice(&(rng.coin() as u16 * number as u16 * 0x101).to_be_bytes());
        let right = summed(block.to_vec());
        block.copy_from_slice(&right);
    }
    Some(table)
}

/// The table of edition 2 as it is in edition 1.
fn in_edition_1(table: &[u8]) -> Vec<u8> {
    let mut table = with_form(table, 0..table.len() / 512, 1, 0);
    for block in table.chunks_mut(512).skip(1) {
        block[406..408].fill(0);
        let right = summed(block.to_vec());
        block.copy_from_slice(&right);
    }
    table
}

/// The blocks' edition, sets and issues.
fn forms(table: &[u8]) -> Vec<Vec<u8>> {
    table.chunks(512).map(|block| [&block[1..2], &block[406..412]].concat()).collect()
}

#[test]
fn no_answer_depends_on_edition_issue_or_a_set_of_one() {
    let (mut rng, mut decided, mut rewritten) = (Rng::new(8), 0, 0);
    for (number, case) in cases(Stream::Calls, 42, 1200).enumerate() {
        let held = |slice| case.held(slice).into_owned();
        let (request, profile, table) = (held(Slice::Request), held(Slice::Profile), held(Slice::Table));
        let mut other = match in_edition_2(&mut rng, &table, profile.len()) {
            Some(other) => other,
            None => continue,
        };
        decided += 1;
        let (mut vectors, mut buffer) = (held(Slice::Vectors), held(Slice::Buffer));
        let form = forms(&other);
        let (word, _) = serve(&request, &mut other, &profile, &mut vectors, &mut buffer, case.stated(), Slip::NONE);
        let outcome = case.outcome(Slip::NONE);
        let after = |slice| case.after(&outcome, slice).unwrap();
        assert_eq!(word, outcome.word, "case {number}");
        assert!(vectors == after(Slice::Vectors) && buffer == after(Slice::Buffer), "case {number}");
        assert_eq!(forms(&other), form, "case {number}");
        assert!(in_edition_1(&other) == after(Slice::Table), "case {number}");
        rewritten += (after(Slice::Table) != table) as u32;
    }
    assert!(decided > 150 && rewritten > 20, "{decided} {rewritten}");
}

#[test]
fn no_report_depends_on_edition_issue_or_a_set_of_one() {
    let (mut rng, mut altered) = (Rng::new(9), 0);
    for (number, case) in cases(Stream::Reports, 43, 100).enumerate() {
        let held = |slice| case.held(slice).into_owned();
        let (requests, profile) = (held(Slice::Requests), held(Slice::Profile));
        let mut table = match in_edition_2(&mut rng, &held(Slice::Table), profile.len()) {
            Some(table) => table,
            None => continue,
        };
        let (mut vectors, mut buffer, mut area) = (held(Slice::Vectors), held(Slice::Buffer), held(Slice::Report));
        let (requests, profile) = (&requests[..], &profile[..]);
        let lent = report::Lent {
            requests,
            table: &mut table,
            profile,
            vectors: &mut vectors,
            buffer: &mut buffer,
            report: &mut area,
            stated: case.stated(),
        };
        let (word, _) = report::report(lent, Slip::NONE);
        let outcome = case.outcome(Slip::NONE);
        let after = |slice| case.after(&outcome, slice).unwrap();
        assert_eq!(word, outcome.word, "case {number}");
        assert!(vectors == after(Slice::Vectors) && buffer == after(Slice::Buffer), "case {number}");
        assert!(area == after(Slice::Report), "case {number}");
        assert!(in_edition_1(&table) == after(Slice::Table), "case {number}");
        altered += (after(Slice::Table) != held(Slice::Table)) as u32;
    }
    assert!(altered > 5, "{altered}");
}

/// The vector file has no edition and no issue: its byte 1 is "used".
#[test]
fn the_vector_file_is_the_same_beside_either_edition() {
    let used = vector(1, "p", 7, b"xres");
    assert_eq!(vectors::check(&used), Ok(1));
    for (at, byte) in [(1, 2), (408, 1), (411, 1), (406, 1)] {
        let mut other = used.clone();
        other[at] = byte;
        assert_eq!(vectors::check(&summed(other)), Err(0), "byte {at}");
    }
    let fresh = vector(0, "p", 7, b"xres");
    for table in [first(), second(7, [3, 0, 3])] {
        let done = call_with_vectors(&mar("p", "a", 1, b"sip:s1"), &table, &fresh);
        assert_eq!((done.number, result(&done.answer)), (0, "B2001".to_string()));
        assert_eq!(done.vectors, used);
    }
}

/// An effect leaves them, and is not another set's.
#[test]
fn an_effect_keeps_edition_set_and_issue() {
    let table = second(0x0102_0304, [5, 6, 0]);
    let done = call(&sar("a", b"sip:s1", 1), &table, b"");
    assert_eq!(result(&done.answer), "B2001");
    assert_eq!(forms(&done.table), forms(&table));
    assert_eq!(done.table[1024..], table[1024..]);
    assert_eq!(done.table[512 + 8], 1);
    assert_eq!(check(&done.table, 0), Ok(3));
}
