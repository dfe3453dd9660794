//! Document 02's take-over: what reads an area that is longer than its table, the three refusals and their order, what is written and what
//! stays, and what an area reads as where a take-over is cut.

mod common;

use common::*;
use reference::cases::{Case, Entry, Slice};
use reference::cuts::{Cuts, Reads, Taken};
use reference::gen::{make, run, Stream};
use reference::moves::{back, forward, Refusal};
use reference::report::{self, LEAST_REPORT};
use reference::slip::{Fault, Slip};
use reference::stated::Stated;
use reference::table::{check, check_exactly};
use reference::take::{issues_found, take, write};

/// A table of edition 2 with these public identities, all of `p`.
fn table(issue: u32, publics: &[&str]) -> Vec<u8> {
    let blocks = (1..).zip(publics).map(|(number, public)| block_of(number, public, 0, issue));
    [header_of(publics.len() as u32, issue)].into_iter().chain(blocks).collect::<Vec<Vec<u8>>>().concat()
}

/// The same in edition 1.
fn first(publics: &[&str]) -> Vec<u8> {
    let mut table = table(0, publics);
    for block in table.chunks_mut(512) {
        block[1] = 1;
        let right = summed(block.to_vec());
        block.copy_from_slice(&right);
    }
    table
}

/// A block of this kind and issue number, all else zero, and with a wrong sum.
fn block(kind: u8, issue: u32) -> Vec<u8> {
    let mut block = vec![0; 512];
    block[0] = kind;
    block[408..412].copy_from_slice(&issue.to_be_bytes());
    block
}

/// What the take-over says, and the area after it.
fn taken(area: &[u8], fresh: &[u8]) -> (Result<u32, Refusal>, Vec<u8>) {
    let mut area = area.to_vec();
    (take(&mut area, fresh, 0, Slip::NONE), area)
}

fn refused(area: &[u8], fresh: &[u8]) -> Option<Refusal> {
    let (found, after) = taken(area, fresh);
    assert!(found.is_ok() || after == area, "a refused take-over writes");
    found.err()
}

#[test]
fn what_is_past_the_count_is_not_looked_at() {
    let rubbish = [&block(2, 9)[..], &[0xFF; 512], &[7; 511]].concat();
    for table in [first(&["a", "b"]), table(5, &["a", "b"])] {
        for length in [0, 1, 511, 512, 513, 1024, 1535] {
            let area = [&table[..], &rubbish[..length]].concat();
            assert_eq!(check(&area, 0), Ok(2), "{length}");
            let found = check_exactly(&area, 0);
            assert_eq!(found, if length == 0 { Ok(2) } else { Err(0) }, "{length}");
        }
        for length in [0, 1, 511, 512, 1024, 1535] {
            assert_eq!(check(&table[..length], 0), Err(0), "{length}");
        }
    }
}

#[test]
fn a_record_past_the_count_is_nobodys() {
    let whole = table(5, &["a", "b", "c"]);
    let area = [&table(5, &["a", "b"])[..1536], &whole[1536..], &[1; 100]].concat();
    for (public, expected) in [("b", "X5003"), ("c", "X5001")] {
        let done = call(&request(302, &[avp(601, public.as_bytes())]), &area, b"");
        assert_eq!(result(&done.answer), expected);
    }
    let done = call(&sar("b", b"s", 1), &area, b"");
    assert_eq!(result(&done.answer), "B2001");
    assert!(done.table[1024..1536] != area[1024..1536]);
    assert!(done.table[..1024] == area[..1024] && done.table[1536..] == area[1536..]);
}

/// Two records of one set, the second of them past the count and in another state.
#[test]
fn a_set_has_no_member_past_the_count() {
    let mut whole = table(5, &["a", "b"]);
    for at in [512, 1024] {
        whole[at + 407] = 3;
    }
    whole[1024 + 8] = 1;
    whole[1024 + 15] = 1;
    whole[1024 + 272] = b's';
    whole[11] = 1;
    let area = whole.chunks(512).flat_map(|block| summed(block.to_vec())).collect::<Vec<u8>>();
    assert_eq!(check(&area, 0), Ok(1));
    let done = call(&sar("a", b"t", 3), &area, b"");
    assert_eq!(result(&done.answer), "B2001");
    assert!(done.table[1024..] == area[1024..]);
    // With both in the table they disagree.
    let mut both = area.clone();
    both[11] = 2;
    let right = summed(both[..512].to_vec());
    both[..512].copy_from_slice(&right);
    assert_eq!(check(&both, 0), Err(2));
}

#[test]
fn a_report_reads_the_longer_area() {
    let (exact, requests) = (table(5, &["a", "b"]), [sar("a", b"s", 1), sar("b", b"s", 1)].concat());
    let run = |area: &[u8]| {
        let (mut area, mut buffer, mut numbers) = (area.to_vec(), vec![0; 36_864], vec![0; LEAST_REPORT]);
        let lent = report::Lent {
            requests: &requests,
            table: &mut area,
            profile: &[],
            vectors: &mut [],
            buffer: &mut buffer,
            report: &mut numbers,
            stated: Stated::OLDER,
        };
        (report::report(lent, Slip::NONE).0, area, numbers)
    };
    let (word, after, numbers) = run(&exact);
    assert_eq!((word, numbers[23]), (0, 2), "two records altered");
    let past = [&block(2, 9)[..], &[0xFF; 77]].concat();
    assert_eq!(run(&[&exact[..], &past].concat()), (0, [&after[..], &past].concat(), numbers));
}

#[test]
fn the_moves_want_the_exact_length() {
    for past in [1, 512] {
        let mut longer = first(&["a"]);
        longer.resize(1024 + past, 0);
        assert_eq!(forward(&mut longer, 0, 7, Slip::NONE), Err((5, 0)));
        let mut longer = table(5, &["a"]);
        longer.resize(1024 + past, 0);
        assert_eq!(back(&mut longer, 0, Slip::NONE), Err((5, 0)));
    }
}

#[test]
fn a_new_table_is_written_over_the_front() {
    let (old, fresh) = (table(5, &["a", "b", "c"]), table(6, &["b"]));
    let area = [&old[..], &[0xA5; 300]].concat();
    assert_eq!(taken(&area, &fresh), (Ok(1), [&fresh[..], &area[1024..]].concat()));
    assert_eq!(check(&taken(&area, &fresh).1, 0), Ok(1));
    // As long as the area, and of no record.
    let fresh = table(6, &["a", "b", "x"]);
    assert_eq!(taken(&old, &fresh), (Ok(3), fresh));
    let fresh = table(u32::MAX, &[]);
    assert_eq!(taken(&old, &fresh), (Ok(0), [&fresh[..], &old[512..]].concat()));
}

/// 9: unsound with the profile file, of another length, or of edition 1; no block is told.
#[test]
fn a_new_table_that_is_none_is_9() {
    let (area, fresh) = (vec![0; 4096], table(6, &["a", "b"]));
    for length in [0, 1, 511, 512, 1024, 1535, 1537, 2048] {
        let mut other = fresh.clone();
        other.resize(length, 0);
        assert_eq!(refused(&area, &other), Some((9, 0)), "{length}");
    }
    for at in [0, 512, 1535] {
        let mut other = fresh.clone();
        other[at] ^= 0x40;
        assert_eq!(refused(&area, &other), Some((9, 0)), "{at}");
    }
    assert_eq!(refused(&area, &first(&["a", "b"])), Some((9, 0)));
    // A profile part of 5 bytes in block 2.
    let mut part = fresh;
    part[1024 + 405] = 5;
    let right = summed(part[1024..].to_vec());
    part[1024..].copy_from_slice(&right);
    for (profile, found) in [(4, Err((9, 0))), (5, Ok(2))] {
        assert_eq!(take(&mut area.clone(), &part, profile, Slip::NONE), found);
    }
}

/// 10: each whole block of kind 1 or 2 has an issue number, whatever else it holds.
#[test]
fn an_issue_found_in_the_area_is_10() {
    let fresh = table(6, &["a"]);
    let sound = table(5, &["a"]);
    assert_eq!(refused(&sound, &fresh), None);
    for (issue, told) in [(5, None), (6, Some((10, 0))), (7, Some((10, 0))), (u32::MAX, Some((10, 0)))] {
        assert_eq!(refused(&table(issue, &["a"]), &fresh), told, "{issue}");
        for kind in [1, 2] {
            // Past the old count and the new one, with a wrong sum, of no edition.
            assert_eq!(refused(&[&sound[..], &block(kind, issue)].concat(), &fresh), told);
            // In an area that is not sound.
            assert_eq!(refused(&[&[0; 1024][..], &block(kind, issue)].concat(), &fresh), told);
            // A last piece is not read.
            assert_eq!(refused(&[&sound[..], &block(kind, issue)[..511]].concat(), &fresh), None);
        }
        for kind in [0, 3, 129, 255] {
            assert_eq!(refused(&[&sound[..], &block(kind, issue)].concat(), &fresh), None);
        }
    }
}

/// An area may have more blocks than any table, and each of them is asked.
#[test]
fn an_area_of_more_blocks_than_any_table_is_read_to_its_end() {
    let mut area = table(5, &["a"]);
    area.resize(512 * 4097, 0);
    let fresh = table(6, &["a", "b"]);
    for (issue, told) in [(5, None), (6, Some((10, 0)))] {
        let longer = [&area[..], &block(2, issue)].concat();
        assert_eq!(check(&longer, 0), Ok(1));
        assert_eq!(refused(&longer, &fresh), told);
    }
}

#[test]
fn issue_0_is_taken_where_none_is_found() {
    let fresh = table(0, &["a"]);
    assert_eq!(refused(&[0; 1024], &fresh), None);
    assert_eq!(refused(&[3; 1024], &fresh), None);
    assert_eq!(refused(&first(&["a"]), &fresh), Some((10, 0)));
    assert_eq!(refused(&first(&["a"]), &table(1, &["a"])), None);
    assert_eq!(issues_found(&first(&["a"])).collect::<Vec<u32>>(), [0, 0]);
}

#[test]
fn a_cut_take_over_is_not_repeated_with_its_issue() {
    let (old, fresh) = (table(5, &["a", "b"]), table(6, &["a", "c"]));
    for written in 1..=3 {
        let mut area = old.clone();
        write(&mut area, &fresh, |block| block < written);
        assert_eq!(refused(&area, &fresh), Some((10, 0)), "{written}");
        assert_eq!(taken(&area, &table(7, &["a", "c"])), (Ok(2), table(7, &["a", "c"])), "{written}");
        // Zeroed, it takes the same again.
        area.fill(0);
        assert_eq!(taken(&area, &fresh), (Ok(2), fresh.clone()));
    }
}

/// The greatest issue number refuses all, until its block is gone.
#[test]
fn the_greatest_issue_is_mended_by_zeros() {
    let mut area = [table(5, &["a"]), block(2, u32::MAX)].concat();
    assert_eq!(refused(&area, &table(u32::MAX, &["a"])), Some((10, 0)));
    area[1024..].fill(0);
    assert_eq!(check(&area, 0), Ok(1));
    assert_eq!(refused(&area, &table(u32::MAX, &["a"])), None);
}

#[test]
fn an_area_that_is_too_short_is_11() {
    let fresh = table(6, &["a", "b"]);
    for length in [0, 1, 511, 512, 1024, 1535] {
        assert_eq!(refused(&vec![0; length], &fresh), Some((11, 0)), "{length}");
    }
    for length in [1536, 1537, 2048] {
        assert_eq!(refused(&vec![0; length], &fresh), None, "{length}");
    }
}

#[test]
fn the_refusals_stand_in_their_order() {
    let (short, unsound) = (table(6, &[]), vec![0; 1024]);
    assert_eq!(refused(&short, &unsound), Some((9, 0)));
    assert_eq!(refused(&short, &table(6, &["a"])), Some((10, 0)));
    assert_eq!(refused(&short, &table(7, &["a"])), Some((11, 0)));
}

#[test]
fn an_unsound_area_is_mended() {
    for damaged in [0, 512, 1535] {
        let mut area = table(5, &["a", "b"]);
        area[damaged] ^= 0x40;
        assert!(check(&area, 0).is_err());
        assert_eq!(taken(&area, &table(6, &["a", "b"])), (Ok(2), table(6, &["a", "b"])));
    }
}

/// After the first blocks the next is bad, and a request is refused and alters nothing.
#[test]
fn a_cut_area_is_refused() {
    let (old, fresh) = (table(5, &["a", "b", "c"]), table(6, &["a", "x"]));
    for written in 0..=3 {
        let mut area = old.clone();
        write(&mut area, &fresh, |block| block < written);
        let found = match written {
            0 => Ok(3),
            3 => Ok(2),
            _ => Err(written as u32),
        };
        assert_eq!(check(&area, 0), found);
        let done = call(&sar("a", b"s", 1), &area, b"");
        assert_eq!((done.number, done.value), if found.is_ok() { (0, done.value) } else { (5, written as u64) });
        assert!(found.is_ok() || done.table == area);
    }
}

/// New blocks past the old count alone leave the old table.
#[test]
fn any_blocks_written() {
    let (old, fresh) = ([table(5, &["a"]), vec![0; 1024]].concat(), table(6, &["a", "b", "c"]));
    let taken = Taken::new(&old, &fresh, 0);
    for (written, reads) in [
        (&[][..], Reads::Old),
        (&[2], Reads::Old),
        (&[2, 3], Reads::Old),
        (&[1], Reads::Refused(1)),
        (&[1, 2, 3], Reads::Refused(1)),
        (&[0], Reads::Refused(1)),
        (&[0, 2, 3], Reads::Refused(1)),
        (&[0, 1, 3], Reads::Refused(2)),
        (&[0, 1, 2], Reads::Refused(3)),
        (&[0, 1, 2, 3], Reads::New),
    ] {
        let is_written = |block: usize| written.contains(&block);
        assert_eq!((taken.reads(&is_written), taken.promised(&is_written)), (reads, reads), "{written:?}");
    }
}

/// Why blocks past the count are asked too: one of the new issue would complete a cut table.
#[test]
fn a_stale_block_with_the_new_issue_would_make_a_third_table() {
    let fresh = table(6, &["a", "b"]);
    let area = [&table(5, &["a"])[..], &table(6, &["a", "x"])[1024..]].concat();
    assert_eq!(refused(&area, &fresh), Some((10, 0)));
    assert_eq!(take(&mut area.clone(), &fresh, 0, Slip::of(Fault::FoundUpToOldCount)), Ok(2));
    assert_eq!(Taken::new(&area, &fresh, 0).reads(&|block| block < 2), Reads::Third);
}

/// Small made cases.
fn cases(seed: u64, count: u64) -> impl Iterator<Item = Case> {
    let all = (0..count).map(move |number| make(Stream::Takes, seed, number).case);
    all.filter(|case| [Slice::Area, Slice::Fresh].iter().all(|it| case.held(*it).len() < 20_000))
}

#[test]
fn laws_of_every_take_over() {
    let mut counts = [0; 12];
    for (number, case) in cases(81, 600).enumerate() {
        let outcome = case.outcome(Slip::NONE);
        let (area, fresh, profile) = (case.held(Slice::Area), case.held(Slice::Fresh), case.held(Slice::Profile));
        let after = case.after(&outcome, Slice::Area).unwrap();
        let (told, place, value) = outcome.parts();
        counts[told as usize] += 1;
        let greatest =
            area.chunks_exact(512).filter(|block| block[0] == 1 || block[0] == 2).map(|it| it[408..412].to_vec());
        let sound = check_exactly(&fresh, profile.len()).is_ok() && fresh[1] == 2;
        let issue = || fresh[408..412].to_vec();
        let expected = match (sound, greatest.max()) {
            (false, _) => 9,
            (true, Some(found)) if found >= issue() => 10,
            _ if area.len() < fresh.len() => 11,
            _ => 0,
        };
        assert_eq!((told, place), (expected, 0), "case {number}");
        if told != 0 {
            assert!(value == 0 && after == *area, "case {number}");
            continue;
        }
        assert!(after[..fresh.len()] == fresh[..] && after[fresh.len()..] == area[fresh.len()..], "case {number}");
        assert_eq!(check(&after, profile.len()), Ok(value as u32), "case {number}");
    }
    assert!([0, 9, 10, 11].iter().all(|told| counts[*told] > 20), "{counts:?}");
}

#[test]
fn wherever_a_take_over_is_cut_the_area_reads_as_promised() {
    let mut cuts = Cuts::default();
    for case in cases(82, 120) {
        assert_eq!(cuts.cut(&case, Slip::NONE), Ok(()));
    }
    assert!(cuts.taken > 30 && cuts.old > 50 && cuts.new > 50 && cuts.refused > 500);
    // A program that finds fewer issue numbers breaks it.
    for fault in [Fault::FoundIssueNotAsked, Fault::EqualIssueTaken, Fault::FoundUpToOldCount, Fault::FoundInKind1Alone]
    {
        let mut cuts = Cuts::default();
        let broken = cases(83, 600).any(|case| cuts.cut(&case, Slip::of(fault)).is_err());
        assert!(broken, "{fault:?}");
    }
}

/// No answer depends on what is past the table, and none alters it.
#[test]
fn no_outcome_depends_on_what_is_past_the_table() {
    let mut longer = 0;
    for stream in [Stream::Tables, Stream::Calls, Stream::Reports] {
        for number in 0..250 {
            let case = make(stream, 84, number).case;
            let area = case.held(Slice::Table).into_owned();
            let count = match check(&area, case.held(Slice::Profile).len()) {
                Ok(count) if area.len() < 20_000 && case.held(Slice::Requests).len() < 60_000 => count as usize,
                _ => continue,
            };
            let end = 512 * (count + 1);
            longer += (area.len() > end) as u32;
            let mut exact = case.clone();
            exact.put(Slice::Table, area[..end].to_vec());
            let (one, other) = (case.outcome(Slip::NONE), exact.outcome(Slip::NONE));
            assert!(one == other, "{stream:?} {number}");
            if let Some(after) = case.after(&one, Slice::Table) {
                assert!(after[end..] == area[end..], "{stream:?} {number}");
            }
        }
    }
    assert!(longer > 40, "{longer}");
}

#[test]
fn runs_have_take_overs_that_are_answered_and_cut_areas_that_are_mended() {
    let (mut taken, mut mended, mut cut) = (0, 0, 0);
    for number in 0..60 {
        let mut is_cut = false;
        for step in run(85, number, Slip::NONE) {
            let told = step.outcome.parts().0;
            match step.made.case.entry {
                Entry::Take if told == 0 => {
                    taken += 1;
                    mended += is_cut as u32;
                    is_cut = false;
                }
                Entry::Decide if told == 5 => {
                    cut += 1;
                    is_cut = true;
                }
                _ => {}
            }
        }
    }
    assert!(taken > 20 && mended > 2 && cut > 10, "{taken} {mended} {cut}");
}
