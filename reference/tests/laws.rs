//! Laws of every call, over made cases: what a refusal and an error leave, who may change the vector file and how, that
//! sound files stay sound, and what stands at the place that a word tells.

mod common;

use common::*;
use reference::cases::{Case, Entry, Outcome, Slice};
use reference::gen::{make, Stream};
use reference::kinds::Command;
use reference::message::Message;
use reference::slip::Slip;
use reference::verdict::{Code, Why};
use reference::{table, vectors};

/// Files of many blocks take a debug build long, and are no other to these laws.
fn is_small(case: &Case) -> bool {
    [Slice::Table, Slice::Vectors].iter().all(|slice| case.held(*slice).len() <= 100 * 512)
}

/// The cases of a seed that a MAR was made for, among so many.
fn mars(seed: u64, count: u64) -> impl Iterator<Item = Case> {
    let all = (0..count).map(move |number| make(Stream::Calls, seed, number));
    all.filter(|made| made.notes.contains(&"a MAR")).map(|made| made.case).filter(is_small)
}

fn after(case: &Case, outcome: &Outcome, slice: Slice) -> Vec<u8> {
    case.after(outcome, slice).unwrap()
}

/// The answer to a MAR that succeeds; none for another request or another end.
fn success(case: &Case, outcome: &Outcome, why: &Why) -> Option<Vec<u8>> {
    match why {
        Why::Decided(decision)
            if decision.command == Some(Command::MultimediaAuth) && decision.result == Some(Code::Base(2001)) =>
        {
            Some(after(case, outcome, Slice::Buffer)[..outcome.parts().2 as usize].to_vec())
        }
        _ => None,
    }
}

/// The blocks that differ; of each only byte 1 and the check word, and from unused to used.
fn marked(before: &[u8], after: &[u8]) -> Vec<usize> {
    let mut marked = Vec::new();
    for (number, (old, new)) in before.chunks(512).zip(after.chunks(512)).enumerate() {
        if old != new {
            let mut used = old.to_vec();
            assert_eq!(used[1], 0);
            used[1] = 1;
            assert_eq!(new, summed(used));
            marked.push(number);
        }
    }
    marked
}

/// What the answer says that it sends: 609, 610, 625 and 626 of each item.
fn items(answer: &[u8]) -> Vec<Vec<Vec<u8>>> {
    let avps = Message(answer).avps().sound(Slip::NONE);
    let items = avps.iter().filter(|avp| avp.code == 612);
    items
        .map(|item| item.members().sound(Slip::NONE).iter().skip(2).map(|member| member.data.to_vec()).collect())
        .collect()
}

#[test]
fn only_a_mars_success_changes_the_vector_file() {
    let (mut successes, mut refused) = (0, 0);
    let all = (0..300).map(|number| make(Stream::Calls, 24, number).case).filter(is_small);
    for (number, case) in all.chain(mars(24, 800)).enumerate() {
        let (outcome, why) = case.outcome_and_why(Slip::NONE);
        let old = case.held(Slice::Vectors);
        let new = after(&case, &outcome, Slice::Vectors);
        let answer = match success(&case, &outcome, &why) {
            Some(answer) => answer,
            None => {
                assert!(old == new, "case {number}: {why:?} changes the vector file");
                if outcome.parts().0 != 0 {
                    refused += 1;
                    assert!([Slice::Table, Slice::Buffer].iter().all(|it| !Entry::Decide.changed(&outcome, *it)));
                }
                continue;
            }
        };
        successes += 1;
        let blocks = marked(&old, &new);
        let told = find(&answer, 607).unwrap();
        assert_eq!(told, (blocks.len() as u32).to_be_bytes());
        assert!((1..=16).contains(&blocks.len()));
        let user_name = find(&answer, 1).unwrap();
        let sent = items(&answer);
        for (block, item) in blocks.iter().zip(&sent) {
            let vector = &old[block * 512..][..512];
            assert_eq!(vector[4..][..vector[3] as usize], user_name[..]);
            let stored =
                [&vector[132..164], &vector[164..][..vector[2] as usize], &vector[180..196], &vector[196..212]];
            assert!(item.iter().zip(stored).all(|(member, stored)| member == stored), "case {number}");
        }
        assert_eq!(sent.len(), blocks.len());
    }
    assert!(successes > 10 && refused > 10, "{successes} {refused}");
}

/// Where the AVPs of a request begin, by their lengths alone, up to one whose length is not sound, with that one.
fn starts(request: &[u8]) -> Vec<usize> {
    let mut starts = Vec::new();
    let mut at = 20;
    while at < request.len() {
        starts.push(at);
        let rest = &request[at..];
        let told = rest.get(4..8).map_or(0, |it| u32::from_be_bytes([0, it[1], it[2], it[3]]) as usize);
        let least = if rest.len() > 4 && rest[4] & 0x80 != 0 { 12 } else { 8 };
        if told < least || told > rest.len() {
            break;
        }
        at += (told + 3) / 4 * 4;
    }
    starts
}

/// What Failed-AVP holds is what stands there; without a place it holds an example, nothing, or a SAR's second identity.
#[test]
fn the_avp_at_fault_stands_at_the_place() {
    let (mut placed, mut cut_off, mut second_identities) = (0, 0, 0);
    for number in 0..800 {
        let case = make(Stream::Calls, 27, number).case;
        if !is_small(&case) {
            continue;
        }
        let outcome = case.outcome(Slip::NONE);
        let (refused, place, length) = outcome.parts();
        if refused != 0 {
            assert_eq!(place, 0, "case {number}");
            continue;
        }
        let request = case.held(Slice::Request);
        let answer = &after(&case, &outcome, Slice::Buffer)[..length as usize];
        let (result, failed) = (result(answer), find(answer, 279));
        if place == 0 {
            let held = failed.unwrap_or_default();
            let second_identity = result == "B5009" && request[5..8] == [0, 1, 0x2D] && held[..4] == [0, 0, 2, 0x59];
            assert!(held.is_empty() || result == "B5005" || second_identity, "case {number}: {result}");
            second_identities += second_identity as u32;
            continue;
        }
        placed += 1;
        let faulty = &request[place as usize..];
        assert!(starts(&request).contains(&(place as usize)), "case {number}: no AVP begins at {place}");
        assert!(["B5014", "B3009", "B5001", "B5009", "B5004"].contains(&result.as_str()), "case {number}: {result}");
        let failed = failed.unwrap();
        if failed.is_empty() {
            cut_off += 1;
            assert!(faulty.len() < 8 || faulty.len() < 12 && faulty[4] & 0x80 != 0, "case {number}");
            continue;
        }
        // The length of a header alone is its own.
        let but = if result == "B5014" { 5..8 } else { 0..0 };
        let whole = u32::from_be_bytes([0, failed[5], failed[6], failed[7]]) as usize;
        for (n, (told, given)) in failed[..whole].iter().zip(faulty).enumerate() {
            assert!(told == given || but.contains(&n), "case {number}: byte {n}");
        }
    }
    assert!(placed > 100 && cut_off > 3 && second_identities > 3, "{placed} {cut_off} {second_identities}");
}

#[test]
fn sound_files_stay_sound() {
    let mut changed = 0;
    let all = (0..300).map(|number| make(Stream::Calls, 25, number).case).filter(is_small);
    for (number, case) in all.chain(mars(25, 400)).enumerate() {
        let outcome = case.outcome(Slip::NONE);
        if outcome.parts().0 == 0 && Entry::Decide.changed(&outcome, Slice::Table) {
            changed += 1;
            let profile = case.held(Slice::Profile).len();
            assert!(table::check(&after(&case, &outcome, Slice::Table), profile).is_ok(), "case {number}");
            assert!(vectors::check(&after(&case, &outcome, Slice::Vectors)).is_ok(), "case {number}");
        }
    }
    assert!(changed > 15, "{changed}");
}

#[test]
fn a_record_and_its_set_keep_all_but_name_pending_and_check_word_in_a_mar() {
    let mut named = 0;
    for (number, case) in mars(26, 800).enumerate() {
        let (outcome, why) = case.outcome_and_why(Slip::NONE);
        let request = case.held(Slice::Request);
        if success(&case, &outcome, &why).is_none() {
            continue;
        }
        let given = find(&request, 602).unwrap();
        let public = find(&request, 601).unwrap();
        let table = case.held(Slice::Table);
        let is_named = |block: &[u8]| block[0] == 2 && block[16..][..block[13] as usize] == public[..];
        let asked = table.chunks(512).take(1 + records(&table)).find(|block| is_named(block)).unwrap();
        // The private identity with its length, and the set number.
        let set = |block: &[u8]| [&block[14..15], &block[144..272], &block[406..408]].concat();
        let (end, area) = (512 * (1 + records(&table)), after(&case, &outcome, Slice::Table));
        assert!(table[end..] == area[end..], "past the table");
        for (old, new) in table[..end].chunks(512).zip(area.chunks(512)) {
            let of_set = old[0] == 2 && asked[406..408] != [0, 0] && set(old) == set(asked);
            if !is_named(old) && !of_set {
                assert_eq!(old, new, "another block");
                continue;
            }
            let stored = &old[272..][..old[15] as usize];
            let mut expected = old.to_vec();
            if stored != &given[..] {
                expected[15] = given.len() as u8;
                expected[272..368].fill(0);
                expected[272..][..given.len()].copy_from_slice(&given);
                expected[9] |= 1;
                named += 1;
            }
            if old[8] == 0 {
                expected[9] |= 1;
            }
            assert_eq!(new, summed(expected), "case {number}");
        }
    }
    assert!(named > 5, "{named}");
}
