//! Document 02's sets: which records are one, that they agree, whom an effect reaches, and who goes on though barred.

mod common;

use common::*;
use reference::cases::{Case, Slice};
use reference::gen::model::{RecordModel, TableModel};
use reference::gen::{make, Stream};
use reference::moves::{back, forward};
use reference::report;
use reference::serve::{parts, serve};
use reference::slip::Slip;
use reference::stated::Stated;
use reference::table::{check, Table};

const REMOVALS: [u32; 6] = [4, 5, 6, 7, 8, 11];

/// State, pending and server name, in all five ways that a sound record has them.
const FORMS: [(u8, u8, &str); 5] = [(0, 0, ""), (0, 1, "sip:s1"), (1, 0, "sip:s1"), (2, 0, "sip:s1"), (2, 1, "sip:s1")];

/// A record of `p` in this set and form.
fn member(public: &str, set: u16, (state, pending, server_name): (u8, u8, &str)) -> RecordModel {
    RecordModel { state, bits: pending, server_name: server_name.as_bytes().to_vec(), set, ..record(public, "p") }
}

/// The same of another subscription.
fn foreign(public: &str, set: u16, form: (u8, u8, &str)) -> RecordModel {
    RecordModel { private: b"q".to_vec(), ..member(public, set, form) }
}

/// In edition 2, of issue 7.
fn table(records: Vec<RecordModel>) -> Vec<u8> {
    TableModel { issue: Some(7), ..isle(records) }.encode()
}

fn kept(records: Vec<RecordModel>, keep: bool) -> Vec<u8> {
    TableModel { issue: Some(7), keep, ..isle(records) }.encode()
}

/// State, pending and server name of a block, by the places that document 01 gives.
fn form(table: &[u8], block: usize) -> (u8, u8, String) {
    let block = &table[block * 512..][..512];
    (block[8], block[9] & 1, String::from_utf8(block[272..][..block[15] as usize].to_vec()).unwrap())
}

fn told((state, pending, server_name): (u8, u8, &str)) -> (u8, u8, String) {
    (state, pending, server_name.to_string())
}

// ---- agreement

#[test]
fn a_set_agrees_in_state_pending_and_server_name() {
    for one in FORMS {
        assert_eq!(check(&table(vec![member("a", 3, one), member("b", 3, one), member("c", 3, one)]), 0), Ok(3));
        for other in FORMS.into_iter().filter(|other| *other != one) {
            let (first, second, third) = (member("a", 3, one), member("b", 3, one), member("c", 3, one));
            let differs = |public| member(public, 3, other);
            assert_eq!(
                check(&table(vec![differs("a"), second.clone(), third.clone()]), 0),
                Err(2),
                "{one:?} {other:?}"
            );
            assert_eq!(check(&table(vec![first.clone(), differs("b"), third]), 0), Err(2), "{one:?} {other:?}");
            assert_eq!(check(&table(vec![first, second, differs("c")]), 0), Err(3), "{one:?} {other:?}");
        }
    }
}

#[test]
fn server_names_are_compared_by_length_and_every_byte() {
    let longest = "s".repeat(96);
    for name in ["s", "sip:s1", &longest] {
        let set = |other: &str| table(vec![member("a", 1, (1, 0, name)), member("b", 1, (1, 0, other))]);
        assert_eq!(check(&set(name), 0), Ok(2));
        for at in 0..name.len() {
            let mut other = name.as_bytes().to_vec();
            other[at] ^= 1;
            assert_eq!(check(&set(std::str::from_utf8(&other).unwrap()), 0), Err(2), "{name} {at}");
        }
        for other in [name.to_string() + "\0", name.to_string() + "1", name[1..].to_string()] {
            if (1..=96).contains(&other.len()) {
                assert_eq!(check(&set(&other), 0), Err(2), "{name} {other}");
            }
        }
    }
}

#[test]
fn all_else_may_differ_in_a_set() {
    let one = member("b", 9, (1, 0, "sip:s1"));
    let others = [
        RecordModel { bits: 2, ..one.clone() },
        RecordModel { bits: 4, ..one.clone() },
        RecordModel { roaming: 3, ..one.clone() },
        RecordModel { mandatory: vec![1], ..one.clone() },
        RecordModel { optional: vec![0], ..one.clone() },
        RecordModel { profile_start: 1, ..one.clone() },
        RecordModel { profile_length: 4, ..one.clone() },
    ];
    for other in others {
        let first = RecordModel { public: b"a".to_vec(), ..one.clone() };
        assert_eq!(check(&table(vec![first, other.clone()]), 4), Ok(2), "{other:?}");
    }
}

#[test]
fn set_0_another_number_and_another_subscription_are_other_sets() {
    let (one, other) = ((1, 0, "sip:s1"), (0, 0, ""));
    for (first, second) in [(0, 0), (0, 1), (1, 2), (1, 257), (256, 512), (255, 65_535), (1, 256)] {
        assert_eq!(
            check(&table(vec![member("a", first, one), member("b", second, other)]), 0),
            Ok(2),
            "{first} {second}"
        );
    }
    for set in [1, 256, 65_535] {
        assert_eq!(check(&table(vec![member("a", set, one), foreign("b", set, other)]), 0), Ok(2), "{set}");
        assert_eq!(check(&table(vec![member("a", set, one), member("b", set, other)]), 0), Err(2), "{set}");
        // Names that are alike up to a byte, in length or in their beginning.
        for private in ["pp", "p\0", "P"] {
            let near = RecordModel { private: private.as_bytes().to_vec(), ..member("b", set, other) };
            assert_eq!(check(&table(vec![member("a", set, one), near]), 0), Ok(2), "{set} {private:?}");
        }
    }
}

#[test]
fn members_stand_anywhere_and_the_lowest_bad_block_is_told() {
    let (one, other) = ((1, 0, "sip:s1"), (2, 0, "sip:s1"));
    let records = |last: (u8, u8, &str)| {
        vec![
            member("a", 5, one),
            foreign("b", 5, other),
            member("c", 0, other),
            member("d", 6, other),
            member("e", 5, last),
        ]
    };
    assert_eq!(check(&table(records(one)), 0), Ok(5));
    let bad = table(records(other));
    assert_eq!(check(&bad, 0), Err(5));
    // Another rule in a block before, in the same or behind.
    for (block, told) in [(2, 2), (4, 4), (5, 5)] {
        let mut worse = bad.clone();
        worse[block * 512 + 100] ^= 1;
        assert_eq!(check(&worse, 0), Err(told));
    }
    let two = table(vec![member("a", 5, one), member("b", 5, other), member("c", 5, one), member("d", 5, other)]);
    assert_eq!(check(&two, 0), Err(2));
}

/// Each of 4,096 records in a set with any other, or all in one.
#[test]
fn sets_of_4096_records() {
    let records = |of: fn(usize) -> u16| -> Vec<RecordModel> {
        (0..4096).map(|n| member(&format!("{n:04}"), of(n), (1, 0, "sip:s1"))).collect()
    };
    for of in [|_| 1, |n| (n % 64 + 1) as u16, |n| (n + 1) as u16, |n| (n / 4 + 1) as u16] {
        let sound = TableModel { issue: Some(7), ..isle(records(of)) };
        assert_eq!(check(&sound.encode(), 0), Ok(4096));
        let mut other = sound.clone();
        other.records[4095].state = 2;
        let alone = sound.records.iter().filter(|it| it.set == sound.records[4095].set).count() == 1;
        assert_eq!(check(&other.encode(), 0), if alone { Ok(4096) } else { Err(4096) });
    }
}

#[test]
fn every_entry_refuses_a_set_that_disagrees() {
    let bad = table(vec![foreign("a", 0, FORMS[0]), member("b", 4, FORMS[2]), member("c", 4, FORMS[3])]);
    assert_eq!(check(&bad, 0), Err(3));
    let mut lent = bad.clone();
    // 5 with the block, before 8 and before the other edition's block 0.
    assert_eq!(back(&mut lent, 0, Slip::NONE), Err((5, 3)));
    assert_eq!(forward(&mut lent, 0, 9, Slip::NONE), Err((5, 3)));
    assert_eq!(lent, bad);
    let requests = [sar("b", b"sip:s1", 1), request(302, &[avp(601, b"a")]), message(306, &[])];
    for request in &requests {
        let done = call(request, &bad, b"");
        assert_eq!((done.number, done.value, done.place), (5, 3, 0));
        assert_eq!(done.table, bad);
    }
    let (mut vectors, mut buffer, mut area) = (vec![], vec![0; 36_864], vec![0; 1160]);
    let requests = requests.concat();
    let lent = report::Lent {
        requests: &requests,
        table: &mut lent,
        profile: b"",
        vectors: &mut vectors,
        buffer: &mut buffer,
        report: &mut area,
        stated: Stated::OLDER,
    };
    assert_eq!(parts(report::report(lent, Slip::NONE).0), (0, 0, 0));
    assert_eq!((area[7], area[8 * 9 + 7]), (3, 3), "read, and refused by 5");
}

// ---- effects

/// A SAR that names these identities, without User-Name.
fn naming(publics: &[&str], server_name: &[u8], asked_type: u32) -> Vec<u8> {
    let mut own: Vec<Vec<u8>> = publics.iter().map(|public| avp(601, public.as_bytes())).collect();
    own.extend([avp(602, server_name), number(614, asked_type), number(624, 0)]);
    request(301, &own)
}

/// Four of a set, and beside them others of its subscription and its number.
fn household(form: (u8, u8, &str), keep: bool) -> Vec<u8> {
    let others = [member("c", 0, FORMS[2]), foreign("d", 8, FORMS[3]), member("f", 264, FORMS[3])];
    let mut records = vec![member("a", 8, form), member("b", 8, form), member("e", 8, form), member("g", 8, form)];
    records[1].bits |= 2;
    records[2].bits |= 4;
    records.extend(others);
    kept(records, keep)
}

/// The blocks of a, b, e and g.
const SET: [usize; 4] = [1, 2, 5, 7];

/// What a SAR of this type leaves of a record, by document 01's table; none if it is refused.
fn effect(asked_type: u32, keep: bool, (state, pending, name): (u8, u8, &str)) -> Option<(u8, u8, String)> {
    let removal = REMOVALS.contains(&asked_type);
    let done = |state, name: &str| Some((state, 0, name.to_string()));
    match asked_type {
        0 if name == "sip:s1" => Some((state, pending, name.to_string())),
        0 => None,
        2 if state != 1 => None,
        3 if state == 1 => None,
        _ if removal && state == 0 => None,
        1 | 2 => done(1, "sip:s1"),
        3 => done(2, "sip:s1"),
        6 | 7 if keep => done(2, "sip:s1"),
        _ => done(0, ""),
    }
}

#[test]
fn every_effect_of_a_sar_reaches_the_whole_set_and_nobody_else() {
    for of in FORMS {
        for keep in [false, true] {
            let before = household(of, keep);
            for asked_type in 0..=11 {
                for public in ["a", "b", "e", "g"] {
                    let done = call(&sar(public, b"sip:s1", asked_type), &before, b"");
                    let expected = effect(asked_type, keep, of);
                    let success = ["B2001", "X2004"].contains(&result(&done.answer).as_str());
                    assert_eq!(success, expected.is_some(), "{of:?} {keep} {asked_type} {public}");
                    let expected = expected.unwrap_or_else(|| told(of));
                    for block in 0..8 {
                        let (old, new) = (&before[block * 512..][..512], &done.table[block * 512..][..512]);
                        if SET.contains(&block) {
                            assert_eq!(form(&done.table, block), expected, "{of:?} {keep} {asked_type} {public}");
                            // All but state, pending, server name and check word stays.
                            let rest = |it: &[u8]| {
                                [&it[..8], &[it[9] & !1], &it[10..15], &it[16..272], &it[368..508]].concat()
                            };
                            assert_eq!(rest(old), rest(new));
                        } else {
                            assert_eq!(old, new);
                        }
                    }
                    assert_eq!(check(&done.table, 0), Ok(7));
                }
            }
        }
    }
}

#[test]
fn a_removal_that_names_two_of_a_set_is_like_one_that_names_one() {
    for of in FORMS {
        for keep in [false, true] {
            let before = household(of, keep);
            for asked_type in REMOVALS {
                let one = call(&naming(&["e"], b"sip:s1", asked_type), &before, b"");
                for several in [&["a", "e"][..], &["e", "a"], &["g", "b", "e"], &["e", "e", "b"], &["a", "b", "e", "g"]]
                {
                    let done = call(&naming(several, b"sip:s1", asked_type), &before, b"");
                    assert_eq!((done.answer, done.table), (one.answer.clone(), one.table.clone()), "{several:?}");
                }
            }
        }
    }
}

#[test]
fn two_of_a_set_are_too_many_where_one_is_needed() {
    let before = household(FORMS[2], false);
    for asked_type in [0, 1, 2, 3, 9, 10] {
        let asked = naming(&["a", "b"], b"sip:s1", asked_type);
        let done = call(&asked, &before, b"");
        assert_eq!((result(&done.answer).as_str(), done.place), ("B5009", 0), "{asked_type}");
        assert_eq!(find(&done.answer, 279), Some(avp(601, b"b")));
        assert_eq!(done.table, before);
    }
}

#[test]
fn a_removal_without_identity_takes_whole_sets() {
    let mut records =
        vec![member("a", 8, FORMS[2]), member("b", 8, FORMS[2]), member("c", 3, FORMS[1]), member("d", 3, FORMS[1])];
    records.extend([member("e", 0, FORMS[3]), foreign("f", 8, FORMS[2])]);
    let before = table(records);
    let own = [avp(1, b"p"), avp(602, b"sip:s1"), number(614, 4), number(624, 0)];
    let done = call(&request(301, &own), &before, b"");
    assert_eq!(result(&done.answer), "B2001");
    let after: Vec<(u8, u8, String)> = (1..=6).map(|block| form(&done.table, block)).collect();
    // Those in state 0 stay pending.
    assert_eq!(after, [FORMS[0], FORMS[0], FORMS[1], FORMS[1], FORMS[0], FORMS[2]].map(told));
}

/// Another name, or a wrong state, of the set is each one's; of a set that is not asked for it is nobody's.
#[test]
fn a_set_is_judged_as_one_record() {
    let before = table(vec![member("a", 8, FORMS[2]), member("b", 8, FORMS[2]), member("c", 9, (1, 0, "sip:s2"))]);
    for (publics, name, expected) in [
        (&["a"][..], &b"sip:s1"[..], "B2001"),
        (&["b"], b"sip:s2", "X5005"),
        (&["a", "c"], b"sip:s1", "X5005"),
        (&["a", "b"], b"sip:s1", "B2001"),
    ] {
        assert_eq!(result(&call(&naming(publics, name, 8), &before, b"").answer), expected, "{publics:?}");
    }
}

#[test]
fn user_name_and_user_data_are_of_the_record_named() {
    let profile = b"of aof bof c";
    let part = |public, start| RecordModel { profile_start: start, profile_length: 4, ..member(public, 8, FORMS[2]) };
    let before = table(vec![part("a", 0), part("b", 4), RecordModel { profile_length: 0, ..part("c", 8) }]);
    for asked_type in 0..=2 {
        for (public, data) in [("a", Some(b"of a".to_vec())), ("b", Some(b"of b".to_vec())), ("c", None)] {
            let done = call(&sar(public, b"sip:s1", asked_type), &before, profile);
            assert_eq!(result(&done.answer), "B2001");
            let all = reference::message::Message(&done.answer).avps().sound(Slip::NONE);
            let parts: Vec<Vec<u8>> = all.iter().filter(|avp| avp.code == 606).map(|avp| avp.data.to_vec()).collect();
            assert_eq!(parts, data.into_iter().collect::<Vec<_>>());
            assert_eq!(find(&done.answer, 1), Some(b"p".to_vec()));
        }
    }
}

#[test]
fn name_and_pending_of_a_mar_reach_the_set_and_vectors_do_not() {
    let unused: Vec<u8> = (0..6).flat_map(|n| vector(0, "p", n, b"xres")).collect();
    for of in FORMS {
        for name in ["sip:s1", "sip:s2", "sip:s"] {
            let before = household(of, false);
            for public in ["a", "b", "e", "g"] {
                let done = call_with_vectors(&mar("p", public, 2, name.as_bytes()), &before, &unused);
                assert_eq!(result(&done.answer), "B2001");
                assert_eq!(find(&done.answer, 601), Some(public.as_bytes().to_vec()));
                let pending = (of.1 == 1 || of.0 == 0 || of.2 != name) as u8;
                for block in 0..8 {
                    if SET.contains(&block) {
                        assert_eq!(form(&done.table, block), (of.0, pending, name.to_string()), "{of:?} {name}");
                    } else {
                        assert_eq!(done.table[block * 512..][..512], before[block * 512..][..512]);
                    }
                }
                assert_eq!(check(&done.table, 0), Ok(7));
                let used: Vec<u8> = done.vectors.chunks(512).map(|block| block[1]).collect();
                assert_eq!(used, [1, 1, 0, 0, 0, 0]);
            }
        }
    }
    let before = household(FORMS[2], false);
    for (ask, expected) in [(mar("p", "a", 0, b"sip:s2"), "B5012"), (mar("q", "a", 1, b"sip:s2"), "X5002")] {
        let done = call_with_vectors(&ask, &before, &unused);
        assert_eq!(result(&done.answer), expected);
        assert_eq!((done.table, done.vectors), (before.clone(), unused.clone()));
    }
}

// ---- barring

/// A UAR of this type; none for no type.
fn uar(public: &str, visited: &[u8], asked_type: Option<u32>) -> Vec<u8> {
    let mut own = vec![avp(1, b"p"), avp(601, public.as_bytes()), avp(600, visited)];
    own.extend(asked_type.map(|asked_type| number(623, asked_type)));
    request(300, &own)
}

fn barred(record: RecordModel) -> RecordModel {
    RecordModel { bits: record.bits | 2, ..record }
}

#[test]
fn a_barred_identity_goes_on_with_a_free_one_of_its_set() {
    let one = |public, set| member(public, set, FORMS[2]);
    for (others, goes_on) in [
        (vec![], false),
        (vec![one("b", 5)], true),
        (vec![barred(one("b", 5))], false),
        (vec![barred(one("b", 5)), one("c", 5)], true),
        (vec![barred(one("b", 5)), one("c", 0)], false),
        (vec![one("b", 6)], false),
        (vec![one("b", 5 + 256)], false),
        (vec![foreign("b", 5, FORMS[2])], false),
    ] {
        let mut records = vec![barred(one("a", 5))];
        records.extend(others.clone());
        for asked_type in [None, Some(0), Some(1), Some(2)] {
            let done = call(&uar("a", b"isle", asked_type), &table(records.clone()), b"");
            let said = result(&done.answer);
            let free = if asked_type.unwrap_or(0) == 0 { "X2002" } else { "B2001" };
            assert_eq!(said, if goes_on { free } else { "B5003" }, "{asked_type:?} {others:?}");
            assert_eq!((done.place, find(&done.answer, 279)), (0, None));
        }
    }
    // Of set 0 each is for itself, and a free one is not held by a barred one.
    let records = vec![barred(one("a", 0)), one("b", 0), one("c", 3), barred(one("d", 3))];
    for (public, expected) in [("a", "B5003"), ("b", "X2002"), ("c", "X2002"), ("d", "X2002")] {
        assert_eq!(result(&call(&uar(public, b"isle", None), &table(records.clone()), b"").answer), expected);
    }
}

#[test]
fn barring_has_its_old_place_among_the_steps() {
    let all_barred =
        table(vec![barred(member("a", 5, FORMS[2])), barred(member("b", 5, FORMS[2])), foreign("c", 5, FORMS[2])]);
    let other = request(300, &[avp(1, b"q"), avp(601, b"a"), avp(600, b"isle")]);
    assert_eq!(result(&call(&other, &all_barred, b"").answer), "X5002");
    assert_eq!(result(&call(&uar("a", b"nowhere", None), &all_barred, b"").answer), "B5003");
    let one_free = table(vec![barred(member("a", 5, FORMS[2])), member("b", 5, FORMS[2])]);
    assert_eq!(result(&call(&uar("a", b"nowhere", None), &one_free, b"").answer), "X5004");
}

#[test]
fn nothing_else_asks_for_barring() {
    let all_barred = table(vec![barred(member("a", 5, FORMS[2])), barred(member("b", 5, FORMS[2]))]);
    let vectors = vector(0, "p", 1, b"xres");
    for ask in [request(302, &[avp(601, b"a")]), sar("a", b"sip:s1", 1), mar("p", "a", 1, b"sip:s1")] {
        assert_eq!(result(&call_with_vectors(&ask, &all_barred, &vectors).answer), "B2001");
    }
}

/// Roaming, capabilities and services are the asked record's own, and the first server name is the subscription's.
#[test]
fn a_question_reads_the_asked_record() {
    let asked = RecordModel { roaming: 1, mandatory: vec![7], ..barred(member("b", 5, FORMS[0])) };
    let free = RecordModel { roaming: 2, mandatory: vec![8], bits: 4, ..member("a", 5, FORMS[0]) };
    let alone = table(vec![free.clone(), asked.clone()]);
    assert_eq!(result(&call(&uar("b", b"guest.example", None), &alone, b"").answer), "X5004");
    let done = call(&uar("b", b"isle", None), &alone, b"");
    assert_eq!(result(&done.answer), "X2001");
    assert_eq!(find(&done.answer, 603), Some(number(604, 7)));
    assert_eq!(result(&call(&request(302, &[avp(601, b"b")]), &alone, b"").answer), "X5003");
    assert_eq!(result(&call(&request(302, &[avp(601, b"a")]), &alone, b"").answer), "X2003");
    let beside = table(vec![free, asked, member("c", 0, (2, 0, "sip:s3"))]);
    let done = call(&uar("b", b"isle", None), &beside, b"");
    assert_eq!((result(&done.answer).as_str(), find(&done.answer, 602)), ("X2002", Some(b"sip:s3".to_vec())));
    assert_eq!(result(&call(&request(302, &[avp(601, b"a")]), &beside, b"").answer), "B2001");
}

// ---- laws of every call

fn is_small(case: &Case) -> bool {
    [Slice::Table, Slice::Vectors, Slice::Requests].iter().all(|it| case.held(*it).len() < 60_000)
}

/// Calls over sound tables of edition 2, small ones.
fn calls(seed: u64, count: u64) -> impl Iterator<Item = Case> {
    let all = (0..count).map(move |number| make(Stream::Calls, seed, number).case).filter(is_small);
    all.filter(|case| {
        let table = case.held(Slice::Table);
        table.get(1) == Some(&2) && check(&table, case.held(Slice::Profile).len()).is_ok()
    })
}

/// The set of a block, by its bytes; none if it is of none.
fn set_of(block: &[u8]) -> Option<(Vec<u8>, Vec<u8>)> {
    (block[0] == 2 && block[406..408] != [0, 0])
        .then(|| (block[144..][..block[14] as usize].to_vec(), block[406..408].to_vec()))
}

/// Of the table at the front of an area.
fn blocks(area: &[u8]) -> impl Iterator<Item = &[u8]> {
    area.chunks(512).take(1 + records(area))
}

#[test]
fn a_sound_table_stays_sound_and_a_set_is_altered_whole_or_not_at_all() {
    let mut whole = 0;
    for (number, case) in calls(61, 1500).enumerate() {
        let outcome = case.outcome(Slip::NONE);
        let (before, after) = (case.held(Slice::Table), case.after(&outcome, Slice::Table).unwrap());
        assert!(check(&after, case.held(Slice::Profile).len()).is_ok(), "case {number}");
        let both = || blocks(&before).zip(blocks(&after));
        let altered: Vec<&[u8]> = both().filter(|(old, new)| old != new).map(|(old, _)| old).collect();
        for block in &altered {
            assert_eq!(block[144..272], altered[0][144..272], "case {number}: two subscriptions");
            let set = set_of(block);
            if set.is_none() {
                continue;
            }
            let members: Vec<(&[u8], &[u8])> = both().filter(|(old, _)| set_of(old) == set).collect();
            assert!(members.iter().all(|(old, new)| old != new), "case {number}: part of a set");
            whole += (members.len() > 1) as u32;
        }
    }
    assert!(whole > 80, "{whole}");
}

/// The table without sets; a barred record that goes on with one of its set is free there.
fn without_sets(table: &[u8]) -> Vec<u8> {
    let goes_on = |block: &[u8]| {
        let set = set_of(block);
        set.is_some() && blocks(table).any(|it| set_of(it) == set && it[9] & 2 == 0)
    };
    let mut plain = table.to_vec();
    for (new, old) in plain.chunks_mut(512).zip(blocks(table)).skip(1) {
        if goes_on(old) {
            new[9] &= !2;
        }
        new[406..408].fill(0);
        let right = summed(new.to_vec());
        new.copy_from_slice(&right);
    }
    plain
}

/// A call over sets answers as one over their records alone, all of which may go on that one of the set lets, and then spreads
/// what that call did to a record over its set.
#[test]
fn sets_add_nothing_but_barring_and_reach() {
    let (mut decided, mut spread, mut freed) = (0, 0, 0);
    for (number, case) in calls(62, 1500).enumerate() {
        let held = |slice| case.held(slice).into_owned();
        let (request, profile, table) = (held(Slice::Request), held(Slice::Profile), held(Slice::Table));
        let (plain, mut vectors, mut buffer) = (without_sets(&table), held(Slice::Vectors), held(Slice::Buffer));
        let mut moved = plain.clone();
        let (word, _) = serve(&request, &mut moved, &profile, &mut vectors, &mut buffer, case.stated(), Slip::NONE);
        let outcome = case.outcome(Slip::NONE);
        let after = |slice| case.after(&outcome, slice).unwrap();
        assert_eq!(word, outcome.word, "case {number}");
        assert!(vectors == after(Slice::Vectors) && buffer == after(Slice::Buffer), "case {number}");
        let mut expected = table.clone();
        for at in 1..table.len() / 512 {
            let (from, to) = (at * 512, (at + 1) * 512);
            if plain[from..to] == moved[from..to] {
                continue;
            }
            let set = set_of(&table[from..to]);
            for (block, old) in expected.chunks_mut(512).zip(blocks(&table)).skip(1) {
                let of_set = set.is_some() && set_of(old) == set;
                if !of_set && old != &table[from..to] {
                    continue;
                }
                spread += (old != &table[from..to]) as u32;
                block[8] = moved[from + 8];
                block[9] = block[9] & !1 | moved[from + 9] & 1;
                block[15] = moved[from + 15];
                block[272..368].copy_from_slice(&moved[from + 272..from + 368]);
                let right = summed(block.to_vec());
                block.copy_from_slice(&right);
            }
        }
        assert!(expected == after(Slice::Table), "case {number}");
        decided += 1;
        freed += blocks(&table).zip(blocks(&plain)).any(|(old, new)| old[9] != new[9]) as u32;
    }
    assert!(decided > 400 && spread > 100 && freed > 60, "{decided} {spread} {freed}");
}

/// But for those that are damaged on purpose.
#[test]
fn every_table_made_is_sound() {
    let (mut in_sets, mut disagreeing) = (0, 0);
    for stream in [Stream::Tables, Stream::Calls, Stream::Reports, Stream::Moves] {
        for number in 0..300 {
            let made = make(stream, 64, number);
            let (table, profile) = (made.case.held(Slice::Table), made.case.held(Slice::Profile));
            let sound = check(&table, profile.len());
            disagreeing += (sound.is_err() && made.notes.iter().any(|note| note.starts_with("set: "))) as u32;
            let damaged = match stream {
                Stream::Tables => !made.notes.contains(&"undamaged"),
                _ => ["damaged table", "several refusals", "a cut take-over"].iter().any(|it| made.notes.contains(it)),
            };
            if damaged {
                continue;
            }
            assert!(sound.is_ok(), "{stream:?} {number}: {:?}", made.notes);
            let sets: Vec<_> = Table(&table).records().filter_map(|(_, record)| record.implicit_set()).collect();
            in_sets += (1..sets.len()).any(|at| sets[..at].contains(&sets[at])) as u32;
        }
    }
    assert!(in_sets > 100 && disagreeing > 15, "{in_sets} {disagreeing}");
}
