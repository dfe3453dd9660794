//! The examples of document 01, and its errors easily made.

mod common;

use common::*;
use reference::block::BLOCK;
use reference::gen::model::RecordModel;
use reference::table::check;

fn alice(state: u8, server_name: &str) -> RecordModel {
    RecordModel { state, server_name: server_name.as_bytes().to_vec(), ..record("sip:alice@isle", "alice@isle") }
}

const EMPTY_LIR: &str = "01000014C000012E010000000000000100000002";

#[test]
fn the_worked_answer_to_the_last_byte() {
    let done = call(&bytes(EMPTY_LIR), &isle(vec![]).encode(), b"");
    let expected = bytes(
        "01000078 4000012E 01000000 00000001 00000002 00000104 40000020 0000010A 4000000C 000028AF 00000102 4000000C
         01000000 0000010C 4000000C 0000138D 00000115 4000000C 00000001 00000108 40000010 6873732E 69736C65 00000128
         4000000C 69736C65 00000117 40000010 00000107 40000008",
    );
    assert_eq!((done.number, done.value), (0, 0x78));
    assert_eq!(done.answer, expected);
}

#[test]
fn requests_of_19_20_and_16388_bytes() {
    let table = isle(vec![]).encode();
    let mut short = bytes(EMPTY_LIR);
    assert_eq!(call(&short, &table, b"").number, 0);
    short.truncate(19);
    assert_eq!(call(&short, &table, b"").number, 2);
    for (filling, number) in [(16_384, 0), (16_388, 2)] {
        let base = request(302, &[avp(601, b"x")]);
        let long = request(302, &[avp(601, b"x"), avp(282, &vec![0; filling - base.len() - 8])]);
        assert_eq!(long.len(), filling);
        assert_eq!(call(&long, &table, b"").number, number);
    }
}

#[test]
fn buffers_of_36863_and_36864_bytes() {
    let table = isle(vec![]).encode();
    assert_eq!(call_with_buffer(&bytes(EMPTY_LIR), &table, b"", b"", 36_863).number, 1);
    assert_eq!(call_with_buffer(&bytes(EMPTY_LIR), &table, b"", b"", 36_864).number, 0);
}

#[test]
fn refusals_in_their_order() {
    let table = isle(vec![]).encode();
    let mut bad = bytes(EMPTY_LIR);
    bad[4] = 0;
    assert_eq!(call(&bad, &[], b"").number, 4);
    bad[3] = 0x18;
    assert_eq!(call(&bad, &[], b"").number, 3);
    assert_eq!(call(&bad[..19], &[], b"").number, 2);
    assert_eq!(call_with_buffer(&bad[..19], &[], b"", b"", 0).number, 1);
    let done = call(&bytes(EMPTY_LIR), &table[..511], b"");
    assert_eq!((done.number, done.value), (5, 0));
    let mut bad = isle(vec![alice(0, "")]).encode();
    bad[BLOCK..].fill(0);
    let done = call(&bytes(EMPTY_LIR), &bad, b"");
    assert_eq!((done.number, done.value), (5, 1));
}

#[test]
fn a_header_length_that_is_no_multiple_of_4() {
    let table = isle(vec![]).encode();
    let mut odd = bytes(EMPTY_LIR);
    odd.extend([0, 0]);
    odd[3] = 22;
    assert_eq!(call(&odd, &table, b"").number, 3);
}

#[test]
fn type_2_in_state_0_is_x5007() {
    let done = call(&sar("sip:alice@isle", b"s", 2), &isle(vec![alice(0, "")]).encode(), b"");
    assert_eq!(result(&done.answer), "X5007");
}

#[test]
fn type_1_with_another_name_is_x5005() {
    let table = isle(vec![alice(1, "s1")]).encode();
    let done = call(&sar("sip:alice@isle", b"s2", 1), &table, b"");
    assert_eq!(result(&done.answer), "X5005");
    assert_eq!(done.table, table);
}

#[test]
fn type_6_goes_by_keep() {
    for (keep, expected, state, name) in [(false, "X2004", 0, ""), (true, "B2001", 2, "s1")] {
        let mut model = isle(vec![alice(1, "s1")]);
        model.keep = keep;
        let done = call(&sar("sip:alice@isle", b"s1", 6), &model.encode(), b"");
        assert_eq!(result(&done.answer), expected);
        model.records[0] = alice(state, name);
        assert_eq!(done.table, model.encode());
    }
}

#[test]
fn a_server_name_of_96_bytes_and_of_97() {
    let table = isle(vec![alice(0, "")]).encode();
    let done = call(&sar("sip:alice@isle", &[b's'; 96], 1), &table, b"");
    assert_eq!(result(&done.answer), "B2001");
    assert_eq!(check(&done.table, 0), Ok(1));
    let done = call(&sar("sip:alice@isle", &[b's'; 97], 1), &table, b"");
    assert_eq!(result(&done.answer), "B5004");
    assert_eq!(done.table, table);
}

#[test]
fn x5001_is_not_b5001() {
    let table = isle(vec![]).encode();
    assert_eq!(result(&call(&request(302, &[avp(601, b"nobody")]), &table, b"").answer), "X5001");
    let marked = request(302, &[avp(601, b"nobody"), number(633, 0)]);
    assert_eq!(result(&call(&marked, &table, b"").answer), "B5001");
}

#[test]
fn a_removal_whose_third_identity_is_foreign_changes_nothing() {
    let mut records: Vec<RecordModel> = ["a", "b", "c"]
        .iter()
        .map(|public| RecordModel { public: public.as_bytes().to_vec(), ..alice(1, "s") })
        .collect();
    records[2].private = b"bob@isle".to_vec();
    let table = isle(records).encode();
    let removal =
        request(301, &[avp(601, b"a"), avp(601, b"b"), avp(601, b"c"), avp(602, b"s"), number(614, 5), number(624, 1)]);
    let done = call(&removal, &table, b"");
    assert_eq!(result(&done.answer), "X5002");
    assert_eq!(done.table, table);
}

#[test]
fn public_identity_without_v_is_unknown() {
    let mut plain = avp(601, b"nobody");
    plain[4] = 0x40;
    plain[7] = 14;
    plain.drain(8..12);
    let table = isle(vec![]).encode();
    let done = call(&request(302, std::slice::from_ref(&plain)), &table, b"");
    assert_eq!(result(&done.answer), "B5001");
    plain[4] = 0;
    let done = call(&request(302, &[plain]), &table, b"");
    assert_eq!(result(&done.answer), "B5005");
    assert_eq!(find(&done.answer, 279), Some(bytes("00000259 C000000C 000028AF")));
}

#[test]
fn a_header_cut_off_and_a_header_alone() {
    let table = isle(vec![]).encode();
    for (tail, failed) in [
        ("00000259", ""),
        ("00000259 C0000010", ""),
        ("00000259 C000000B 000028AF", "00000259 C000000C 000028AF"),
        ("00000259 C0000064 000028AF", "00000259 C000000C 000028AF"),
        ("00000001 5F000009", "00000001 5F000008"),
        ("00000001 5F000000", "00000001 5F000008"),
    ] {
        let done = call(&request(302, &[bytes(tail)]), &table, b"");
        assert_eq!(result(&done.answer), "B5014", "{tail}");
        assert_eq!(find(&done.answer, 279), Some(bytes(failed)), "{tail}");
    }
}

#[test]
fn a_proxy_info_at_fault_stands_twice() {
    let table = isle(vec![]).encode();
    let mut proxy = avp(284, b"relay");
    proxy[4] = 0x41;
    // Padding that is not zero, and is in neither copy.
    proxy[13..].copy_from_slice(&[1, 2, 3]);
    let done = call(&request(302, &[proxy.clone()]), &table, b"");
    assert_eq!(result(&done.answer), "B3009");
    proxy[13..].fill(0);
    assert_eq!(find(&done.answer, 279), Some(proxy.clone()));
    assert!(done.answer.ends_with(&proxy));
    assert_eq!(done.answer[4], 0x60);
}

#[test]
fn a_nameless_removal_leaves_pending_records() {
    let mut pending = alice(0, "s2");
    pending.bits = 1;
    pending.public = b"a".to_vec();
    let table = isle(vec![pending.clone(), alice(1, "s1")]).encode();
    let removal = request(301, &[avp(1, b"alice@isle"), avp(602, b"s1"), number(614, 4), number(624, 0)]);
    let done = call(&removal, &table, b"");
    assert_eq!(result(&done.answer), "B2001");
    assert_eq!(done.table, isle(vec![pending, alice(0, "")]).encode());
    let again = call(&removal, &done.table, b"");
    assert_eq!(result(&again.answer), "X5007");
}

#[test]
fn user_data_and_user_name_of_the_record() {
    let mut model = isle(vec![alice(1, "s1")]);
    model.records[0].profile_start = 2;
    model.records[0].profile_length = 3;
    let table = model.encode();
    let done = call(&sar("sip:alice@isle", b"s1", 0), &table, b"01234");
    assert_eq!(result(&done.answer), "B2001");
    assert_eq!(find(&done.answer, 1), Some(b"alice@isle".to_vec()));
    assert_eq!(find(&done.answer, 606), Some(b"234".to_vec()));
    assert_eq!(done.table, table);
}

#[test]
fn a_request_that_is_right_in_16_bits_of_its_length() {
    let table = isle(vec![]).encode();
    let mut long = request(302, &[avp(601, b"x")]);
    long.resize(65_536 + long.len(), 0);
    assert_eq!(call(&long, &table, b"").number, 2);
    let length = (long.len() as u32).to_be_bytes();
    long[1..4].copy_from_slice(&length[1..]);
    assert_eq!(call(&long, &table, b"").number, 2);
}

#[test]
fn user_data_from_past_65536() {
    let mut model = isle(vec![alice(1, "s1")]);
    model.records[0].profile_start = 65_540;
    model.records[0].profile_length = 4;
    let mut profile = vec![b'-'; 65_540];
    profile.extend(b"here");
    let done = call(&sar("sip:alice@isle", b"s1", 0), &model.encode(), &profile);
    assert_eq!(find(&done.answer, 606), Some(b"here".to_vec()));
    assert_eq!(call(&sar("sip:alice@isle", b"s1", 0), &model.encode(), &profile[1..]).number, 5);
}

/// Three records of Alice's, by these letters, and one of Bob's by the letter `z`.
fn household(states_and_names: [(u8, &str); 3]) -> Vec<u8> {
    let mut records: Vec<RecordModel> = ["a", "b", "c"]
        .iter()
        .zip(states_and_names)
        .map(|(public, (state, name))| RecordModel { public: public.as_bytes().to_vec(), ..alice(state, name) })
        .collect();
    records.push(record("z", "bob@isle"));
    isle(records).encode()
}

fn sar_of(publics: &[&str], asked_type: u32) -> Vec<u8> {
    let mut own: Vec<Vec<u8>> = publics.iter().map(|public| avp(601, public.as_bytes())).collect();
    own.extend([avp(602, b"s"), number(614, asked_type), number(624, 1)]);
    request(301, &own)
}

#[test]
fn unknown_goes_before_foreign_and_too_many_before_both() {
    let table = household([(1, "s"), (1, "s"), (1, "s")]);
    for publics in [["a", "z", "x"], ["x", "z", "a"], ["z", "x", "a"]] {
        assert_eq!(result(&call(&sar_of(&publics, 5), &table, b"").answer), "X5001", "{publics:?}");
        let done = call(&sar_of(&publics, 1), &table, b"");
        assert_eq!(result(&done.answer), "B5009", "{publics:?}");
        assert_eq!(find(&done.answer, 279), Some(avp(601, publics[1].as_bytes())), "{publics:?}");
    }
    assert_eq!(result(&call(&sar_of(&["a", "z"], 5), &table, b"").answer), "X5002");
}

#[test]
fn another_name_goes_before_a_wrong_state_of_any_record() {
    for household_of in [[(1, "s"), (0, ""), (2, "other")], [(2, "other"), (0, ""), (1, "s")]] {
        let table = household(household_of);
        for publics in [["a", "b", "c"], ["c", "b", "a"]] {
            let done = call(&sar_of(&publics, 5), &table, b"");
            assert_eq!(result(&done.answer), "X5005", "{publics:?}");
            assert_eq!(done.table, table);
        }
    }
    let table = household([(1, "s"), (2, "s"), (0, "")]);
    let done = call(&sar_of(&["a", "b", "c"], 5), &table, b"");
    assert_eq!(result(&done.answer), "X5007");
    assert_eq!(done.table, table);
}
