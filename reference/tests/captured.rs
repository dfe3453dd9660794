//! Requests as real Diameter software sent them (tests/captured), over the table that their heads describe.

mod common;

use common::*;
use reference::gen::model::RecordModel;

const SCSCF1: &[u8] = b"sip:scscf1.isle:6060";
const SCSCF3: &[u8] = b"sip:scscf3.isle:6060";

fn person(name: &str) -> RecordModel {
    record(&format!("sip:{name}@isle"), &format!("{name}@isle"))
}

/// Alice was never registered, Bob is, Carol is held by another server in state 2, Erin has unregistered services.
fn table() -> Vec<u8> {
    let alice = RecordModel { mandatory: vec![1, 2], optional: vec![3], ..person("alice") };
    let bob = RecordModel { state: 1, server_name: SCSCF1.to_vec(), ..person("bob") };
    let carol = RecordModel { state: 2, server_name: SCSCF3.to_vec(), ..person("carol") };
    let erin = RecordModel { bits: 4, mandatory: vec![1, 2], profile_length: 432, ..person("erin") };
    let user0 = RecordModel { profile_start: 432, profile_length: 434, ..person("user0") };
    isle(vec![alice, bob, carol, erin, user0, person("user1"), person("user2"), person("user3")]).encode()
}

/// One vector of each but User3, and then 17 of Bob's.
fn vectors() -> Vec<u8> {
    let mut names = vec!["alice", "carol", "erin", "user0", "user1", "user2"];
    names.resize(6 + 17, "bob");
    let one = |(n, name): (usize, &&str)| vector(0, &format!("{name}@isle"), n as u8, &[n as u8; 8]);
    names.iter().enumerate().map(one).collect::<Vec<Vec<u8>>>().concat()
}

fn request_of(captured: &str) -> Vec<u8> {
    let hex: String = captured.lines().filter(|line| !line.starts_with('#')).collect();
    bytes(&hex)
}

fn done(captured: &str) -> Done {
    let done = call_with_buffer(&request_of(captured), &table(), &[b'p'; 866], &vectors(), 36_864);
    assert_eq!(done.number, 0);
    done
}

macro_rules! captured {
    ($name:literal) => {
        done(include_str!(concat!("../../tests/captured/", $name, ".hex")))
    };
}

#[test]
fn user_authorization_of_one_never_registered() {
    for answer in [captured!("icscf-02-uar").answer, captured!("relay-02-uar").answer] {
        assert_eq!(result(&answer), "X2001");
        let capabilities = bytes(
            "0000025c c0000010 000028af 00000001 0000025c c0000010 000028af 00000002
             0000025d c0000010 000028af 00000003",
        );
        assert_eq!(find(&answer, 603), Some(capabilities));
    }
}

#[test]
fn location_of_one_registered() {
    for answer in [captured!("icscf-20-lir").answer, captured!("relay-06-lir").answer] {
        assert_eq!(result(&answer), "B2001");
        assert_eq!(find(&answer, 602), Some(SCSCF1.to_vec()));
    }
}

#[test]
fn a_network_name_too_long_for_the_table() {
    assert_eq!(result(&captured!("icscf-31-uar").answer), "X5004");
}

#[test]
fn a_public_identity_of_199_bytes() {
    assert_eq!(result(&captured!("icscf-36-uar").answer), "X5001");
}

#[test]
fn assignment_at_registration() {
    let answer = captured!("scscf-03-sar").answer;
    assert_eq!(result(&answer), "B2001");
    assert_eq!(find(&answer, 606).map(|data| data.len()), Some(434));
}

#[test]
fn assignment_of_one_unregistered() {
    let answer = captured!("scscf-12-sar").answer;
    assert_eq!(result(&answer), "B2001");
    assert_eq!(find(&answer, 606).map(|data| data.len()), Some(432));
    assert_eq!(find(&answer, 1), Some(b"erin@isle".to_vec()));
}

#[test]
fn authentication_of_one_who_has_no_vector() {
    let answer = captured!("scscf-20-mar").answer;
    assert_eq!(result(&answer), "B5012");
    assert_eq!(answer[4], 0x40);
}

#[test]
fn assignment_from_a_restarted_server() {
    assert_eq!(result(&captured!("scscf_incident-03-sar").answer), "X5007");
}

/// The blocks that are marked used.
fn marked(done: &Done) -> Vec<usize> {
    done.vectors.chunks(512).enumerate().filter(|(_, block)| block[1] == 1).map(|(number, _)| number).collect()
}

#[test]
fn authentication_gets_one_vector() {
    for (done, block) in [(captured!("mar-23"), 1), (captured!("mar-33"), 2), (captured!("mar-01"), 3)] {
        assert_eq!(result(&done.answer), "B2001");
        assert_eq!(find(&done.answer, 607), Some(vec![0, 0, 0, 1]));
        assert_eq!(marked(&done), [block]);
    }
}

#[test]
fn with_the_challenge_the_name_goes_over() {
    for (done, block, state, name) in
        [(captured!("mar-23"), 3, 2, SCSCF1), (captured!("mar-29"), 2, 1, b"sip:scscf2.isle:6060")]
    {
        let record = &done.table[block * 512..][..512];
        assert_eq!((record[8], record[9] & 1), (state, 1));
        assert_eq!(&record[272..292], name);
    }
}

#[test]
fn twenty_asked_and_sixteen_sent() {
    let done = captured!("mar-29");
    assert_eq!(find(&done.answer, 607), Some(vec![0, 0, 0, 16]));
    assert_eq!(marked(&done), (6..22).collect::<Vec<usize>>());
}

#[test]
fn another_scheme_and_other_members_use_no_vector() {
    for (done, expected) in
        [(captured!("mar-09"), "X5006"), (captured!("mar-14"), "B5004"), (captured!("mar-16"), "B5004")]
    {
        assert_eq!(result(&done.answer), expected);
        assert!(marked(&done).is_empty());
    }
}

/// In both files the 612 begins with the fifth word of the seventh line, and a line has 32 bytes.
#[test]
fn the_place_of_an_item_at_fault() {
    for captured in [include_str!("../../tests/captured/mar-14.hex"), include_str!("../../tests/captured/mar-16.hex")] {
        assert_eq!(request_of(captured)[208..212], 612u32.to_be_bytes());
        assert_eq!(done(captured).place, 208);
    }
    for done in [captured!("mar-09"), captured!("mar-23"), captured!("icscf-31-uar"), captured!("scscf-20-mar")] {
        assert_eq!(done.place, 0);
    }
}
