//! The place of the AVP at fault, as document 02 has it: what has one, which it is, and what has none.

mod common;

use common::*;
use reference::gen::model::RecordModel;

/// Where the own AVPs of a request begin: after the header 263 of 12 bytes, 260 of 32, 277 of 12, 264 of 20, 296 and 283 of
/// 12 each.
const OWN: u64 = 120;

fn alice(state: u8, bits: u8, server_name: &[u8]) -> RecordModel {
    RecordModel { state, bits, server_name: server_name.to_vec(), ..record("sip:alice@isle", "alice@isle") }
}

/// The result over a table of Alice's, with the place.
fn told(request: &[u8]) -> (String, u64) {
    told_over(request, alice(0, 0, b""))
}

fn told_over(request: &[u8], record: RecordModel) -> (String, u64) {
    let table = isle(vec![record]).encode();
    let done = call_with_vectors(request, &table, &vector(0, "alice@isle", 1, b"xres"));
    assert_eq!(done.number, 0);
    (result(&done.answer), done.place)
}

fn lengthened(mut avp: Vec<u8>, length: u32) -> Vec<u8> {
    avp[5..8].copy_from_slice(&length.to_be_bytes()[1..]);
    avp
}

/// For each rule that has a place, an AVP that is at fault by it in a SAR, and the result.
fn faulty() -> Vec<(&'static str, Vec<u8>)> {
    vec![
        ("B5014", bytes("00000259")),
        ("B5014", bytes("00000259 C0000010")),
        ("B5014", lengthened(avp(282, b""), 7)),
        ("B5014", lengthened(avp(601, b"a"), 11)),
        ("B5014", lengthened(avp(601, b"abcd"), 17)),
        ("B3009", flagged(avp(282, b"relay"), 0x41)),
        ("B5001", number(633, 0)),
        ("B5001", flagged(avp(60, b"x"), 0x40)),
        ("B5009", avp(283, b"isle")),
        ("B5014", avp(614, b"abc")),
        ("B5004", avp(602, b"")),
        ("B5004", number(614, 12)),
    ]
}

#[test]
fn the_place_of_each_rule_counts_header_and_padding() {
    for (result, fault) in faulty() {
        assert_eq!(told(&request(301, std::slice::from_ref(&fault))), is(result, OWN));
        // 8 + 5 bytes and 3 of padding; 8 bytes that are skipped; 12 of a kind that a SAR does not name.
        let before = [avp(282, b"relay"), flagged(avp(60, b""), 0), avp(623, b"")];
        let moved = [&before[..], &[fault]].concat();
        assert_eq!(told(&request(301, &moved)), is(result, OWN + 16 + 8 + 12));
    }
}

#[test]
fn the_first_avp_is_at_20() {
    let session = avp(263, b"s;1");
    assert_eq!(told(&message(302, &[flagged(session.clone(), 0x48)])), is("B3009", 20));
    assert_eq!(told(&message(302, &[lengthened(session, 7)])), is("B5014", 20));
    assert_eq!(told(&message(302, &[bytes("00000107")])), is("B5014", 20));
}

#[test]
fn the_first_fault_has_the_place() {
    let own = [number(633, 0), number(634, 0), flagged(avp(282, b""), 0x41), bytes("00000259")];
    for (skipped, (result, place)) in
        [("B5001", OWN), ("B5001", OWN + 16), ("B3009", OWN + 32), ("B5014", OWN + 40)].into_iter().enumerate()
    {
        let mut own = own.clone();
        own[..skipped].iter_mut().for_each(|avp| avp[4] = if avp.len() == 16 { 0x80 } else { 0x40 });
        assert_eq!(told(&request(302, &own)), is(result, place));
    }
}

/// B5005 has no place, also where an AVP stands in the place of the Session-Id.
#[test]
fn what_is_missing_has_no_place() {
    assert_eq!(told(&message(302, &[avp(264, b"cscf.isle")])), is("B5005", 0));
    assert_eq!(told(&message(302, &[number(633, 0)])), is("B5005", 0));
    assert_eq!(told(&message(302, &[])), is("B5005", 0));
    assert_eq!(told(&message(302, &[avp(263, b"s;1")])), is("B5005", 0));
    assert_eq!(told(&request(302, &[])), is("B5005", 0));
    let sar = |own: &[Vec<u8>]| request(301, &[own, &[avp(602, b"s"), number(614, 1), number(624, 0)]].concat());
    assert_eq!(told(&sar(&[])), is("B5005", 0));
}

/// In a SAR the second identity is the decision's; in other commands it is rule (f).
#[test]
fn a_second_identity_has_a_place_where_reading_finds_it() {
    let (a, b) = (avp(601, b"sip:alice@isle"), avp(601, b"sip:bob@isle"));
    let own = [a.clone(), b.clone(), avp(602, b"s"), number(614, 1), number(624, 0)];
    assert_eq!(told(&request(301, &own)), is("B5009", 0));
    let table = isle(vec![alice(0, 0, b"")]).encode();
    assert_eq!(find(&call(&request(301, &own), &table, b"").answer, 279), Some(b.clone()));
    for command in [300, 302, 303] {
        assert_eq!(told(&request(command, &[a.clone(), b.clone()])), is("B5009", OWN + a.len() as u64));
    }
}

#[test]
fn of_two_the_second_has_the_place() {
    let server = avp(602, b"sip:s1");
    let own = [avp(601, b"sip:alice@isle"), server.clone(), number(614, 1), server];
    assert_eq!(told(&request(301, &own)), is("B5009", OWN + 28 + 20 + 16));
}

/// 260 stands at 32, and 612 where the own AVPs begin.
#[test]
fn a_fault_in_a_group_has_the_place_of_the_group() {
    let session = avp(263, b"s;1");
    for held in [vec![], vec![number(266, 10415)], vec![number(266, 10415), number(258, 1)], vec![vec![0; 3]]] {
        assert_eq!(told(&message(302, &[session.clone(), avp(260, &held.concat())])), is("B5004", 32));
    }
    let scheme = avp(608, b"Digest-AKAv1-MD5");
    for held in [vec![], vec![scheme.clone(), scheme.clone()], vec![scheme, bytes("00000260")]] {
        assert_eq!(told(&request(303, &[avp(612, &held.concat())])), is("B5004", OWN));
    }
}

#[test]
fn header_faults_have_no_place() {
    let faulty = request(302, &[number(633, 0)]);
    for (at, byte, result) in [(0, 2, "B5011"), (4, 0xA0, "B3008"), (7, 0x30, "B3001"), (11, 1, "B3007")] {
        let mut asked = faulty.clone();
        asked[at] = byte;
        assert_eq!(told(&asked), is(result, 0));
    }
}

#[test]
fn decisions_have_no_place() {
    let uar = |public: &[u8], private: &[u8], network: &[u8]| {
        request(300, &[avp(1, private), avp(601, public), avp(600, network)])
    };
    let (public, private) = (&b"sip:alice@isle"[..], &b"alice@isle"[..]);
    assert_eq!(told(&uar(public, private, b"isle")), is("X2001", 0));
    assert_eq!(told(&uar(b"x", private, b"isle")), is("X5001", 0));
    assert_eq!(told(&uar(public, private, b"elsewhere")), is("X5004", 0));
    assert_eq!(told_over(&uar(public, private, b"isle"), alice(0, 2, b"")), is("B5003", 0));
    let held = || alice(1, 0, b"sip:s1");
    assert_eq!(told_over(&sar("sip:alice@isle", b"sip:s1", 1), held()), is("B2001", 0));
    assert_eq!(told_over(&sar("sip:alice@isle", b"sip:s2", 1), held()), is("X5005", 0));
    assert_eq!(told_over(&sar("sip:alice@isle", b"sip:s1", 3), held()), is("X5007", 0));
    assert_eq!(told_over(&sar("sip:alice@isle", b"sip:s2", 0), held()), is("B5012", 0));
    let mar = |asked| mar("alice@isle", "sip:alice@isle", asked, b"sip:s1");
    assert_eq!(told(&mar(1)), is("B2001", 0));
    assert_eq!(told(&mar(0)), is("B5012", 0));
    let own = [avp(1, private), avp(601, public), item(b"MD5"), number(607, 1), avp(602, b"s")];
    assert_eq!(told(&request(303, &own)), is("X5006", 0));
}

#[test]
fn refusals_have_no_place() {
    let faulty = request(302, &[number(633, 0)]);
    let table = isle(vec![alice(0, 0, b"")]).encode();
    let mut unsound = table.clone();
    unsound[512] = 3;
    for (number, done) in [
        (1, call_with_buffer(&faulty, &table, b"", b"", 36_863)),
        (3, call(&faulty[..faulty.len() - 4], &table, b"")),
        (5, call(&faulty, &unsound, b"")),
        (6, call_with_vectors(&faulty, &table, b"x")),
    ] {
        assert_eq!((done.number, done.place, done.value), (number, 0, (number == 5) as u64));
    }
}

/// In the longest request 4 bytes are left for the last header.
#[test]
fn the_farthest_place_is_16380() {
    for (last, result) in [(bytes("00000259"), "B5014"), (avp(282, b"x"), "B3009"), (number(633, 0), "B5001")] {
        let last = if result == "B3009" { flagged(last, 0x41) } else { last };
        let place = 16_384 - last.len() as u64;
        let filling = avp(282, &vec![0; (place - OWN) as usize - 8]);
        let asked = request(302, &[filling, last]);
        assert_eq!(asked.len(), 16_384);
        assert_eq!(told(&asked), is(result, place));
    }
}

/// Demand 3: what is put in before the AVP at fault moves its place, and changes nothing else; the first marked one has
/// its own.
#[test]
fn unknown_avps_put_in_move_the_place() {
    let table = isle(vec![alice(0, 0, b"")]).encode();
    let done = |own: &[Vec<u8>]| call(&request(301, own), &table, b"");
    let unmarked = [flagged(avp(60, b"12345"), 0), flagged(number(700, 9), 0x80)];
    let marked = flagged(avp(61, b"1"), 0x40);
    for (_, fault) in faulty() {
        let without = done(&[avp(282, b"relay"), fault.clone()]);
        assert_eq!(without.place, OWN + 16);
        let with = done(&[unmarked[0].clone(), avp(282, b"relay"), unmarked[1].clone(), fault.clone()]);
        assert_eq!((with.place, &with.answer), (OWN + 16 + 16 + 16, &without.answer));
        let first = [avp(282, b"relay"), unmarked[0].clone(), marked.clone(), marked.clone(), fault];
        let with = done(&first);
        assert_eq!((with.place, result(&with.answer)), (OWN + 16 + 16, "B5001".to_string()));
        assert_eq!(find(&with.answer, 279), Some(marked.clone()));
    }
    let behind = done(&[number(633, 0), unmarked[0].clone(), marked]);
    assert_eq!((behind.place, behind.answer), (OWN, done(&[number(633, 0)]).answer));
}
