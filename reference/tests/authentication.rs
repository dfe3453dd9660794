//! Multimedia-Auth as document 02 has it: reading, steps, effects and the answer.

mod common;

use common::*;
use reference::gen::model::RecordModel;

const SCHEME: &[u8] = b"Digest-AKAv1-MD5";
const PENDING: u8 = 1;
const BARRED: u8 = 2;

fn alice(state: u8, bits: u8, server_name: &str) -> RecordModel {
    let server_name = server_name.as_bytes().to_vec();
    RecordModel { state, bits, server_name, ..record("sip:alice@isle", "alice@isle") }
}

fn bob() -> RecordModel {
    record("sip:bob@isle", "bob@isle")
}

fn alice_asks(asked: u32) -> Vec<u8> {
    mar("alice@isle", "sip:alice@isle", asked, b"sip:s1")
}

/// Alice's MAR with other AVPs of its own.
fn alice_with(own: &[Vec<u8>]) -> Vec<u8> {
    request(303, own)
}

/// The AVPs that a MAR of Alice's has of its own, in 003's order.
fn own() -> Vec<Vec<u8>> {
    vec![avp(1, b"alice@isle"), avp(601, b"sip:alice@isle"), item(SCHEME), number(607, 1), avp(602, b"sip:s1")]
}

/// The MAR of `own` with one of them replaced.
fn alice_but(at: usize, other: Vec<u8>) -> Vec<u8> {
    let mut own = own();
    own[at] = other;
    alice_with(&own)
}

fn one_vector() -> Vec<u8> {
    vector(0, "alice@isle", 1, b"xres")
}

/// The result, after a look that an error changes nothing.
fn result_of(request: &[u8], table: &[u8], vectors: &[u8]) -> String {
    let done = call_with_vectors(request, table, vectors);
    assert_eq!(done.number, 0);
    let result = result(&done.answer);
    if result != "B2001" {
        assert!(done.table == table && done.vectors == vectors, "{result} changes a file");
        for code in [1, 601, 607, 612] {
            assert_eq!(find(&done.answer, code), None, "{result} carries {code}");
        }
    }
    result
}

fn fails_with(request: &[u8], expected: &str, failed: &[u8]) {
    let table = isle(vec![alice(0, 0, "")]).encode();
    let vectors = one_vector();
    assert_eq!(result_of(request, &table, &vectors), expected);
    let done = call_with_vectors(request, &table, &vectors);
    assert_eq!(find(&done.answer, 279), Some(failed.to_vec()), "{expected}");
}

#[test]
fn an_answer_with_two_items_to_the_last_byte() {
    let table = isle(vec![alice(0, 0, "")]).encode();
    let vectors = [
        vector(1, "alice@isle", 0x55, b"used"),
        vector(0, "alice@isle", 0x61, &[0xA1, 0xA2, 0xA3, 0xA4, 0xA5]),
        vector(0, "bob@isle", 0x62, b"bobs"),
        vector(0, "alice@isle", 0x63, &[0xB0; 16]),
    ];
    let done = call_with_vectors(&alice_asks(20), &table, &vectors.concat());
    let expected = bytes(
        "0100021C 4000012F 01000000 00000007 00000009
         00000107 4000000B 733B3100
         00000104 40000020 0000010A 4000000C 000028AF 00000102 4000000C 01000000
         0000010C 4000000C 000007D1
         00000115 4000000C 00000001
         00000108 40000010 6873732E 69736C65
         00000128 4000000C 69736C65
         00000001 40000012 616C6963 65406973 6C650000
         00000259 C000001A 000028AF 7369703A 616C6963 65406973 6C650000
         0000025F C0000010 000028AF 00000002

         00000264 C00000B0 000028AF
         00000265 C0000010 000028AF 00000001
         00000260 C000001C 000028AF 44696765 73742D41 4B417631 2D4D4435
         00000261 C000002C 000028AF 61616161 61616161 61616161 61616161 61616161 61616161 61616161 61616161
         00000262 C0000011 000028AF A1A2A3A4 A5000000
         00000271 C000001C 000028AF CCCCCCCC CCCCCCCC CCCCCCCC CCCCCCCC
         00000272 C000001C 000028AF 11111111 11111111 11111111 11111111

         00000264 C00000B8 000028AF
         00000265 C0000010 000028AF 00000002
         00000260 C000001C 000028AF 44696765 73742D41 4B417631 2D4D4435
         00000261 C000002C 000028AF 63636363 63636363 63636363 63636363 63636363 63636363 63636363 63636363
         00000262 C000001C 000028AF B0B0B0B0 B0B0B0B0 B0B0B0B0 B0B0B0B0
         00000271 C000001C 000028AF CCCCCCCC CCCCCCCC CCCCCCCC CCCCCCCC
         00000272 C000001C 000028AF 11111111 11111111 11111111 11111111",
    );
    assert_eq!((done.number, done.value), (0, 0x21C));
    assert_eq!(done.answer, expected);
    assert_eq!(done.table, isle(vec![alice(0, PENDING, "sip:s1")]).encode());
    let after = [
        vectors[0].clone(),
        vector(1, "alice@isle", 0x61, &[0xA1, 0xA2, 0xA3, 0xA4, 0xA5]),
        vectors[2].clone(),
        vector(1, "alice@isle", 0x63, &[0xB0; 16]),
    ];
    assert_eq!(done.vectors, after.concat());
}

#[test]
fn the_steps_in_their_order() {
    let table = isle(vec![alice(0, 0, ""), bob()]).encode();
    let ask = |private: &str, public: &str, scheme: &[u8], asked| {
        let own = [avp(1, private.as_bytes()), avp(601, public.as_bytes()), item(scheme), number(607, asked)];
        request(303, &[&own[..], &[avp(602, b"sip:s1")]].concat())
    };
    let (one, none) = (one_vector(), vec![]);
    for (private, public, scheme, asked, vectors, expected) in [
        ("nobody", "sip:alice@isle", SCHEME, 1, &one, "X5001"),
        ("nobody", "sip:alice@isle", b"MD5", 0, &none, "X5001"),
        ("alice@isle", "sip:nobody", b"MD5", 0, &none, "X5001"),
        ("", "sip:alice@isle", SCHEME, 1, &one, "X5001"),
        ("alice@isle", "sip:bob@isle", SCHEME, 1, &one, "X5002"),
        ("bob@isle", "sip:alice@isle", b"MD5", 0, &none, "X5002"),
        ("alice@isle", "sip:alice@isle", b"MD5", 0, &none, "X5006"),
        ("alice@isle", "sip:alice@isle", SCHEME, 0, &one, "B5012"),
        ("alice@isle", "sip:alice@isle", SCHEME, 1, &none, "B5012"),
        ("bob@isle", "sip:bob@isle", SCHEME, 1, &one, "B5012"),
        ("alice@isle", "sip:alice@isle", SCHEME, 1, &one, "B2001"),
    ] {
        let request = ask(private, public, scheme, asked);
        assert_eq!(result_of(&request, &table, vectors), expected, "{private} {public} {asked}");
    }
}

#[test]
fn only_the_one_scheme_is_served() {
    let table = isle(vec![alice(0, 0, "")]).encode();
    for scheme in [
        &b""[..],
        b"Digest-AKAv1-MD",
        b"Digest-AKAv1-MD5\0",
        b"Digest-AKAv1-MD5 ",
        b"digest-akav1-md5",
        b"Digest-AKAV1-MD5",
        b"Digest-MD5",
        b"unknown",
    ] {
        let asks = alice_but(2, item(scheme));
        assert_eq!(result_of(&asks, &table, &one_vector()), "X5006", "{scheme:?}");
    }
}

#[test]
fn barring_and_roaming_refuse_nothing() {
    let barred = RecordModel { roaming: 0, ..alice(0, BARRED, "") };
    assert_eq!(result_of(&alice_asks(1), &isle(vec![barred]).encode(), &one_vector()), "B2001");
}

#[test]
fn as_many_as_asked_or_as_remain_at_most_16() {
    let table = isle(vec![alice(1, 0, "sip:s1")]).encode();
    for (unused, asked, sent) in [
        (1, 1, 1),
        (5, 3, 3),
        (3, 5, 3),
        (16, 16, 16),
        (17, 16, 16),
        (17, 17, 16),
        (40, 20, 16),
        (40, u32::MAX, 16),
        (2, u32::MAX, 2),
        (40, 1 << 31, 16),
        (40, 256, 16),
        (40, 65_536, 16),
    ] {
        let file: Vec<Vec<u8>> = (0..unused).map(|n| vector(0, "alice@isle", n as u8, b"xres")).collect();
        let done = call_with_vectors(&alice_asks(asked), &table, &file.concat());
        assert_eq!(result(&done.answer), "B2001");
        assert_eq!(find(&done.answer, 607), Some((sent as u32).to_be_bytes().to_vec()), "{asked} of {unused}");
        let after: Vec<Vec<u8>> =
            (0..unused).map(|n| vector((n < sent) as u8, "alice@isle", n as u8, b"xres")).collect();
        assert_eq!(done.vectors, after.concat(), "{asked} of {unused}");
    }
}

#[test]
fn the_name_of_a_vector_is_compared_exactly() {
    let table = isle(vec![alice(0, 0, "")]).encode();
    for name in ["alice@isl", "alice@isle\0", "alice@islee", "Alice@isle", "sip:alice@isle", "nobody"] {
        assert_eq!(result_of(&alice_asks(1), &table, &vector(0, name, 1, b"xres")), "B5012", "{name}");
    }
}

#[test]
fn what_becomes_of_the_record() {
    // State, pending and name before; pending and name after a MAR with the name sip:s1.
    for (state, pending, name, after) in [
        (0, 0, "", PENDING),
        (0, PENDING, "sip:s1", PENDING),
        (0, PENDING, "sip:s2", PENDING),
        (1, 0, "sip:s1", 0),
        (1, PENDING, "sip:s1", PENDING),
        (1, 0, "sip:s2", PENDING),
        (1, 0, "sip:s", PENDING),
        (1, 0, "sip:s11 with a longer name than the one that is stored", PENDING),
        (2, 0, "sip:s1", 0),
        (2, PENDING, "sip:s1", PENDING),
        (2, 0, "sip:s2", PENDING),
        (2, 0, "sip:s1\0", PENDING),
    ] {
        let others = [bob(), RecordModel { public: b"another".to_vec(), ..alice(1, 0, "sip:s2") }];
        let with = |alice: RecordModel| isle([&others[..], &[alice]].concat()).encode();
        let table = with(alice(state, pending | BARRED, name));
        let done = call_with_vectors(&alice_asks(1), &table, &one_vector());
        assert_eq!(result(&done.answer), "B2001");
        assert_eq!(done.table, with(alice(state, after | BARRED, "sip:s1")), "{state} {pending} {name}");
        assert_eq!(find(&done.answer, 602), None);
    }
}

#[test]
fn a_name_of_96_bytes_is_stored_and_others_are_b5004() {
    let long = [b's'; 97];
    let table = isle(vec![alice(1, 0, "sip:s1")]).encode();
    let done = call_with_vectors(&alice_but(4, avp(602, &long[..96])), &table, &one_vector());
    assert_eq!(done.table, isle(vec![alice(1, PENDING, std::str::from_utf8(&long[..96]).unwrap())]).encode());
    for length in [0, 97] {
        fails_with(&alice_but(4, avp(602, &long[..length])), "B5004", &avp(602, &long[..length]));
    }
}

#[test]
fn a_missing_one_in_003s_order() {
    for (first, example) in [
        (0, "00000001 40000008"),
        (1, "00000259 C000000C 000028AF"),
        (2, "00000264 C000000C 000028AF"),
        (3, "0000025F C0000010 000028AF 00000000"),
        (4, "0000025A C000000C 000028AF"),
    ] {
        // This one alone is missing, and then all of those behind it too.
        let mut left = own();
        left.remove(first);
        fails_with(&alice_with(&left), "B5005", &bytes(example));
        fails_with(&alice_with(&own()[..first]), "B5005", &bytes(example));
    }
    let backwards: Vec<Vec<u8>> = own().into_iter().rev().collect();
    let table = isle(vec![alice(0, 0, "")]).encode();
    assert_eq!(result_of(&alice_with(&backwards), &table, &one_vector()), "B2001");
}

#[test]
fn each_comes_once() {
    for at in 0..5 {
        let mut twice = own();
        twice.push(own()[at].clone());
        fails_with(&alice_with(&twice), "B5009", &own()[at]);
    }
    // The second one is too many before it is judged.
    for second in [avp(607, b"short"), avp(612, b""), avp(602, b"")] {
        fails_with(&alice_with(&[own(), vec![second.clone()]].concat()), "B5009", &second);
    }
}

#[test]
fn a_607_of_another_length_is_b5014() {
    for data in [&b""[..], b"abc", b"abcde", b"\0\0\0\0\0\0\0\x01"] {
        fails_with(&alice_but(3, avp(607, data)), "B5014", &bytes("0000025F C000000C 000028AF"));
    }
}

#[test]
fn other_commands_skip_607_and_612_and_a_mar_skips_theirs() {
    let table = isle(vec![alice(1, 0, "sip:s1")]).encode();
    let odd = [avp(607, b"odd"), avp(607, b""), avp(612, b"rubbish"), avp(612, b"")];
    let with = |code, own: &[Vec<u8>]| request(code, &[own, &odd[..]].concat());
    let lir = with(302, &[avp(601, b"sip:alice@isle")]);
    assert_eq!(result_of(&lir, &table, b""), "B2001");
    let uar = with(300, &[avp(1, b"alice@isle"), avp(601, b"sip:alice@isle"), avp(600, b"isle")]);
    assert_eq!(result(&call(&uar, &table, b"").answer), "X2002");
    let sar = with(301, &[avp(601, b"sip:alice@isle"), avp(602, b"sip:s1"), number(614, 2), number(624, 1)]);
    assert_eq!(result(&call(&sar, &table, b"").answer), "B2001");
    let unnamed = [avp(600, b""), avp(600, b""), avp(614, b"odd"), avp(623, b""), number(624, 9), number(624, 9)];
    assert_eq!(result_of(&alice_with(&[own(), unnamed.to_vec()].concat()), &table, &one_vector()), "B2001");
}

#[test]
fn the_members_of_an_item_are_unknown_at_the_top() {
    for code in [608, 609, 610, 611, 613, 625, 626] {
        let marked = avp(code, b"data");
        fails_with(&alice_with(&[own(), vec![marked.clone()]].concat()), "B5001", &marked);
        let mut plain = marked;
        plain[4] = 0x80;
        let table = isle(vec![alice(0, 0, "")]).encode();
        assert_eq!(result_of(&alice_with(&[own(), vec![plain]].concat()), &table, &one_vector()), "B2001");
    }
}

#[test]
fn an_item_holds_exactly_one_608() {
    let scheme = avp(608, SCHEME);
    let flagged = |flags: u8| {
        let mut member = scheme.clone();
        member[4] = flags;
        member
    };
    let table = isle(vec![alice(0, 0, "")]).encode();
    for flags in [0x80, 0xA0, 0xC0, 0xE0] {
        assert_eq!(result_of(&alice_but(2, avp(612, &flagged(flags))), &table, &one_vector()), "B2001", "{flags}");
    }
    let mut other_vendor = scheme.clone();
    other_vendor[11] ^= 1;
    let mut too_long = scheme.clone();
    too_long[7] += 1;
    let without_v = [bytes("00000260 40000018"), SCHEME.to_vec()].concat();
    for data in [
        vec![],
        flagged(0xC1),
        flagged(0xD0),
        other_vendor,
        without_v,
        too_long,
        scheme[..scheme.len() - 1].to_vec(),
        scheme[..8].to_vec(),
        avp(609, SCHEME),
        scheme.repeat(2),
        [scheme.clone(), avp(608, b"MD5")].concat(),
        [scheme.clone(), number(613, 1)].concat(),
        [number(613, 1), scheme.clone()].concat(),
        [scheme.clone(), avp(609, &[7; 32])].concat(),
        [scheme.clone(), avp(610, &[7; 30])].concat(),
    ] {
        fails_with(&alice_but(2, avp(612, &data)), "B5004", &avp(612, &data));
    }
}

#[test]
fn the_padding_of_an_items_member_is_whole_or_cut() {
    let table = isle(vec![alice(0, 0, "")]).encode();
    // 12 of header and 5 of data.
    let member = [bytes("00000260 C0000011 000028AF"), b"MD5-5".to_vec()].concat();
    for more in 0..=3 {
        for padding in [0, 0xFF] {
            let data = [member.clone(), vec![padding; more]].concat();
            assert_eq!(result_of(&alice_but(2, avp(612, &data)), &table, &one_vector()), "X5006", "{more}");
        }
    }
    for more in 4..=7 {
        let data = [member.clone(), vec![0; more]].concat();
        fails_with(&alice_but(2, avp(612, &data)), "B5004", &avp(612, &data));
    }
}

#[test]
fn refusal_6_at_every_call_after_5_and_without_a_block() {
    let table = isle(vec![alice(0, 0, "")]).encode();
    let lir = request(302, &[avp(601, b"sip:alice@isle")]);
    let mut other_version = lir.clone();
    other_version[0] = 2;
    let bad = [one_vector(), one_vector(), vec![0; 512]].concat();
    for request in [alice_asks(1), lir.clone(), other_version, request(302, &[]), request(999, &[])] {
        let done = call_with_vectors(&request, &table, &bad);
        assert_eq!((done.number, done.value), (6, 0));
        assert!(done.table == table && done.vectors == bad && done.answer.is_empty());
    }
    let done = call_with_vectors(&lir, &table[..700], &bad);
    assert_eq!((done.number, done.value), (5, 0));
    let mut no_request = lir;
    no_request[4] = 0;
    assert_eq!(call_with_vectors(&no_request, &table, &bad).number, 4);
}

#[test]
fn a_marked_unknown_avp_uses_no_vector_and_an_unmarked_one_changes_nothing() {
    let table = isle(vec![alice(0, 0, "")]).encode();
    let unknown = |flags: u8| {
        let mut unknown = avp(70_000, b"?");
        unknown[4] = flags;
        unknown
    };
    let right = call_with_vectors(&alice_with(&own()), &table, &one_vector());
    assert_eq!(result(&right.answer), "B2001");
    for at in 0..=5 {
        let with = |flags| {
            let mut avps = own();
            avps.insert(at, unknown(flags));
            alice_with(&avps)
        };
        fails_with(&with(0xC0), "B5001", &unknown(0xC0));
        let done = call_with_vectors(&with(0x80), &table, &one_vector());
        assert!(done.answer == right.answer && done.table == right.table && done.vectors == right.vectors);
    }
}
