//! What document 01 says of a sound table.

use reference::block::{mend, sum, BLOCK};
use reference::gen::model::{RecordModel, TableModel};
use reference::slip::Slip;
use reference::table::*;

fn one(public: &[u8]) -> RecordModel {
    RecordModel { public: public.to_vec(), private: b"p".to_vec(), ..RecordModel::default() }
}

fn table(publics: &[&[u8]]) -> Vec<u8> {
    let mut model = TableModel::of_the_isle();
    model.records = publics.iter().map(|public| one(public)).collect();
    model.encode()
}

/// The table with a byte set in a block, its check word mended.
fn with(mut table: Vec<u8>, block: usize, at: usize, byte: u8) -> Vec<u8> {
    table[block * BLOCK + at] = byte;
    mend(&mut table[block * BLOCK..][..BLOCK]);
    table
}

#[test]
fn count_0_alone_is_sound() {
    assert_eq!(check(&table(&[]), 0), Ok(0));
}

#[test]
fn a_block_of_zeros_is_bad_by_its_kind() {
    assert_eq!(sum(&[0; BLOCK]), 0);
    assert_eq!(check(&[0; BLOCK], 0), Err(0));
    let mut two = table(&[b"a", b"b"]);
    two[2 * BLOCK..].fill(0);
    assert_eq!(check(&two, 0), Err(2));
}

#[test]
fn the_later_of_two_equal_identities_is_blamed() {
    assert_eq!(check(&table(&[b"a", b"b", b"b"]), 0), Err(3));
}

#[test]
fn identities_rise_bytewise_with_a_prefix_first() {
    assert_eq!(check(&table(&[b"a", b"a\0", b"aa", b"b", b"\xFF"]), 0), Ok(5));
    assert_eq!(check(&table(&[b"a\0", b"a"]), 0), Err(2));
    assert_eq!(check(&table(&[b"aa", b"a\0"]), 0), Err(2));
    assert_eq!(check(&table(&[b"\xFF", b"a"]), 0), Err(2));
}

#[test]
fn a_shorter_length_is_the_fault_of_block_0_and_a_longer_one_none() {
    let whole = table(&[b"a", b"b"]);
    for cut in [0, 1, 511, 512, 513, 1024, 1535] {
        assert_eq!(check(&whole[..cut], 0), Err(0), "{cut}");
    }
    let mut longer = whole.clone();
    for length in [3 * BLOCK + 1, 4 * BLOCK - 1, 4 * BLOCK, 5 * BLOCK + 1] {
        longer.resize(length, 0xA5);
        assert_eq!(check(&longer, 0), Ok(2), "{length}");
        assert_eq!(check_exactly(&longer, 0), Err(0), "{length}");
    }
}

#[test]
fn at_most_4096_records() {
    let names: Vec<String> = (0..4097).map(|n| format!("{n:04}")).collect();
    let publics: Vec<&[u8]> = names.iter().map(|name| name.as_bytes()).collect();
    assert_eq!(check(&table(&publics[..4096]), 0), Ok(4096));
    assert_eq!(check(&table(&publics), 0), Err(0));
}

#[test]
fn every_byte_counts() {
    let sound = table(&[b"a", b"b"]);
    for at in 0..sound.len() {
        let mut other = sound.clone();
        other[at] ^= 0x10;
        assert_eq!(check(&other, 0), Err((at / BLOCK) as u32), "{at}");
    }
}

#[test]
fn every_byte_not_named_is_zero() {
    let sound = table(&[b"a"]);
    let unused = |block: usize| match block {
        0 => [(2, 4), (16 + 8, 80), (80 + 4, 144), (144, 400), (400, 508)],
        _ => [(2, 4), (16 + 1, 144), (144 + 1, 272), (272, 400), (406, 508)],
    };
    for block in [0, 1] {
        for (from, to) in unused(block) {
            for at in from..to {
                assert_eq!(check(&with(sound.clone(), block, at, 1), 0), Err(block as u32), "{block} {at}");
            }
        }
    }
}

#[test]
fn limits_of_the_header() {
    let sound = table(&[]);
    assert_eq!(check(&with(sound.clone(), 0, header::KEEP, 1), 0), Ok(0));
    assert_eq!(check(&with(sound.clone(), 0, header::KEEP, 2), 0), Err(0));
    for length_at in [header::HOST_LENGTH, header::REALM_LENGTH] {
        assert_eq!(check(&with(sound.clone(), 0, length_at, 0), 0), Err(0));
        assert_eq!(check(&with(sound.clone(), 0, length_at, 64), 0), Ok(0));
        assert_eq!(check(&with(sound.clone(), 0, length_at, 65), 0), Err(0));
    }
    assert_eq!(check(&with(sound, 0, header::NETWORKS, 9), 0), Err(0));
}

#[test]
fn networks_are_1_to_31_bytes_and_no_two_alike() {
    let mut model = TableModel::of_the_isle();
    model.networks = vec![vec![b'n'; 31], vec![b'n'; 30], b"n\0".to_vec(), b"n".to_vec()];
    assert_eq!(check(&model.encode(), 0), Ok(0));
    model.networks[3] = vec![b'n'; 30];
    assert_eq!(check(&model.encode(), 0), Err(0));
    model.networks.truncate(1);
    assert_eq!(check(&with(model.encode(), 0, 144, 32), 0), Err(0));
    assert_eq!(check(&with(table(&[]), 0, header::NETWORKS, 1), 0), Err(0));
}

#[test]
fn no_roaming_past_the_last_network() {
    let mut model = TableModel::of_the_isle();
    for networks in 0..=8 {
        model.records = vec![one(b"a")];
        for bit in 0..8 {
            model.records[0].roaming = 1 << bit;
            let expected = if bit < networks { Ok(1) } else { Err(1) };
            assert_eq!(check(&model.encode(), 0), expected, "{networks} {bit}");
        }
        model.networks.push(vec![networks as u8 + 1]);
    }
}

#[test]
fn server_name_and_state() {
    for (state, pending, named, sound) in [
        (0, false, false, true),
        (0, false, true, false),
        (0, true, false, false),
        (0, true, true, true),
        (1, false, false, false),
        (1, false, true, true),
        (1, true, true, true),
        (2, true, false, false),
        (2, false, true, true),
        (3, false, true, false),
    ] {
        let mut model = TableModel::of_the_isle();
        let mut record = one(b"a");
        record.state = state;
        record.bits = if pending { PENDING } else { 0 };
        record.server_name = if named { b"s".to_vec() } else { vec![] };
        model.records = vec![record];
        let expected = if sound { Ok(1) } else { Err(1) };
        assert_eq!(check(&model.encode(), 0), expected, "{state} {pending} {named}");
    }
}

#[test]
fn the_profile_part_lies_within_the_file() {
    let part = |start, length| {
        let mut model = TableModel::of_the_isle();
        model.records = vec![RecordModel { profile_start: start, profile_length: length, ..one(b"a") }];
        model.encode()
    };
    assert_eq!(check(&part(10, 20), 30), Ok(1));
    assert_eq!(check(&part(10, 20), 29), Err(1));
    assert_eq!(check(&part(30, 0), 30), Ok(1));
    assert_eq!(check(&part(31, 0), 30), Err(1));
    assert_eq!(check(&part(u32::MAX, 1), 30), Err(1));
    assert_eq!(check(&part(0, 4096), 5000), Ok(1));
    assert_eq!(check(&part(0, 4097), 5000), Err(1));
}

#[test]
fn a_rewriting_touches_its_fields_and_the_check_word() {
    let mut model = TableModel::of_the_isle();
    model.records = vec![RecordModel {
        state: REGISTERED,
        bits: PENDING | BARRED,
        server_name: b"a long server name".to_vec(),
        ..one(b"a")
    }];
    let mut bytes = model.encode();
    rewrite(
        &mut bytes[BLOCK..],
        &Rewriting { state: UNREGISTERED, pending: false, server_name: Some(b"short".to_vec()) },
        Slip::NONE,
    );
    model.records[0].state = UNREGISTERED;
    model.records[0].bits = BARRED;
    model.records[0].server_name = b"short".to_vec();
    assert_eq!(bytes, model.encode());
    assert_eq!(check(&bytes, 0), Ok(1));
}
