//! What document 02 says of a sound vector file.

mod common;

use common::*;
use reference::slip::Slip;
use reference::vectors::{check, mark};

const XRES: &[u8] = b"xres-8-b";

fn sound() -> Vec<u8> {
    vector(0, "alice@isle", 1, XRES)
}

/// A sound vector with a byte set, its check word mended.
fn with(at: usize, byte: u8) -> Vec<u8> {
    let mut block = sound();
    block[at] = byte;
    summed(block)
}

#[test]
fn no_block_and_4096_are_sound_and_4097_are_not() {
    assert_eq!(check(&[]), Ok(0));
    assert_eq!(check(&sound()), Ok(1));
    assert_eq!(check(&sound().repeat(4096)), Ok(4096));
    assert_eq!(check(&sound().repeat(4097)), Err(4096));
    assert_eq!(check(&sound().repeat(4099)), Err(4096));
}

#[test]
fn a_last_piece_is_a_bad_block() {
    for (length, bad) in [(1, 0), (511, 0), (513, 1), (1023, 1), (1025, 2)] {
        assert_eq!(check(&sound().repeat(3)[..length]), Err(bad), "{length}");
    }
    let most = [sound().repeat(4096), vec![0; 100]].concat();
    assert_eq!(check(&most), Err(4096));
}

#[test]
fn the_lowest_bad_block_is_told() {
    let bad = vec![0; 512];
    assert_eq!(check(&[sound(), bad.clone(), sound(), bad.clone()].concat()), Err(1));
    assert_eq!(check(&[sound(), bad.clone(), vec![3; 7]].concat()), Err(1));
    assert_eq!(check(&[sound().repeat(10), bad, sound().repeat(5000)].concat()), Err(10));
}

#[test]
fn every_byte_counts() {
    for at in 0..512 {
        let mut block = sound();
        block[at] ^= 0x10;
        assert_eq!(check(&[sound(), block].concat()), Err(1), "{at}");
    }
}

#[test]
fn kind_3_and_used_0_or_1() {
    for kind in [0, 1, 2, 4, 255] {
        assert_eq!(check(&with(0, kind)), Err(0), "{kind}");
    }
    assert_eq!(check(&with(1, 1)), Ok(1));
    for used in [2, 3, 128, 255] {
        assert_eq!(check(&with(1, used)), Err(0), "{used}");
    }
    // Though it sums to zero.
    assert_eq!(check(&[0; 512]), Err(0));
}

#[test]
fn an_xres_has_4_to_16_bytes_and_zeros_behind_it() {
    for length in 0..=20u8 {
        let mut block = sound();
        block[2] = length;
        block[164..180].fill(0);
        let expected = if (4..=16).contains(&length) { Ok(1) } else { Err(0) };
        assert_eq!(check(&summed(block)), expected, "{length}");
    }
    for at in 164 + XRES.len()..180 {
        assert_eq!(check(&with(at, 1)), Err(0), "{at}");
    }
    assert_eq!(check(&with(2, 7)), Err(0));
    assert_eq!(check(&vector(0, "a", 1, &[9; 16])), Ok(1));
}

#[test]
fn a_name_has_1_to_128_bytes_and_zeros_behind_it() {
    for (length, expected) in [(0, Err(0)), (1, Ok(1)), (127, Ok(1)), (128, Ok(1)), (129, Err(0)), (255, Err(0))] {
        let mut block = sound();
        block[3] = length;
        block[4..132].fill(0);
        assert_eq!(check(&summed(block)), expected, "{length}");
    }
    for at in [4 + 10, 60, 131] {
        assert_eq!(check(&with(at, 1)), Err(0), "{at}");
    }
    assert_eq!(check(&with(3, 9)), Err(0));
}

#[test]
fn rand_autn_and_keys_are_free_and_the_rest_is_zero() {
    for at in (132..164).chain(164..172).chain(180..212) {
        for byte in [0, 1, 255] {
            assert_eq!(check(&with(at, byte)), Ok(1), "{at}");
        }
    }
    for at in 212..508 {
        assert_eq!(check(&with(at, 1)), Err(0), "{at}");
    }
}

#[test]
fn equal_blocks_in_any_order_are_sound() {
    let file = [vector(0, "b", 1, XRES), vector(1, "a", 2, XRES), vector(0, "b", 1, XRES), vector(0, "b", 1, XRES)];
    assert_eq!(check(&file.concat()), Ok(4));
}

#[test]
fn a_mark_touches_byte_1_and_the_check_word() {
    let mut block = sound();
    mark(&mut block, Slip::NONE);
    assert_eq!(block, with(1, 1));
    assert_eq!(check(&block), Ok(1));
}
