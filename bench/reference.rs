//! The reference's checks and its decisions for C to call, so that one program times all.

use reference::slip::Slip;
use reference::stated::Stated;
use std::slice::{from_raw_parts, from_raw_parts_mut};

/// # Safety
/// `table` is `table_len` bytes.
#[no_mangle]
pub unsafe extern "C" fn reference_check(table: *const u8, table_len: usize, profile_len: usize) -> u64 {
    reference::serve::check_word(5, reference::table::check(from_raw_parts(table, table_len), profile_len))
}

/// # Safety
/// `vectors` is `vectors_len` bytes.
#[no_mangle]
pub unsafe extern "C" fn reference_check_vectors(vectors: *const u8, vectors_len: usize) -> u64 {
    reference::serve::check_word(6, reference::vectors::check(from_raw_parts(vectors, vectors_len)))
}

/// # Safety
/// Each pointer is as many bytes as its length says; those of `table`, `vectors` and `answer` may be written.
#[no_mangle]
pub unsafe extern "C" fn reference_serve(
    request: *const u8,
    request_len: usize,
    table: *mut u8,
    table_len: usize,
    profile: *const u8,
    profile_len: usize,
    vectors: *mut u8,
    vectors_len: usize,
    answer: *mut u8,
    answer_len: usize,
) -> u64 {
    let request = from_raw_parts(request, request_len);
    let table = from_raw_parts_mut(table, table_len);
    let profile = from_raw_parts(profile, profile_len);
    let vectors = from_raw_parts_mut(vectors, vectors_len);
    let answer = from_raw_parts_mut(answer, answer_len);
    reference::serve::serve(request, table, profile, vectors, answer, Stated::NEWER, Slip::NONE).0
}

/// # Safety
/// Each pointer is as many bytes as its length says; those of `answer` may be written.
#[no_mangle]
pub unsafe extern "C" fn reference_sh_serve(
    request: *const u8,
    request_len: usize,
    table: *const u8,
    table_len: usize,
    profile: *const u8,
    profile_len: usize,
    answer: *mut u8,
    answer_len: usize,
) -> u64 {
    let request = from_raw_parts(request, request_len);
    let table = from_raw_parts(table, table_len);
    let profile = from_raw_parts(profile, profile_len);
    let answer = from_raw_parts_mut(answer, answer_len);
    reference::sh::user_data(request, table, profile, answer, Stated::NEWER, Slip::NONE).0
}
