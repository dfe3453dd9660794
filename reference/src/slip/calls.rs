//! Document 01, "Five refusals of the call".

use super::fault::{faults, Fault, Listed};

faults! { 2;
    LeastBufferRefused: "a buffer of 36,864 bytes is refused",
    ShorterBufferTaken: "a buffer of 36,863 bytes is taken",
    MostRequestRefused: "a request of 16,384 bytes is refused",
    LongerRequestTaken: "a request of 16,388 bytes is taken",
    RequestLengthIn16Bits: "the request's length is taken in 16 bits",
    HeaderLengthIn16Bits: "the header length is taken in 16 bits",
    MultipleOf4NotAsked: "the header length need not be a multiple of 4",
    ShorterHeaderTaken: "the header length may be under the request's",
    LongerHeaderTaken: "the header length may be over the request's",
    RequestBitNotAsked: "the R bit may be clear",
    RequestBeforeBuffer: "refusal 2 goes before 1",
    RequestBitBeforeLength: "refusal 4 goes before 3",
    TableBeforeRequest: "the table is judged before the request's length",
    TableOnlyForDecisions: "a request with a fault is answered over an unsound table",
    UnsoundReturnsZero: "refusal 5 returns 0 besides",
    RefusalTouchesBuffer: "a refusal writes to the buffer",
    RestOfBufferCleared: "the buffer past the answer is cleared",
}
