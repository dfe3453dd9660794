//! Blocks of 512 bytes, big-endian, whose words sum to zero.

pub const BLOCK: usize = 512;
/// Where the check word stands in a block.
pub const CHECK_WORD: usize = 508;

pub fn word_at(bytes: &[u8], at: usize) -> u32 {
    u32::from_be_bytes([bytes[at], bytes[at + 1], bytes[at + 2], bytes[at + 3]])
}

pub fn put_word(bytes: &mut [u8], at: usize, word: u32) {
    bytes[at..at + 4].copy_from_slice(&word.to_be_bytes());
}

/// The sum of a block's words, wrapping at 2^32.
pub fn sum(block: &[u8]) -> u32 {
    block.chunks_exact(4).fold(0, |sum, word| sum.wrapping_add(word_at(word, 0)))
}

/// Gives the block the check word that makes its words sum to zero.
pub fn mend(block: &mut [u8]) {
    let rest = sum(&block[..CHECK_WORD]);
    put_word(block, CHECK_WORD, 0u32.wrapping_sub(rest));
}

/// The name at `at`, of the length that stands at `length_at`.
pub fn name(block: &[u8], length_at: usize, at: usize) -> &[u8] {
    &block[at..][..block[length_at] as usize]
}

pub fn zero(bytes: &[u8]) -> bool {
    bytes.iter().fold(0, |all, byte| all | byte) == 0
}
