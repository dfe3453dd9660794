//! The columns of a list: what a line says of a record, and the block that it says it of.

use crate::block::{mend, put_word, BLOCK};
use crate::slip::{Fault, Slip};
use crate::table::{
    record, Record, BARRED, EDITION, EDITION_1, EDITION_2, ISSUE, LONGEST_IDENTITY, LONGEST_PROFILE,
    LONGEST_SERVER_NAME, MOST_CAPABILITIES, PENDING, UNREGISTERED_SERVICES,
};

/// The first line of every list.
pub const FIRST_LINE: &[u8] = b"public,private,server,state,pending,barred,services,roaming,\
mandatory,m1,m2,m3,m4,optional,o1,o2,o3,o4,start,length,set\r\n";

/// The columns of names, each with the longest that it takes.
pub const NAMES: [usize; 3] = [LONGEST_IDENTITY, LONGEST_IDENTITY, LONGEST_SERVER_NAME];

/// The columns of numbers behind them, each with the greatest that a block has room for or a rule allows.
pub const NUMBERS: [u32; 18] = {
    let (most, any) = (MOST_CAPABILITIES as u32, u32::MAX);
    [2, 1, 1, 1, 255, most, any, any, any, any, most, any, any, any, any, any, LONGEST_PROFILE as u32, 65_535]
};

/// Places among the columns of numbers.
pub mod number {
    pub const STATE: usize = 0;
    pub const PENDING: usize = 1;
    pub const BARRED: usize = 2;
    pub const SERVICES: usize = 3;
    pub const ROAMING: usize = 4;
    pub const MANDATORY: usize = 5;
    pub const OPTIONAL: usize = 10;
    pub const START: usize = 15;
    pub const LENGTH: usize = 16;
    pub const SET: usize = 17;
}

/// What a line says.
#[derive(Clone, PartialEq, Debug)]
pub struct Fields {
    /// Public identity, private identity, server name.
    pub names: [Vec<u8>; NAMES.len()],
    pub numbers: [u32; NUMBERS.len()],
}

impl Fields {
    pub fn of(this: Record) -> Fields {
        let mut numbers = [0; NUMBERS.len()];
        numbers[number::STATE] = this.state().into();
        numbers[number::PENDING] = this.has(PENDING).into();
        numbers[number::BARRED] = this.has(BARRED).into();
        numbers[number::SERVICES] = this.has(UNREGISTERED_SERVICES).into();
        numbers[number::ROAMING] = this.0[record::ROAMING].into();
        for (at, words) in [(number::MANDATORY, this.mandatory()), (number::OPTIONAL, this.optional())] {
            numbers[at] = words.len() as u32;
            numbers[at + 1..][..words.len()].copy_from_slice(&words);
        }
        numbers[number::START] = this.profile_start() as u32;
        numbers[number::LENGTH] = this.profile_length() as u32;
        numbers[number::SET] = this.set().into();
        Fields { names: [this.public(), this.private(), this.server_name()].map(<[u8]>::to_vec), numbers }
    }

    /// The block of this number in a table of this issue; what a column has no room for was not read.
    pub fn block(&self, block_number: u32, issue: u32, slip: Slip) -> [u8; BLOCK] {
        let mut block = [0; BLOCK];
        block[0] = 2;
        block[EDITION] = if slip.is(Fault::ImportedOfEdition1) { EDITION_1 } else { EDITION_2 };
        put_word(&mut block, 4, if slip.is(Fault::ImportedNumbersFromZero) { block_number - 1 } else { block_number });
        block[record::STATE] = self.numbers[number::STATE] as u8;
        block[record::BITS] = self.bits(slip);
        block[record::ROAMING] = self.numbers[number::ROAMING] as u8;
        for (count_at, at, column) in [
            (record::MANDATORY_COUNT, record::MANDATORY, number::MANDATORY),
            (record::OPTIONAL_COUNT, record::OPTIONAL, number::OPTIONAL),
        ] {
            block[count_at] = self.numbers[column] as u8;
            for n in 0..MOST_CAPABILITIES {
                put_word(&mut block, at + 4 * n, self.numbers[column + 1 + n]);
            }
        }
        for (name, (length_at, at)) in self.names.iter().zip([
            (record::PUBLIC_LENGTH, record::PUBLIC),
            (record::PRIVATE_LENGTH, record::PRIVATE),
            (record::SERVER_LENGTH, record::SERVER),
        ]) {
            block[length_at] = name.len() as u8;
            block[at..at + name.len()].copy_from_slice(name);
        }
        put_word(&mut block, record::PROFILE_START, self.numbers[number::START]);
        let halves = self.numbers[number::LENGTH] << 16 | self.numbers[number::SET];
        put_word(
            &mut block,
            record::PROFILE_LENGTH,
            if slip.is(Fault::ImportedSetLost) { halves >> 16 << 16 } else { halves },
        );
        put_word(&mut block, ISSUE, if slip.is(Fault::ImportedIssueLost) { 0 } else { issue });
        if !slip.is(Fault::ImportedCheckWordLeft) {
            mend(&mut block);
        }
        block
    }

    fn bits(&self, slip: Slip) -> u8 {
        let mut bits = [PENDING, BARRED, UNREGISTERED_SERVICES];
        if slip.is(Fault::ImportedBitsTurned) {
            bits.swap(0, 1);
        }
        let set = bits.iter().zip(&self.numbers[number::PENDING..]).filter(|(_, told)| **told == 1);
        set.fold(0, |all, (bit, _)| all | bit)
    }
}

/// Whether a byte of a name can stand in a list.
pub fn is_listable(byte: u8) -> bool {
    (32..=126).contains(&byte)
}
