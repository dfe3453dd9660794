//! What a damage is, and the table that it is done to.

use crate::block::BLOCK;
use crate::gen::model::TableModel;
use crate::rng::Rng;

/// A table that is being damaged; `model` is how it was when sound.
pub struct Subject {
    pub model: TableModel,
    pub bytes: Vec<u8>,
    pub profile: Vec<u8>,
}

impl Subject {
    pub fn of(model: TableModel, profile: Vec<u8>) -> Subject {
        Subject { bytes: model.encode(), profile, model }
    }
}

pub struct Damage {
    pub name: &'static str,
    doing: Doing,
    /// Whether mending the block's check word makes sense: it is what is damaged in some.
    pub mendable: bool,
}

/// Each does nothing and gives none if this table has no place for it.
enum Doing {
    Header(fn(&mut Rng, &mut Subject) -> Option<()>),
    /// To the record in this block.
    Record(fn(&mut Rng, &mut Subject, usize) -> Option<()>),
    /// To any block; says to which.
    Whole(fn(&mut Rng, &mut Subject) -> Option<usize>),
}

pub const fn of_header(name: &'static str, doing: fn(&mut Rng, &mut Subject) -> Option<()>) -> Damage {
    Damage { name, doing: Doing::Header(doing), mendable: true }
}

pub const fn of_record(name: &'static str, doing: fn(&mut Rng, &mut Subject, usize) -> Option<()>) -> Damage {
    Damage { name, doing: Doing::Record(doing), mendable: true }
}

pub const fn of_whole(name: &'static str, doing: fn(&mut Rng, &mut Subject) -> Option<usize>) -> Damage {
    Damage { name, doing: Doing::Whole(doing), mendable: true }
}

impl Damage {
    pub const fn never_mended(self) -> Damage {
        Damage { name: self.name, doing: self.doing, mendable: false }
    }

    /// Does the damage and says which block has it.
    pub fn done(&self, rng: &mut Rng, subject: &mut Subject) -> Option<usize> {
        match self.doing {
            Doing::Header(doing) => doing(rng, subject).map(|()| 0),
            Doing::Record(doing) => {
                let block = subject.some_record(rng)?;
                doing(rng, subject, block).map(|()| block)
            }
            Doing::Whole(doing) => doing(rng, subject),
        }
    }
}

impl Subject {
    pub fn block(&mut self, block: usize) -> &mut [u8] {
        &mut self.bytes[block * BLOCK..][..BLOCK]
    }

    /// How many records there are, both as it was and as it is.
    pub fn records(&self) -> usize {
        (self.bytes.len() / BLOCK - 1).min(self.model.records.len())
    }

    pub fn some_record(&self, rng: &mut Rng) -> Option<usize> {
        (self.records() > 0).then(|| rng.between(1, self.records()))
    }

    /// The later of two records that follow one another.
    pub fn later_record(&self, rng: &mut Rng) -> Option<usize> {
        (self.records() > 1).then(|| rng.between(2, self.records()))
    }
}
