//! What a spoil is, and the list that it is done to.

use crate::block::{mend, put_word, BLOCK};
use crate::gen::model::TableModel;
use crate::gen::tables::Sound;
use crate::list;
use crate::rng::Rng;
use crate::table::{header, Table};

/// A list that is being spoiled, with what it is imported under; `model` is the table that it was of.
pub struct Subject {
    pub model: TableModel,
    pub profile: Vec<u8>,
    pub header: Vec<u8>,
    /// Each with its end.
    pub lines: Vec<Vec<u8>>,
}

pub struct Spoil {
    pub name: &'static str,
    doing: Doing,
}

/// Each does nothing and gives none if this list has no place for it.
enum Doing {
    Whole(fn(&mut Rng, &mut Subject) -> Option<()>),
    /// To the line of a record.
    Line(fn(&mut Rng, &mut Vec<u8>) -> Option<()>),
    /// To the cells of such a line.
    Cells(fn(&mut Rng, &mut Vec<Vec<u8>>) -> Option<()>),
}

pub const fn of_whole(name: &'static str, doing: fn(&mut Rng, &mut Subject) -> Option<()>) -> Spoil {
    Spoil { name, doing: Doing::Whole(doing) }
}

pub const fn of_line(name: &'static str, doing: fn(&mut Rng, &mut Vec<u8>) -> Option<()>) -> Spoil {
    Spoil { name, doing: Doing::Line(doing) }
}

pub const fn of_cells(name: &'static str, doing: fn(&mut Rng, &mut Vec<Vec<u8>>) -> Option<()>) -> Spoil {
    Spoil { name, doing: Doing::Cells(doing) }
}

impl Spoil {
    pub fn done(&self, rng: &mut Rng, subject: &mut Subject) -> Option<()> {
        match self.doing {
            Doing::Whole(doing) => doing(rng, subject),
            Doing::Line(doing) => {
                let at = subject.some_line(rng)?;
                doing(rng, &mut subject.lines[at])
            }
            Doing::Cells(doing) => {
                let at = subject.some_line(rng)?;
                let mut cells = cells(&subject.lines[at])?;
                doing(rng, &mut cells)?;
                subject.lines[at] = [&cells.join(&b","[..])[..], b"\r\n"].concat();
                Some(())
            }
        }
    }
}

impl Subject {
    /// The list of a table, as it is exported.
    pub fn of(sound: Sound) -> Subject {
        let Sound { model, profile } = sound;
        let table = model.encode();
        Subject { header: table[..BLOCK].to_vec(), lines: list::list(Table(&table)), model, profile }
    }

    pub fn list(&self) -> Vec<u8> {
        self.lines.concat()
    }

    /// The place of a record's line; none if there is none left.
    pub fn some_line(&self, rng: &mut Rng) -> Option<usize> {
        let at = (self.lines.len() > 1).then(|| rng.between(1, self.lines.len() - 1))?;
        (!self.lines[at].is_empty()).then_some(at)
    }

    /// Makes the header block want so many records.
    pub fn want(&mut self, count: u32) {
        if let Some(block) = self.header.get_mut(..BLOCK) {
            put_word(block, header::COUNT, count);
            mend(block);
        }
    }

    /// A record of the model, changed, is listed anew. The model is no sound table then.
    pub fn change(&mut self, record: usize) -> Option<()> {
        let table = self.model.encode();
        *self.lines.get_mut(record + 1)? = list::list(Table(&table)).swap_remove(record + 1);
        Some(())
    }

    /// The place of one of the model's records whose line is there still.
    pub fn some_record(&self, rng: &mut Rng) -> Option<usize> {
        let count = self.model.records.len().min(self.lines.len().saturating_sub(1));
        (count > 0).then(|| rng.below(count))
    }
}

/// What stands between the commas of a line that are in no quotes; none if it is no line of 21 columns.
fn cells(line: &[u8]) -> Option<Vec<Vec<u8>>> {
    let mut cells = vec![vec![]];
    let mut is_quoted = false;
    for byte in line.strip_suffix(b"\r\n")? {
        is_quoted ^= *byte == b'"';
        match (byte, is_quoted) {
            (b',', false) => cells.push(vec![]),
            _ => cells.last_mut()?.push(*byte),
        }
    }
    (cells.len() == 21).then_some(cells)
}
