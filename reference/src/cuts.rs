//! What the take-over promises: wherever it is cut, and whichever of its blocks are written, the area reads as the old table, as the new
//! one, or is refused.

use crate::block::{word_at, BLOCK};
use crate::cases::{Case, Slice};
use crate::rng::Rng;
use crate::slip::Slip;
use crate::table::{check, header};
use crate::take::write;

/// Of so few blocks every choice is tried; of more, some.
const MOST_TRIED_WHOLLY: usize = 6;
const TRIED: usize = 64;

/// What an area reads as.
#[derive(Clone, Copy, PartialEq, Debug)]
pub enum Reads {
    Old,
    New,
    /// For its first bad block.
    Refused(u32),
    /// As another table: the promise is broken.
    Third,
}

/// A take-over that is answered.
pub struct Taken<'a> {
    area: &'a [u8],
    fresh: &'a [u8],
    profile_length: usize,
    /// What the check says of the area as it came.
    old: Result<u32, u32>,
}

/// The table at the front of a sound area, or the first bad block.
fn table_of(area: &[u8], profile_length: usize) -> Result<&[u8], u32> {
    check(area, profile_length)?;
    Ok(&area[..BLOCK * (word_at(area, header::COUNT) as usize + 1)])
}

impl<'a> Taken<'a> {
    pub fn new(area: &'a [u8], fresh: &'a [u8], profile_length: usize) -> Taken<'a> {
        Taken { area, fresh, profile_length, old: check(area, profile_length) }
    }

    pub fn blocks(&self) -> usize {
        self.fresh.len() / BLOCK
    }

    /// What the area reads as with these blocks written.
    pub fn reads(&self, is_written: &dyn Fn(usize) -> bool) -> Reads {
        let mut cut = self.area.to_vec();
        write(&mut cut, self.fresh, is_written);
        match table_of(&cut, self.profile_length) {
            Err(block) => Reads::Refused(block),
            Ok(table) if table == self.fresh => Reads::New,
            Ok(table) if table_of(self.area, self.profile_length) == Ok(table) => Reads::Old,
            Ok(_) => Reads::Third,
        }
    }

    /// What it is to read as. Under the new header the first block that is not written is bad; under the old one the first that is, up to
    /// its count.
    pub fn promised(&self, is_written: &dyn Fn(usize) -> bool) -> Reads {
        if is_written(0) {
            return (1..self.blocks()).find(|block| !is_written(*block)).map_or(Reads::New, refused);
        }
        let first = |count: usize| (1..self.blocks()).take(count).find(|block| is_written(*block));
        match self.old {
            Ok(count) => first(count as usize).map_or(Reads::Old, refused),
            Err(bad) => Reads::Refused(first(bad as usize).map_or(bad, |block| block as u32)),
        }
    }
}

fn refused(block: usize) -> Reads {
    Reads::Refused(block as u32)
}

/// How many take-overs were cut, and what their areas read as.
#[derive(Default)]
pub struct Cuts {
    pub taken: u64,
    pub old: u64,
    pub new: u64,
    pub refused: u64,
}

impl Cuts {
    /// Cuts a take-over, if the program answers it, after each number of blocks, and then with choices of them written; says what breaks the
    /// promise, if something does.
    pub fn cut(&mut self, case: &Case, slip: Slip) -> Result<(), String> {
        if case.outcome(slip).parts().0 != 0 {
            return Ok(());
        }
        self.taken += 1;
        let (area, fresh) = (case.held(Slice::Area), case.held(Slice::Fresh));
        let taken = Taken::new(&area, &fresh, case.held(Slice::Profile).len());
        for first in 0..=taken.blocks() {
            self.count(&taken, &|block| block < first).map_err(|it| format!("after {first} blocks {it}"))?;
        }
        for choice in choices(taken.blocks()) {
            self.count(&taken, &|block| choice[block]).map_err(|it| format!("with {choice:?} {it}"))?;
        }
        Ok(())
    }

    fn count(&mut self, taken: &Taken, is_written: &dyn Fn(usize) -> bool) -> Result<(), String> {
        let (reads, promised) = (taken.reads(is_written), taken.promised(is_written));
        match reads {
            Reads::Old => self.old += 1,
            Reads::New => self.new += 1,
            Reads::Refused(_) | Reads::Third => self.refused += 1,
        }
        match reads == promised {
            true => Ok(()),
            false => Err(format!("the area reads as {reads:?}, not as {promised:?}")),
        }
    }
}

/// Which blocks are written.
fn choices(blocks: usize) -> Vec<Vec<bool>> {
    let mut rng = Rng::new(blocks as u64);
    match blocks <= MOST_TRIED_WHOLLY {
        true => (0..1u32 << blocks).map(|bits| (0..blocks).map(|block| bits >> block & 1 == 1).collect()).collect(),
        false => (0..TRIED).map(|_| (0..blocks).map(|_| rng.coin()).collect()).collect(),
    }
}
