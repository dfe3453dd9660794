//! The rows of take-overs, and of areas that are longer than their tables.

use super::sets;
use super::shown::{all, shown, Row};
use super::sizes::{damages_wanted, size, sizes_wanted};
use crate::block::{sum, word_at, BLOCK};
use crate::cases::{Case, Outcome, Slice};
use crate::gen::takes::NOTES;
use crate::table::{check, check_exactly, header, Table, EDITION, EDITION_1, EDITION_2, ISSUE, MOST_RECORDS};
use crate::take::issues_found;

/// A take-over, with what its rows go by.
struct Given<'a> {
    area: &'a [u8],
    fresh: &'a [u8],
    profile_length: usize,
    /// The old record count, if the area is sound.
    old: Option<usize>,
    /// Of the new table, as far as it has them.
    issue: u32,
    count: usize,
    /// The greatest issue number found in the area.
    found: Option<u32>,
    /// The area's blocks of kind 1 or 2 whose issue number refuses the new one, each with its number.
    refusing: Vec<(usize, &'a [u8])>,
}

pub fn rows(case: &Case, outcome: &Outcome) -> Vec<String> {
    let (area, fresh, profile) = (case.held(Slice::Area), case.held(Slice::Fresh), case.held(Slice::Profile));
    let told = |at| if fresh.len() < BLOCK { 0 } else { word_at(&fresh, at) };
    let issue = told(ISSUE);
    let refuses = |block: &[u8]| [1, 2].contains(&block[0]) && word_at(block, ISSUE) >= issue;
    let given = Given {
        area: &area,
        fresh: &fresh,
        profile_length: profile.len(),
        old: check(&area, profile.len()).ok().map(|count| count as usize),
        issue,
        count: told(header::COUNT) as usize,
        found: issues_found(&area).max(),
        refusing: area.chunks_exact(BLOCK).enumerate().filter(|(_, block)| refuses(block)).collect(),
    };
    let (before, rows) = match outcome.parts().0 {
        0 => ("taken: ", [vec![format!("{} records", size(given.count))], shown(&taken(), &given)].concat()),
        9 => ("refused 9, ", shown(&nine(), &given)),
        10 => ("refused 10, ", shown(&ten(), &given)),
        _ => ("refused 11, ", shown(&eleven(), &given)),
    };
    rows.into_iter().map(|row| format!("{before}{row}")).collect()
}

impl Given<'_> {
    /// Whether an area of this edition was sound.
    fn is_over(&self, edition: u8) -> bool {
        self.old.is_some() && self.area[EDITION] == edition
    }

    fn has_found(&self, holds: impl Fn(u32) -> bool) -> bool {
        self.found.map_or(false, holds)
    }

    fn is_greater(&self, block: &[u8]) -> bool {
        word_at(block, ISSUE) >= self.issue
    }

    fn piece(&self) -> &[u8] {
        self.area.chunks_exact(BLOCK).remainder()
    }

    /// Whether it holds of all blocks that refuse the new issue number.
    fn all(&self, holds: impl Fn(usize, &[u8]) -> bool) -> bool {
        self.refusing.iter().all(|(number, block)| holds(*number, block))
    }

    fn has_old(&self, holds: impl Fn(usize) -> bool) -> bool {
        self.old.map_or(false, holds)
    }

    fn is_again(&self) -> bool {
        let fresh = |number| self.fresh.chunks_exact(BLOCK).nth(number);
        self.all(|number, block| fresh(number) == Some(block)) && fresh(0).is_some()
    }

    fn checked(&self) -> Result<u32, u32> {
        check_exactly(self.fresh, self.profile_length)
    }

    fn is_cut(&self) -> bool {
        self.fresh.len() < BLOCK.saturating_mul(self.count + 1)
    }

    fn lacks(&self) -> usize {
        self.fresh.len() - self.area.len()
    }
}

fn taken<'a>() -> [Row<Given<'a>>; 16] {
    [
        ("over edition 1", 1, |it| it.is_over(EDITION_1)),
        ("over edition 2", 1, |it| it.is_over(EDITION_2)),
        ("over an unsound area", 1, |it| it.old.is_none()),
        ("over an unsound area that has issue numbers", 1, |it| it.old.is_none() && it.found.is_some()),
        ("over no block of kind 1 or 2", 1, |it| it.found.is_none()),
        ("issue 0", 1, |it| it.issue == 0),
        ("the issue behind the greatest", 1, |it| it.has_found(|issue| issue + 1 == it.issue)),
        ("a later issue", 1, |it| it.has_found(|issue| issue + 1 < it.issue)),
        ("blocks past the new count", 1, |it| it.area.len() >= it.fresh.len() + BLOCK),
        ("a last piece", 1, |it| !it.piece().is_empty()),
        ("an area as long as the table", 1, |it| it.area.len() == it.fresh.len()),
        ("more than 4,097 blocks", 10, |it| is_past_the_most(it.area)),
        ("more records than before", 1, |it| it.has_old(|count| count < it.count)),
        ("fewer records than before", 1, |it| it.has_old(|count| count > it.count)),
        ("a last piece with a greater issue", 1, |it| {
            it.piece().len() >= ISSUE + 4 && [1, 2].contains(&it.piece()[0]) && it.is_greater(it.piece())
        }),
        ("a greater issue in a block of another kind", 1, |it| {
            it.area.chunks_exact(BLOCK).any(|block| it.is_greater(block))
        }),
    ]
}

fn nine<'a>() -> [Row<Given<'a>>; 9] {
    [
        ("edition 1", 1, |it| it.checked().is_ok() && it.fresh[EDITION] == EDITION_1),
        ("a longer new table", 1, |it| it.checked().is_err() && check(it.fresh, it.profile_length).is_ok()),
        ("a shorter new table", 1, |it| it.is_cut()),
        ("under 512 bytes", 1, |it| it.fresh.len() < BLOCK),
        ("block 0", 1, |it| it.checked() == Err(0)),
        ("a record", 1, |it| it.checked().map_or_else(|block| block > 0, |_| false)),
        ("a set disagrees", 1, |it| !it.is_cut() && sets::disagrees(it.fresh, it.profile_length)),
        ("and 10", 1, |it| !it.refusing.is_empty()),
        ("and 11", 1, |it| it.area.len() < it.fresh.len()),
    ]
}

fn ten<'a>() -> [Row<Given<'a>>; 18] {
    [
        ("an equal issue alone", 1, |it| it.all(|_, block| word_at(block, ISSUE) == it.issue)),
        ("a greater issue alone", 1, |it| it.all(|_, block| word_at(block, ISSUE) > it.issue)),
        ("2^32 - 1 found", 1, |it| it.all(|_, block| word_at(block, ISSUE) == u32::MAX)),
        ("past the old count alone", 1, |it| it.has_old(|count| it.all(|number, _| number > count))),
        ("past the new count alone", 1, |it| it.all(|number, _| number > it.count)),
        ("past block 4,096 alone", 50, |it| it.all(|number, _| number > MOST_RECORDS as usize)),
        ("in block 0 alone", 1, |it| it.all(|number, _| number == 0)),
        ("in the last block alone", 1, |it| {
            let last = it.area.len() / BLOCK - 1;
            last > 0 && it.all(|number, _| number == last)
        }),
        ("in blocks of kind 1 alone", 1, |it| it.all(|_, block| block[0] == 1)),
        ("in blocks of kind 2 alone", 1, |it| it.all(|_, block| block[0] == 2)),
        ("in blocks of edition 1 alone", 1, |it| it.all(|_, block| block[EDITION] == EDITION_1)),
        ("in blocks of no edition alone", 1, |it| it.all(|_, block| ![EDITION_1, EDITION_2].contains(&block[EDITION]))),
        ("in blocks of another sum alone", 1, |it| it.all(|_, block| sum(block) != 0)),
        ("in blocks of another place alone", 1, |it| it.all(|number, block| word_at(block, 4) != number as u32)),
        ("in an unsound area", 1, |it| it.old.is_none()),
        ("issue 0 over edition 1", 1, |it| it.issue == 0 && it.is_over(EDITION_1)),
        ("the same table again", 1, |it| it.is_again()),
        ("and 11", 1, |it| it.area.len() < it.fresh.len()),
    ]
}

fn eleven<'a>() -> [Row<Given<'a>>; 6] {
    [
        ("a byte too short", 1, |it| it.lacks() == 1),
        ("a block too short", 1, |it| it.lacks() == BLOCK),
        ("in the last block", 1, |it| it.lacks() < BLOCK),
        ("by more than a block", 1, |it| it.lacks() > BLOCK),
        ("of a sound area", 1, |it| it.old.is_some()),
        ("under 512 bytes", 1, |it| it.area.len() < BLOCK),
    ]
}

/// More blocks than a table can have.
pub fn is_past_the_most(area: &[u8]) -> bool {
    area.len() / BLOCK > MOST_RECORDS as usize + 1
}

/// What stands past the table of a sound area.
pub fn of_area(area: &[u8]) -> Vec<String> {
    let blocks = area.chunks_exact(BLOCK);
    let past = blocks.skip(Table(area).records().count() + 1).collect();
    shown(&past_the_table(), &Past { area, past })
}

/// An area, and its blocks past the table.
struct Past<'a> {
    area: &'a [u8],
    past: Vec<&'a [u8]>,
}

impl Past<'_> {
    /// Whether a record past the count has the header's issue number, or another.
    fn has_record(&self, same: bool) -> bool {
        let is_same = |block: &[u8]| word_at(block, ISSUE) == word_at(self.area, ISSUE);
        self.past.iter().any(|block| block[0] == 2 && is_same(block) == same)
    }
}

fn past_the_table<'a>() -> [Row<Past<'a>>; 6] {
    [
        ("a last piece", 1, |it| it.area.len() % BLOCK != 0),
        ("blocks past the count", 1, |it| !it.past.is_empty()),
        ("blocks past the count of edition 1", 1, |it| !it.past.is_empty() && it.area[EDITION] == EDITION_1),
        ("blocks past the count of edition 2", 1, |it| !it.past.is_empty() && it.area[EDITION] == EDITION_2),
        ("records past the count", 1, |it| it.has_record(true)),
        ("another issue past the count", 1, |it| it.has_record(false)),
    ]
}

/// The rows of sound areas that there must be.
pub fn areas() -> [&'static str; 6] {
    past_the_table().map(|(row, ..)| row)
}

/// The rows that there must be, and how much rarer than others they may be.
pub fn wanted() -> Vec<(String, u64)> {
    let mut wanted = sizes_wanted("taken");
    wanted.extend(all("taken: ", &taken()));
    wanted.extend(all("refused 9, ", &nine()));
    wanted.extend(all("refused 10, ", &ten()));
    wanted.extend(all("refused 11, ", &eleven()));
    for note in NOTES {
        let times = if note == "more blocks than any table has" { 10 } else { 1 };
        wanted.push((format!("made by: {note}"), times));
    }
    wanted.extend(damages_wanted());
    wanted
}
