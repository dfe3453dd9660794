//! The rows of exports and imports.

use super::sets;
use super::shown::{all, shown, Row};
use super::sizes::{damages_wanted, size, sizes_wanted};
use crate::block::{word_at, BLOCK};
use crate::cases::{Case, Entry, Outcome, Slice};
use crate::gen::lists::{spoils, OF_EXPORTS, OF_IMPORTS};
use crate::list::{self, is_listable, judge, names_above, Blame, Reason, FIRST_LINE};
use crate::slip::{Fault, Slip};
use crate::table::{check, check_exactly, header, Record, Table, EDITION, EDITION_1};

pub fn rows(case: &Case, outcome: &Outcome) -> Vec<String> {
    let (which, rows) = match case.entry {
        Entry::Export => ("export", exported(case, outcome)),
        _ => ("import", imported(case, outcome)),
    };
    rows.into_iter().map(|row| format!("{which}: {row}")).collect()
}

fn under(number: u64, rows: Vec<String>) -> Vec<String> {
    rows.into_iter().map(|row| format!("refused {number}, {row}")).collect()
}

/// An export, with what its rows go by.
struct Given<'a> {
    table: &'a [u8],
    profile_length: usize,
    area: usize,
    /// The block that is blamed, if one is.
    block: usize,
}

fn exported(case: &Case, outcome: &Outcome) -> Vec<String> {
    let (table, profile_length) = (case.held(Slice::Table), case.held(Slice::Profile).len());
    let (number, _, value) = outcome.parts();
    let given = Given { table: &table, profile_length, area: case.held(Slice::List).len(), block: value as usize };
    match number {
        0 => [vec![format!("{} records", size(given.records().count()))], shown(&written(), &given)].concat(),
        5 => under(5, shown(&unsound(), &given)),
        13 => under(13, shown(&unlistable(), &given)),
        _ => under(15, shown(&list_area_short(), &given)),
    }
}

/// The three names of a record.
fn names(record: Record<'_>) -> [&[u8]; 3] {
    [record.public(), record.private(), record.server_name()]
}

fn is_strange(name: &[u8]) -> bool {
    !name.iter().all(|byte| is_listable(*byte))
}

impl<'a> Given<'a> {
    fn records(&self) -> impl Iterator<Item = Record<'a>> {
        Table(self.table).records().map(|(_, record)| record)
    }

    fn some(&self, holds: impl Fn(Record) -> bool) -> bool {
        self.records().any(holds)
    }

    fn has_name_with(&self, byte: u8) -> bool {
        self.some(|it| names(it).iter().any(|name| name.contains(&byte)))
    }

    fn has_line_over(&self, length: usize) -> bool {
        list::list(Table(self.table)).iter().any(|line| line.len() > length)
    }

    fn length(&self) -> usize {
        list::list(Table(self.table)).concat().len()
    }

    fn checked(&self) -> Result<u32, u32> {
        check_exactly(self.table, self.profile_length)
    }

    fn is_old(&self) -> bool {
        self.checked().is_ok() && self.table[EDITION] == EDITION_1
    }

    fn strange_records(&self) -> usize {
        self.records().filter(|it| names(*it).iter().any(|name| is_strange(name))).count()
    }

    /// Whether of the blamed record's names this one alone cannot be listed.
    fn is_alone(&self, at: usize) -> bool {
        let names = names(Table(self.table).record(self.block));
        names.iter().enumerate().all(|(n, name)| is_strange(name) == (n == at))
    }

    /// Whether it holds of all bytes in them that cannot be listed.
    fn all(&self, holds: impl Fn(u8) -> bool) -> bool {
        let names = names(Table(self.table).record(self.block)).concat();
        names.into_iter().filter(|byte| !is_listable(*byte)).all(holds)
    }
}

fn written<'a>() -> [Row<Given<'a>>; 17] {
    [
        ("a quote in a name", 1, |it| it.has_name_with(b'"')),
        ("a comma in a name", 1, |it| it.has_name_with(b',')),
        ("a space in a name", 1, |it| it.has_name_with(b' ')),
        ("byte 126 in a name", 1, |it| it.has_name_with(b'~')),
        ("no server name", 1, |it| it.some(|it| it.server_name().is_empty())),
        ("a line over 512 bytes", 1, |it| it.has_line_over(512)),
        ("a line over 700 bytes", 1, |it| it.has_line_over(700)),
        ("a host that could not be listed", 1, |it| {
            let header = Table(it.table).header();
            is_strange(header.host()) || is_strange(header.realm())
        }),
        ("a network that could not be listed", 1, |it| {
            let header = Table(it.table).header();
            (0..header.networks()).any(|n| is_strange(header.network(n)))
        }),
        ("roaming of 128 and more", 1, |it| it.some(|it| it.roams_in(7))),
        ("four capabilities", 1, |it| it.some(|it| it.mandatory().len() == 4)),
        ("a capability of 2^31 and more", 1, |it| it.some(|it| it.mandatory().iter().any(|word| word >> 31 == 1))),
        ("a profile start over 65,535", 4, |it| it.some(|it| it.profile_start() > 0xFFFF)),
        ("a profile length over 255", 1, |it| it.some(|it| it.profile_length() > 255)),
        ("a set over 255", 1, |it| it.some(|it| it.set() > 255)),
        ("an area as long as the list", 1, |it| it.area == it.length()),
        ("a longer area", 1, |it| it.area > it.length()),
    ]
}

fn unsound<'a>() -> [Row<Given<'a>>; 8] {
    [
        ("edition 1", 1, |it| it.is_old()),
        ("edition 1, and 13", 1, |it| it.is_old() && it.strange_records() > 0),
        ("edition 1, and 15", 2, |it| it.is_old() && it.area < FIRST_LINE.len()),
        ("block 0", 1, |it| it.checked() == Err(0)),
        ("a record", 1, |it| it.checked().map_or_else(|block| block > 0, |_| false)),
        ("a longer table", 1, |it| it.checked().is_err() && check(it.table, it.profile_length).is_ok()),
        ("a set disagrees", 1, |it| sets::disagrees(it.table, it.profile_length)),
        ("under 512 bytes", 4, |it| it.table.len() < BLOCK),
    ]
}

fn unlistable<'a>() -> [Row<Given<'a>>; 11] {
    [
        ("block 1", 1, |it| it.block == 1),
        ("a later block", 1, |it| it.block > 1),
        ("several", 1, |it| it.strange_records() > 1),
        ("the public identity alone", 1, |it| it.is_alone(0)),
        ("the private identity alone", 1, |it| it.is_alone(1)),
        ("the server name alone", 1, |it| it.is_alone(2)),
        ("bytes under 32 alone", 1, |it| it.all(|byte| byte < 32)),
        ("byte 31 alone", 1, |it| it.all(|byte| byte == 31)),
        ("byte 127 alone", 1, |it| it.all(|byte| byte == 127)),
        ("bytes over 127 alone", 1, |it| it.all(|byte| byte > 127)),
        ("and 15", 1, |it| it.area < it.length()),
    ]
}

fn list_area_short<'a>() -> [Row<Given<'a>>; 5] {
    [
        ("a byte too short", 1, |it| it.length() - it.area == 1),
        ("two bytes too short", 1, |it| it.length() - it.area == 2),
        ("by more", 1, |it| it.length() - it.area > 2),
        ("nothing", 1, |it| it.area == 0),
        ("room for the first line", 1, |it| it.area >= FIRST_LINE.len()),
    ]
}

/// An import, with what its rows go by.
struct Taken<'a> {
    list: &'a [u8],
    head: &'a [u8],
    profile_length: usize,
    area: usize,
    /// The line that is blamed, and why, if the header block is there.
    blame: Option<Blame>,
    /// The public identities of the first lines, as many as can be told.
    publics: Vec<Vec<u8>>,
}

fn imported(case: &Case, outcome: &Outcome) -> Vec<String> {
    let (list, head) = (case.held(Slice::List), case.held(Slice::Header));
    let (profile_length, area) = (case.held(Slice::Profile).len(), case.held(Slice::Table).len());
    let blame = head.get(..BLOCK).and_then(|block| judge(&list, block, profile_length, Slip::NONE).err());
    let lines = list.split_inclusive(|byte| *byte == b'\n').skip(1);
    let name = |line: &[u8]| line.get(1..).unwrap_or(&[]).iter().copied().take_while(|byte| *byte != b'"').collect();
    let given = Taken { list: &list, head: &head, profile_length, area, blame, publics: lines.map(name).collect() };
    match outcome.parts().0 {
        0 => [vec![format!("{} records", size(given.count()))], shown(&taken(), &given)].concat(),
        5 => under(5, shown(&no_header_block(), &given)),
        14 => under(14, shown(&blamed(), &given)),
        _ => under(15, shown(&table_area_short(), &given)),
    }
}

impl Taken<'_> {
    fn count(&self) -> usize {
        word_at(self.head, header::COUNT) as usize
    }

    fn needed(&self) -> usize {
        BLOCK.saturating_mul(self.count() + 1)
    }

    fn has_block(&self) -> bool {
        self.head.len() >= BLOCK
    }

    /// Whether a header block of 512 bytes is of edition 1, or of another.
    fn is_whole(&self, old: bool) -> bool {
        self.head.len() == BLOCK && (self.head[EDITION] == EDITION_1) == old
    }

    fn is(&self, reason: Reason) -> bool {
        self.blame.map_or(false, |blame| blame.reason == reason)
    }

    /// The number of the blamed line; 0 if none is.
    fn line(&self) -> usize {
        self.blame.map_or(0, |blame| blame.line as usize)
    }

    /// How many lines there are whose end is.
    fn ended_lines(&self) -> usize {
        self.list.iter().filter(|byte| **byte == b'\n').count()
    }

    /// How many names are left above a line's.
    fn names_above(&self, line: usize) -> u64 {
        names_above(&self.publics[line - 2], Slip::NONE)
    }

    /// How many lines must follow it.
    fn followers(&self, line: usize) -> u64 {
        (self.count() + 1).saturating_sub(line) as u64
    }

    /// Whether the blamed line has too few names left, and a name of this length.
    fn lacks_room(&self, length: usize) -> bool {
        self.is(Reason::Room) && self.publics[self.line() - 2].len() == length
    }

    /// Whether it has, and a program that does not look ahead would find this.
    fn is_before(&self, later: Reason) -> bool {
        let blame = || judge(self.list, self.head, self.profile_length, Slip::of(Fault::RoomNotAsked)).err();
        self.is(Reason::Room) && blame().map_or(false, |blame| blame.reason == later)
    }
}

fn taken<'a>() -> [Row<Taken<'a>>; 3] {
    [
        ("an area as long as the table", 1, |it| it.area == it.needed()),
        ("a longer area", 1, |it| it.area > it.needed()),
        ("the last name that there is", 1, |it| it.publics.last().map_or(false, |it| names_above(it, Slip::NONE) == 0)),
    ]
}

fn no_header_block<'a>() -> [Row<Taken<'a>>; 7] {
    [
        ("under 512 bytes", 1, |it| !it.has_block()),
        ("over 512 bytes", 1, |it| it.head.len() > BLOCK),
        ("edition 1", 1, |it| it.is_whole(true)),
        ("unsound", 1, |it| it.is_whole(false)),
        ("and 14", 1, |it| it.has_block() && it.blame.is_some()),
        ("and no 14", 1, |it| it.has_block() && it.blame.is_none()),
        ("and 15", 1, |it| it.has_block() && it.area < it.needed()),
    ]
}

fn blamed<'a>() -> [Row<Taken<'a>>; 19] {
    [
        ("form", 1, |it| it.is(Reason::Form)),
        ("rule", 1, |it| it.is(Reason::Rule)),
        ("room", 1, |it| it.is(Reason::Room)),
        ("missing", 1, |it| it.is(Reason::Missing)),
        ("surplus", 1, |it| it.is(Reason::Surplus)),
        ("line 1", 1, |it| it.line() == 1),
        ("line 2", 1, |it| it.line() == 2),
        ("a later line", 1, |it| it.line() > 2),
        ("line 1 missing", 1, |it| it.line() == 1 && it.is(Reason::Missing)),
        ("surplus behind line 1", 1, |it| it.line() == 2 && it.is(Reason::Surplus)),
        ("a cut line", 1, |it| it.is(Reason::Form) && it.line() > it.ended_lines()),
        ("and 15", 1, |it| it.area < it.needed()),
        ("missing, with just as many names as lines that must follow", 1, |it| {
            it.is(Reason::Missing) && (2..it.line()).any(|line| it.names_above(line) == it.followers(line))
        }),
        ("room, a name of 127 bytes", 1, |it| it.lacks_room(127)),
        ("room, a name of 128 bytes", 1, |it| it.lacks_room(128)),
        ("room, one name too few", 1, |it| {
            it.is(Reason::Room) && it.names_above(it.line()) + 1 == it.followers(it.line())
        }),
        ("room, before a missing line", 1, |it| it.is_before(Reason::Missing)),
        ("room, before a line of another form", 1, |it| it.is_before(Reason::Form)),
        ("room, before a line against a rule", 1, |it| it.is_before(Reason::Rule)),
    ]
}

fn table_area_short<'a>() -> [Row<Taken<'a>>; 3] {
    [
        ("a byte too short", 1, |it| it.needed() - it.area == 1),
        ("a block too short", 1, |it| it.needed() - it.area == BLOCK),
        ("by more", 1, |it| it.needed() - it.area > BLOCK),
    ]
}

/// The rows that there must be, and how much rarer than others they may be.
pub fn wanted() -> Vec<(String, u64)> {
    let mut wanted = [sizes_wanted("export"), sizes_wanted("import")].concat();
    wanted.extend(all("export: ", &written()));
    wanted.extend(all("export: refused 5, ", &unsound()));
    wanted.extend(all("export: refused 13, ", &unlistable()));
    wanted.extend(all("export: refused 15, ", &list_area_short()));
    wanted.extend(all("import: ", &taken()));
    wanted.extend(all("import: refused 5, ", &no_header_block()));
    wanted.extend(all("import: refused 14, ", &blamed()));
    wanted.extend(all("import: refused 15, ", &table_area_short()));
    let made = OF_EXPORTS.into_iter().chain(OF_IMPORTS).chain(spoils().map(|spoil| spoil.name));
    wanted.extend(made.map(|note| (format!("made by: {note}"), 1)));
    wanted.extend(damages_wanted());
    wanted
}
