//! Rules of the table that a list breaks, or just not.

use super::shape::{of_whole, Spoil, Subject};
use crate::gen::model::RecordModel;
use crate::gen::sets;
use crate::rng::Rng;
use crate::table::{LONGEST_IDENTITY, LONGEST_PROFILE, MOST_CAPABILITIES, MOST_NETWORKS, PENDING};

pub const SPOILS: &[Spoil] = &[
    of_whole("rule: the public identity of the line before", |rng, s| {
        let at = s.some_record(rng).filter(|at| *at > 0)?;
        s.model.records[at].public = s.model.records[at - 1].public.clone();
        s.change(at)
    }),
    of_whole("rule: a public identity near that of the line before", |rng, s| {
        let at = s.some_record(rng).filter(|at| *at > 0)?;
        let mut public = s.model.records[at - 1].public.clone();
        match rng.coin() {
            true if public.len() < LONGEST_IDENTITY => public.push(b' '),
            _ => drop(public.pop().filter(|_| !public.is_empty())?),
        }
        s.model.records[at].public = public;
        s.change(at)
    }),
    of_whole("rule: two public identities turned", |rng, s| {
        let at = s.some_record(rng).filter(|at| *at > 0)?;
        let first = s.model.records[at - 1].public.clone();
        s.model.records[at - 1].public = std::mem::replace(&mut s.model.records[at].public, first);
        s.change(at - 1)?;
        s.change(at)
    }),
    of_whole("rule: roaming past the last network", |rng, s| {
        let networks = s.model.networks.len();
        let past = if networks < MOST_NETWORKS { rng.between(networks, MOST_NETWORKS - 1) } else { return None };
        change_one(rng, s, |record| record.roaming |= 1 << past)
    }),
    of_whole("rule: roaming in all networks", |rng, s| {
        let networks = s.model.networks.len();
        change_one(rng, s, |record| record.roaming = (0xFFu16 >> (MOST_NETWORKS - networks)) as u8)
    }),
    of_whole("rule: a profile part past the file", |rng, s| {
        let end = s.profile.len() + 1;
        let length = rng.below(end.min(LONGEST_PROFILE) + 1);
        change_one(rng, s, |record| {
            record.profile_start = (end - length) as u32;
            record.profile_length = length as u16;
        })
    }),
    of_whole("rule: a profile part up to the file's end", |rng, s| {
        let end = s.profile.len();
        let length = rng.below(end.min(LONGEST_PROFILE) + 1);
        change_one(rng, s, |record| {
            record.profile_start = (end - length) as u32;
            record.profile_length = length as u16;
        })
    }),
    of_whole("rule: a shorter profile file", |rng, s| {
        let ends = s.model.records.iter().map(|it| it.profile_start as usize + usize::from(it.profile_length));
        let needed = ends.max().filter(|needed| *needed > 0)?;
        s.profile.truncate(needed - rng.below(2));
        Some(())
    }),
    of_whole("rule: another state", |rng, s| {
        let by = rng.between(1, 2) as u8;
        change_one(rng, s, |record| record.state = (record.state + by) % 3)
    }),
    of_whole("rule: pending turned", |rng, s| change_one(rng, s, |record| record.bits ^= PENDING)),
    of_whole("rule: a server name taken away", |rng, s| change_one(rng, s, |record| record.server_name.clear())),
    of_whole("rule: a server name put in", |rng, s| change_one(rng, s, |record| record.server_name = b"s".to_vec())),
    of_whole("rule: a capability past its count", |rng, s| {
        let (is_mandatory, word) = (rng.coin(), rng.word().max(1));
        let at = s.some_record(rng)?;
        let columns = if is_mandatory { 8..13 } else { 13..18 };
        let words = if is_mandatory { &s.model.records[at].mandatory } else { &s.model.records[at].optional };
        let unused = columns.start + 1 + words.len();
        if words.len() == MOST_CAPABILITIES {
            return None;
        }
        let place = rng.between(unused, columns.end - 1);
        put_number(s.lines.get_mut(at + 1)?, place, word)
    }),
    of_whole("rule: fewer capabilities counted", |rng, s| {
        let at = s.some_record(rng)?;
        let count = s.model.records[at].mandatory.len() as u32;
        put_number(s.lines.get_mut(at + 1)?, 8, count.checked_sub(1)?)
    }),
    of_whole("rule: a set that disagrees", |rng, s| {
        let (one, other) = (s.some_record(rng)?, s.some_record(rng)?);
        if one == other {
            return None;
        }
        let private = s.model.records[one].private.clone();
        let (set, how) = (sets::number(rng).max(1), rng.below(3));
        for at in [one, other] {
            s.model.records[at].private = private.clone();
            s.model.records[at].set = set;
        }
        let first = s.model.records[one].clone();
        let second = &mut s.model.records[other];
        second.state = first.state;
        second.bits = second.bits & !PENDING | first.bits & PENDING;
        second.server_name = first.server_name;
        match how {
            0 => second.state = 3 - second.state.max(1),
            1 => second.server_name.push(b'x'),
            _ => second.bits ^= PENDING,
        }
        s.change(one)?;
        s.change(other)
    }),
    of_whole("rule: another set", |rng, s| {
        let set = sets::number(rng);
        change_one(rng, s, |record| record.set = set)
    }),
];

/// Changes a record; none if that leaves it as it was.
fn change_one(rng: &mut Rng, s: &mut Subject, change: impl Fn(&mut RecordModel)) -> Option<()> {
    let at = s.some_record(rng)?;
    change(&mut s.model.records[at]);
    s.change(at)
}

/// Another number in a column of a line, counted from 0.
fn put_number(line: &mut Vec<u8>, column: usize, number: u32) -> Option<()> {
    // Behind the names no cell is in quotes.
    let from_end = 21 - column;
    let text = line.strip_suffix(b"\r\n")?;
    let mut cells: Vec<&[u8]> = text.rsplitn(from_end + 1, |byte| *byte == b',').collect();
    let digits = number.to_string();
    *cells.get_mut(from_end - 1)? = digits.as_bytes();
    cells.reverse();
    *line = [&cells.join(&b","[..])[..], b"\r\n"].concat();
    Some(())
}
