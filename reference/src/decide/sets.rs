//! What a set has to do with a request: whom an effect reaches, and who goes on though barred.

use std::collections::HashSet;

use crate::slip::{Fault, Slip};
use crate::table::{Record, Rewriting, Set, Table, BARRED, PENDING, REGISTERED};

/// Records with their block numbers.
pub type Records<'a> = Vec<(usize, Record<'a>)>;

/// These records, and behind them all others of their sets in table order.
pub fn closed<'a>(table: Table<'a>, named: &[(usize, Record<'a>)], slip: Slip) -> Records<'a> {
    let sets: HashSet<Set> = named.iter().filter_map(|(_, record)| reached(*record, slip)).collect();
    let blocks: HashSet<usize> = named.iter().map(|(block, _)| *block).collect();
    let last = blocks.iter().max().copied().unwrap_or(0);
    let is_of_one = |record: Record| reached(record, slip).map_or(false, |set| sets.contains(&set));
    let others = table.records().filter(|(block, record)| !blocks.contains(block) && is_of_one(*record));
    let others: Records = match slip.0 {
        Some(Fault::EffectReachesLaterMembers) => others.filter(|(block, _)| *block > last).collect(),
        Some(Fault::EffectReachesEarlierMembers) => others.filter(|(block, _)| *block < last).collect(),
        Some(Fault::EffectReachesOneMore) => others.take(1).collect(),
        Some(Fault::EffectReachesUnbarred) => others.filter(|(_, record)| !record.has(BARRED)).collect(),
        _ => others.collect(),
    };
    named.iter().copied().chain(others).collect()
}

/// The set that an effect on a record reaches, or as a faulty program takes it.
fn reached(record: Record, slip: Slip) -> Option<Set> {
    let (private, number) = (record.private(), record.set());
    match slip.0 {
        Some(Fault::EffectOnNamedAlone) => None,
        Some(Fault::EffectReachesNumber) => Some((&[][..], number)).filter(|_| number != 0),
        Some(Fault::EffectReachesSetZero) => Some((private, number)),
        Some(Fault::EffectReachesIn8Bits) => Some((private, number & 0xFF)).filter(|_| number != 0),
        Some(Fault::GreatSetsNotReached) => record.implicit_set().filter(|_| number >> 15 == 0),
        _ => record.implicit_set(),
    }
}

/// What becomes of a record of the set that is not named: the same.
pub fn shared(rewriting: Rewriting, member: Record, slip: Slip) -> Rewriting {
    match slip.0 {
        Some(Fault::SetKeepsState) => Rewriting { state: member.state(), ..rewriting },
        Some(Fault::SetKeepsPending) => Rewriting { pending: member.has(PENDING), ..rewriting },
        Some(Fault::SetKeepsName) => Rewriting { server_name: None, ..rewriting },
        _ => rewriting,
    }
}

/// The first record of a set, or the record itself if it is of none.
pub fn first_of_set<'a>(table: Table<'a>, of: Record<'a>) -> Record<'a> {
    members(table, of).next().unwrap_or(of)
}

/// The records of its set, itself too; none if it is of none.
pub fn members<'a>(table: Table<'a>, of: Record<'a>) -> impl Iterator<Item = Record<'a>> {
    let set = of.implicit_set();
    table.records().map(|(_, record)| record).filter(move |record| set.is_some() && record.implicit_set() == set)
}

/// An identity is barred if its record is, and no record of its set is not.
pub fn is_barred(table: Table, asked: Record, asked_type: u32, slip: Slip) -> bool {
    if slip.is(Fault::SetBarsFree) && members(table, asked).any(|record| record.has(BARRED)) {
        return true;
    }
    asked.has(BARRED) && !goes_on(table, asked, asked_type, slip)
}

/// Whether a barred identity goes on with one of its set, or as a faulty program has it.
fn goes_on(table: Table, asked: Record, asked_type: u32, slip: Slip) -> bool {
    let (private, number) = (asked.private(), asked.set());
    let free = |record: &Record| !record.has(BARRED);
    let any_free = |counts: &dyn Fn(&Record) -> bool| table.records().any(|(_, it)| free(&it) && counts(&it));
    let mut of_set = members(table, asked);
    match slip.0 {
        Some(Fault::BarringNotAsked) => true,
        Some(Fault::BarringFreeForType1) if asked_type == 1 => true,
        Some(Fault::BarringIgnoresSets) => false,
        Some(Fault::SetFreesType0Alone) if asked_type != 0 => false,
        Some(Fault::FreeOfNumberCounts) => number != 0 && any_free(&|it| it.set() == number),
        Some(Fault::FreeOfSetZeroCounts) => any_free(&|it| it.private() == private && it.set() == number),
        Some(Fault::FreeOfSubscriptionCounts) => any_free(&|it| it.private() == private),
        Some(Fault::FreeIn8BitsCounts) => {
            number != 0 && any_free(&|it| it.private() == private && it.set() as u8 == number as u8)
        }
        Some(Fault::BarredOfSetGoesOn) => number != 0,
        Some(Fault::AllOthersMustBeFree) => {
            let others: Vec<Record> = of_set.filter(|it| it.public() != asked.public()).collect();
            !others.is_empty() && others.iter().all(free)
        }
        Some(Fault::FirstOfSetMustBeFree) => of_set.next().map_or(false, |first| free(&first)),
        Some(Fault::LastOfSetMustBeFree) => of_set.last().map_or(false, |last| free(&last)),
        Some(Fault::FreeMustBeRegistered) => of_set.any(|it| free(&it) && it.state() == REGISTERED),
        _ => of_set.any(|it| free(&it)),
    }
}
