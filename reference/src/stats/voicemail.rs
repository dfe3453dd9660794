//! The rows of User-Data-Requests: what is asked, and what the document says.

use super::shown::{all, shown, Row};
use crate::cases::{Case, Slice};
use crate::kinds::Kind;
use crate::message::Message;
use crate::read::{read_sh, UserDataRequest};
use crate::sh::{NAME, STATE};
use crate::slip::Slip;
use crate::table::{Record, Table, BARRED, NOT_REGISTERED, PENDING};
use crate::verdict::Why;

/// A request that is decided, with what its rows go by.
struct Given<'a> {
    message: Message<'a>,
    request: UserDataRequest<'a>,
    asked: Vec<u32>,
    record: Option<Record<'a>>,
}

/// The rows of an answered request.
pub fn rows(case: &Case, why: &Why) -> Vec<String> {
    let (bytes, table) = (case.held(Slice::Request), case.held(Slice::Table));
    let request = match (why, read_sh(Message(&bytes), case.stated(), Slip::NONE)) {
        (Why::Decided(_), Ok(request)) => request,
        _ => return vec![],
    };
    let asked: Vec<u32> = request.references.iter().map(|(_, told)| *told).collect();
    let record = Table(&table).records().map(|(_, it)| it).find(|it| it.public() == request.identity);
    let given = Given { message: Message(&bytes), request, asked, record };
    let mut rows = [shown(&of_references(), &given), shown(&beside(), &given)].concat();
    if let (Some(record), true) = (given.record, given.is_served()) {
        rows.extend(given.asked.contains(&STATE).then(|| of_state(record.state(), record.has(PENDING))));
        rows.extend(shown(&of_barring(), &given));
        if given.asked.contains(&NAME) {
            rows.extend(shown(&of_name(), &(record, given.asked.contains(&STATE))));
        }
    }
    rows
}

fn is_served(told: &u32) -> bool {
    [STATE, NAME].contains(told)
}

impl Given<'_> {
    fn is_served(&self) -> bool {
        self.asked.iter().all(is_served)
    }

    /// Whether one is asked for that is not served, and this holds.
    fn is_other(&self, holds: bool) -> bool {
        !self.is_served() && holds
    }

    fn is_marked(&self, kind: Kind) -> bool {
        let avps = self.message.avps().sound(Slip::NONE);
        avps.iter().any(|avp| Kind::of(avp.vendor, avp.code) == Some(kind) && avp.is_marked())
    }
}

fn of_references<'a>() -> [Row<Given<'a>>; 10] {
    [
        ("asked: 11 alone", 1, |it| it.asked == [STATE]),
        ("asked: 12 alone", 1, |it| it.asked == [NAME]),
        ("asked: 11, then 12", 1, |it| it.asked == [STATE, NAME]),
        ("asked: 12, then 11", 1, |it| it.asked == [NAME, STATE]),
        ("asked: one again", 1, |it| {
            it.is_served() && (1..it.asked.len()).any(|n| it.asked[..n].contains(&it.asked[n]))
        }),
        ("asked: another alone", 1, |it| it.is_other(it.asked.len() == 1)),
        ("asked: another behind one that is served", 1, |it| it.is_other(it.asked.first().map_or(false, is_served))),
        ("asked: another before one that is served", 1, |it| it.is_other(it.asked.last().map_or(false, is_served))),
        ("asked: the same in 8 bits alone", 1, |it| it.is_other(it.asked.iter().all(|told| is_served(&(told & 0xFF))))),
        ("asked: another, of an unknown identity", 1, |it| it.is_other(it.record.is_none())),
    ]
}

/// What stands in the request besides.
fn beside<'a>() -> [Row<Given<'a>>; 3] {
    [
        ("beside: 628 with M", 1, |it| it.is_marked(Kind::SupportedFeatures)),
        ("beside: another's User-Name", 1, |it| match (it.request.user_name, it.record) {
            (Some(name), Some(record)) => record.private() != name,
            _ => false,
        }),
        ("beside: no User-Name", 1, |it| it.request.user_name.is_none()),
    ]
}

fn of_state(state: u8, pending: bool) -> String {
    format!("document: state {state}, {}", if pending { "pending" } else { "not pending" })
}

fn of_barring<'a>() -> [Row<Given<'a>>; 1] {
    [("document: of a barred identity", 1, |it| it.record.map_or(false, |record| record.has(BARRED)))]
}

/// Of the record, and whether the state is asked too.
fn of_name<'a>() -> [Row<(Record<'a>, bool)>; 12] {
    [
        ("document: no name stored, and nothing else asked", 1, |(it, both)| it.server_name().is_empty() && !both),
        ("document: no name stored, and the state asked", 1, |(it, both)| it.server_name().is_empty() && *both),
        ("document: a name in state 0", 1, |(it, _)| !it.server_name().is_empty() && it.state() == NOT_REGISTERED),
        ("document: &", 1, |(it, _)| it.server_name().contains(&b'&')),
        ("document: <", 1, |(it, _)| it.server_name().contains(&b'<')),
        ("document: >", 1, |(it, _)| it.server_name().contains(&b'>')),
        ("document: a quote", 1, |(it, _)| it.server_name().contains(&b'"')),
        ("document: an apostrophe", 1, |(it, _)| it.server_name().contains(&b'\'')),
        ("document: a zero byte", 1, |(it, _)| it.server_name().contains(&0)),
        ("document: a control", 1, |(it, _)| it.server_name().iter().any(|byte| (1..32).contains(byte))),
        ("document: a byte over 127", 1, |(it, _)| it.server_name().iter().any(|byte| *byte > 127)),
        ("document: a name of 96 bytes", 1, |(it, _)| it.server_name().len() == 96),
    ]
}

/// The rows that there must be, and how much rarer than others they may be.
pub fn wanted() -> Vec<(String, u64)> {
    let mut wanted: Vec<String> = Vec::new();
    wanted.extend([0, 1, 2].iter().flat_map(|state| ["B2001", "X5100"].map(|it| format!("UDR: state {state}: {it}"))));
    wanted.push("UDR: no record: X5001".to_string());
    let bases = [2001, 3001, 3007, 3008, 3009, 5001, 5004, 5005, 5009, 5011, 5014].map(|code| format!("B{code}"));
    let results = bases.into_iter().chain([5001, 5100].map(|code| format!("X{code}")));
    wanted.extend(results.map(|result| format!("result: {result}")));
    wanted.extend([0, 1, 2].iter().flat_map(|state| [true, false].map(|pending| of_state(*state, pending))));
    wanted.push("answer: the document".to_string());
    let mut wanted: Vec<(String, u64)> = wanted.into_iter().map(|row| (row, 1)).collect();
    wanted.extend(all("", &of_references()));
    wanted.extend(all("", &beside()));
    wanted.extend(all("", &of_barring()));
    wanted.extend(all("", &of_name()));
    wanted
}
