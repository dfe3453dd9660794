//! The rows of features: what comes of 628s, and which answers carry the server's own list.

use super::shown::{all, shown, Row};
use crate::cases::{Case, Slice};
use crate::kinds::{Command, Kind, VENDOR};
use crate::message::{Avp, Message, HEADER};
use crate::read::{features_of, Features};
use crate::slip::Slip;
use crate::verdict::{Code, Why};

/// A request with 628s, and what its rows go by.
struct Given<'a> {
    message: Message<'a>,
    set: u32,
    /// All before the first length fault, and those that pass (a) to (h).
    all: Vec<Avp<'a>>,
    good: Vec<(Avp<'a>, Features)>,
    /// Of these, whether they have M, what they ask for, and whether it is too much.
    asked: Vec<(bool, Features, bool)>,
    /// Of the AVP at fault, 0 if there is none.
    place: usize,
    why: &'a Why,
}

/// The rows of an answered request.
pub fn rows(case: &Case, place: u64, why: &Why) -> Vec<String> {
    let request = case.held(Slice::Request);
    let message = Message(&request);
    let is_one = |avp: &Avp| Kind::of(avp.vendor, avp.code) == Some(Kind::SupportedFeatures);
    let all: Vec<Avp> = message.avps().sound(Slip::NONE).into_iter().filter(is_one).collect();
    if all.is_empty() {
        return vec![];
    }
    let (set, good) = (case.stated().features, features_of(message, Slip::NONE));
    let too_much = |asked: &Features| asked.vendor != VENDOR || asked.list != 1 || asked.bits & !set != 0;
    let asked = good.iter().map(|(avp, asked)| (avp.is_marked(), *asked, too_much(asked))).collect();
    let given = Given { message, set, all, good, asked, place: place as usize, why };
    let is_header = matches!(why, Why::Header(_));
    let mut rows = match (is_header, given.good.is_empty()) {
        (true, true) => vec![],
        (true, false) => vec![NO_LIST.to_string()],
        (false, true) => shown(&without_list(), &given),
        (false, false) => {
            let command = message.command();
            [vec![format!("own list: to a request of {command}")], shown(&with_list(), &given)].concat()
        }
    };
    match why {
        Why::Unsupported(command) => {
            rows.push(format!("X5011: to a request of {}", command.code()));
            rows.extend(shown(&unsupported(), &given));
        }
        Why::Decided(_) => rows.extend(shown(&supported(), &given)),
        _ => {}
    }
    rows
}

const NO_LIST: &str = "no own list: a header fault";

impl Given<'_> {
    /// Whether a 628 with M, or without, asks for too much, or does not.
    fn has(&self, marked: bool, too_much: bool) -> bool {
        self.asked.iter().any(|(m, _, much)| (*m, *much) == (marked, too_much))
    }

    /// Those with M that ask for too much.
    fn too_much(&self) -> impl Iterator<Item = &Features> {
        self.asked.iter().filter(|(marked, _, much)| *marked && *much).map(|(_, asked, _)| asked)
    }

    fn asks_for_all(&self) -> bool {
        self.set != 0 && self.asked.iter().any(|(marked, asked, _)| *marked && asked.bits == self.set)
    }

    /// A SAR of types 0 to 3 without identity or with several.
    fn is_assignment_at_fault(&self) -> bool {
        let avps = self.message.avps().sound(Slip::NONE);
        let of = |kind: Kind| avps.iter().filter(move |avp| Kind::of(avp.vendor, avp.code) == Some(kind));
        let is_early = of(Kind::ServerAssignmentType).any(|avp| avp.data.len() == 4 && avp.data[3] < 4);
        self.message.command() == Command::ServerAssignment.code() && is_early && of(Kind::PublicIdentity).count() != 1
    }

    fn is_first_alone(&self) -> bool {
        self.all.iter().all(|avp| avp.at == HEADER)
    }

    fn is_reserved_alone(&self) -> bool {
        self.all.iter().all(|avp| avp.has_reserved_flags())
    }

    /// Whether the good ones stand before the AVP at fault alone.
    fn is_before_alone(&self) -> bool {
        self.place != 0 && self.good.iter().all(|(avp, _)| avp.at < self.place)
    }

    fn is_behind_alone(&self) -> bool {
        self.place != 0 && self.good.iter().all(|(avp, _)| avp.at > self.place)
    }

    /// Whether the request was decided, with a success or an error.
    fn is_decided(&self, success: bool) -> bool {
        let is_success = |code: Option<Code>| matches!(code, Some(Code::Base(2001) | Code::Experimental(2001..=2004)));
        matches!(self.why, Why::Decided(decision) if is_success(decision.result) == success)
    }
}

fn supported<'a>() -> [Row<Given<'a>>; 4] {
    [
        ("628: with M and supported, goes on", 1, |it| it.has(true, false)),
        ("628: with M and every bit of the set, goes on", 1, |it| it.asks_for_all()),
        ("628: without M and unsupported, goes on", 1, |it| it.has(false, true)),
        ("628: without M and supported, goes on", 1, |it| it.has(false, false)),
    ]
}

fn unsupported<'a>() -> [Row<Given<'a>>; 7] {
    [
        ("X5011: a bit outside the set alone", 1, |it| it.too_much().all(|of| of.vendor == VENDOR && of.list == 1)),
        ("X5011: beside a bit of the set", 1, |it| {
            it.too_much().all(|of| of.vendor == VENDOR && of.list == 1 && of.bits & it.set != 0)
        }),
        ("X5011: another vendor alone, and no bit", 1, |it| {
            it.too_much().all(|of| of.vendor != VENDOR && of.list == 1 && of.bits == 0)
        }),
        ("X5011: another list alone, and no bit", 1, |it| {
            it.too_much().all(|of| of.vendor == VENDOR && of.list != 1 && of.bits == 0)
        }),
        ("X5011: by one 628 of several", 1, |it| it.good.len() > 1 && it.too_much().count() == 1),
        ("X5011: of an empty set", 1, |it| it.set == 0),
        ("X5011: to a SAR that is at fault besides", 1, |it| it.is_assignment_at_fault()),
    ]
}

fn without_list<'a>() -> [Row<Given<'a>>; 3] {
    [
        ("no own list: a 628 first alone", 1, |it| it.is_first_alone()),
        ("no own list: reserved flags alone", 2, |it| it.is_reserved_alone()),
        ("no own list: 628s of bad content", 1, |it| !it.is_first_alone() && !it.is_reserved_alone()),
    ]
}

/// Where the 628s stand that call for it, and beside what.
fn with_list<'a>() -> [Row<Given<'a>>; 16] {
    [
        ("own list: before the AVP at fault alone", 1, |it| it.is_before_alone()),
        ("own list: behind the AVP at fault alone", 1, |it| it.is_behind_alone()),
        ("own list: behind a 4-byte kind at fault alone", 4, |it| {
            matches!(it.why, Why::Rule('g', _)) && it.is_behind_alone()
        }),
        ("own list: before a length fault", 1, |it| matches!(it.why, Why::Rule('a', _))),
        ("own list: beside a 628 at fault", 1, |it| it.all.len() > it.good.len()),
        ("own list: once for several", 1, |it| it.good.len() > 1),
        ("own list: without M alone", 1, |it| it.good.iter().all(|(avp, _)| !avp.is_marked())),
        ("own list: of no bit", 1, |it| it.set == 0),
        ("own list: of all bits", 1, |it| it.set == u32::MAX),
        ("own list: beside X5011", 1, |it| matches!(it.why, Why::Unsupported(_))),
        ("own list: beside a missing AVP", 1, |it| matches!(it.why, Why::Missing(_))),
        ("own list: beside (b)", 2, |it| matches!(it.why, Why::Rule('b', _))),
        ("own list: beside B3009", 1, |it| matches!(it.why, Why::Rule('c', _))),
        ("own list: beside another rule", 1, |it| matches!(it.why, Why::Rule('a' | 'd'..='h', _))),
        ("own list: beside a success", 1, |it| it.is_decided(true)),
        ("own list: beside an error of a decision", 1, |it| it.is_decided(false)),
    ]
}

/// The rows that there must be, and how much rarer than others they may be.
pub fn wanted() -> Vec<(String, u64)> {
    let mut wanted = vec![(NO_LIST.to_string(), 1)];
    wanted.extend(all("", &supported()));
    wanted.extend(all("", &unsupported()));
    wanted.extend(all("", &without_list()));
    wanted.extend(all("", &with_list()));
    for command in 300..=303 {
        wanted.push((format!("X5011: to a request of {command}"), 1));
        wanted.push((format!("own list: to a request of {command}"), 1));
    }
    wanted
}
