//! The neighbour's line, document 02's request 9, on the outcomes of a driver: the same request over two tables that agree in what it is about
//! gets the same answer, whatever else the two hold. And what happens where a hypothesis is broken.

use std::collections::{BTreeMap, BTreeSet};
use std::io;
use std::ops::Range;
use std::time::Instant;

use crate::account;
use crate::block::{word_at, BLOCK};
use crate::cases::{Case, Outcome, Slice};
use crate::compare::Fed;
use crate::gen::neighbours::{broken, pair, Breach, BREACHES, SILENT};
use crate::hypotheses::{self, Hypothesis};
use crate::kinds::{Command, Dialect, Kind};
use crate::message::Message;
use crate::read::{vendors_of, SEVERAL};
use crate::serve;
use crate::sh;
use crate::slip::Slip;
use crate::stats::{least, ROUNDS};
use crate::table::{header, Table, EDITION, EDITION_2, ISSUE};
use crate::verdict::{Decision, Why};

/// What a call gave: the word, and the answer's bytes if it was answered.
#[derive(Clone, PartialEq)]
struct Given {
    word: u64,
    answer: Vec<u8>,
}

impl Given {
    fn is_answered(&self) -> bool {
        serve::parts(self.word).0 == 0
    }

    /// What a driver's outcome says; none if something was altered that may not be, or if the buffer was past the answer.
    fn of(case: &Case, outcome: &Outcome) -> Option<Given> {
        let answer = case.answer(outcome).filter(|_| outcome.altered == 0)?;
        Some(Given { word: outcome.word, answer })
    }
}

/// What is known of a pair before the driver is asked.
struct Told {
    /// With nothing but their buffers.
    bare: [Case; 2],
    broken: BTreeSet<Hypothesis>,
    /// What this program gives.
    own: [Given; 2],
    /// What it is counted under if both are answered.
    rows: Vec<String>,
}

/// What comes of a pair.
#[derive(Clone, Copy, PartialEq)]
enum Found {
    /// A call was refused.
    Aside,
    Same,
    /// Other bytes, or another length or place.
    Another,
}

fn found(given: &[Given; 2]) -> Found {
    match given {
        [one, other] if !one.is_answered() || !other.is_answered() => Found::Aside,
        [one, other] if one == other => Found::Same,
        _ => Found::Another,
    }
}

/// This program's calls, with their reasons.
fn own(calls: &[Case; 2]) -> ([Given; 2], [Why; 2]) {
    let [(one, why), (other, another)] = [0, 1].map(|side| {
        let case = &calls[side];
        let mut buffer = vec![0; case.buffer()];
        let (mut table, mut vectors) = (case.held(Slice::Table).into_owned(), case.held(Slice::Vectors).into_owned());
        let (request, profile, stated) = (case.held(Slice::Request), case.held(Slice::Profile), case.stated());
        let (word, why) = match case.entry.dialect() {
            Dialect::Cx => serve::serve(&request, &mut table, &profile, &mut vectors, &mut buffer, stated, Slip::NONE),
            Dialect::Sh => sh::user_data(&request, &table, &profile, &mut buffer, stated, Slip::NONE),
        };
        let (number, _, value) = serve::parts(word);
        buffer.truncate(if number == 0 { value as usize } else { 0 });
        (Given { word, answer: buffer }, why)
    });
    ([one, other], [why, another])
}

fn told(calls: &[Case; 2]) -> Told {
    let (own, why) = own(calls);
    let bare = [0, 1].map(|side| calls[side].with_buffer_alone());
    Told { bare, broken: hypotheses::broken(calls), rows: rows(calls, &own, &why[0]), own }
}

/// True if the driver's answers of all pairs of an interface are the same, and this program's too.
pub fn compare(dialect: Dialect, seed: u64, numbers: Range<u64>, command: &[String]) -> io::Result<bool> {
    let began = Instant::now();
    let mut tally = Tally::of(dialect);
    let mut fed = Fed::start(command, numbers.clone(), move |number| {
        let calls = pair(dialect, seed, number);
        let told = told(&calls);
        (calls.into(), told)
    })?;
    for number in numbers.clone() {
        let told = match fed.told.recv() {
            Ok(told) => told,
            Err(_) => break,
        };
        let outcomes = match (fed.outcome(), fed.outcome()) {
            (Ok(one), Ok(other)) => [one, other],
            _ => {
                println!("no outcome for pair {number} of seed {seed}");
                fed.end()?;
                return Ok(false);
            }
        };
        if let Err(what) = relates(&told, &outcomes) {
            println!("pair {number} of seed {seed}: {what}");
            tell(&pair(dialect, seed, number), &outcomes);
            fed.abandon();
            return Ok(false);
        }
        tally.count(&told);
    }
    if !fed.end()? || tally.pairs != numbers.end - numbers.start {
        return Ok(false);
    }
    println!("{}; {:.1} s", tally.sum(), began.elapsed().as_secs_f64());
    // Fewer by chance is no fault here: where few are expected none is asked for, so that a pair can be run again by itself.
    Ok(!tally.is_thin(|pairs, one_in| if pairs < 100 * one_in { 0 } else { least(pairs, one_in) }))
}

fn relates(told: &Told, outcomes: &[Outcome; 2]) -> Result<(), String> {
    if !told.broken.is_empty() {
        return Err(format!("these hypotheses are broken: {:?}", told.broken));
    }
    if found(&told.own) == Found::Another {
        return Err("this program's own answers differ".to_string());
    }
    let given = match [0, 1].map(|side| Given::of(&told.bare[side], &outcomes[side])) {
        [Some(one), Some(other)] => [one, other],
        _ => return Err("bytes were altered that may not be".to_string()),
    };
    match (found(&given), found(&told.own)) {
        (Found::Another, _) => Err("the answers differ".to_string()),
        (Found::Aside, Found::Same) => Err("a call is not answered".to_string()),
        _ => Ok(()),
    }
}

fn tell(calls: &[Case; 2], outcomes: &[Outcome; 2]) {
    println!("  request:\n{}", account::lines(&calls[0].held(Slice::Request)));
    for (which, case, outcome) in [("one", &calls[0], &outcomes[0]), ("the other", &calls[1], &outcomes[1])] {
        println!("  {which}: {}", account::word(case.entry, outcome));
        account::answer(which, case, outcome);
        for slice in [Slice::Table, Slice::Profile, Slice::Vectors].iter().filter(|it| case.held(**it).len() < 20_000) {
            println!("  {} of {which}:\n{}", slice.name(), account::lines(&case.held(*slice)));
        }
    }
}

/// How many pairs there were, and of what kinds.
struct Tally {
    dialect: Dialect,
    pairs: u64,
    answered: u64,
    rows: BTreeMap<String, u64>,
}

impl Tally {
    fn of(dialect: Dialect) -> Tally {
        Tally { dialect, pairs: 0, answered: 0, rows: BTreeMap::new() }
    }

    fn count(&mut self, told: &Told) {
        self.pairs += 1;
        if found(&told.own) != Found::Same {
            return;
        }
        self.answered += 1;
        told.rows.iter().for_each(|row| *self.rows.entry(row.clone()).or_insert(0) += 1);
    }

    fn print(&self) {
        for (row, count) in &self.rows {
            println!("{count:9} {:8.3}%  {row}", *count as f64 * 100.0 / self.pairs as f64);
        }
    }

    fn sum(&self) -> String {
        let Tally { pairs, answered, .. } = self;
        format!(
            "{pairs} pairs: {answered} answered on both sides, with the same bytes; {} left aside",
            pairs - answered
        )
    }

    /// Whether a row has too few, which is said.
    fn is_thin(&self, least: impl Fn(u64, u64) -> u64) -> bool {
        let mut thin = false;
        for (row, one_in) in wanted(self.dialect) {
            let (count, least) = (self.rows.get(&row).copied().unwrap_or(0), least(self.pairs, one_in));
            if count < least {
                println!("too few: {row}: {count} of {least}");
                thin = true;
            }
        }
        thin
    }

    fn is_full(&self) -> bool {
        wanted(self.dialect)
            .iter()
            .all(|(row, one_in)| self.rows.get(row).map_or(false, |it| *it >= least(self.pairs, *one_in)))
    }
}

/// Counts pairs as this program answers them. Where a row has too few, the next pairs of the seed are counted too.
pub fn stats(dialect: Dialect, seed: u64, numbers: Range<u64>) -> bool {
    let mut tally = Tally::of(dialect);
    let (first, count) = (numbers.start, numbers.end - numbers.start);
    for round in 0..ROUNDS {
        for number in first + round * count..first + (round + 1) * count {
            let told = told(&pair(dialect, seed, number));
            if !told.broken.is_empty() || found(&told.own) == Found::Another {
                println!("pair {number} of seed {seed}: hypotheses broken: {:?}", told.broken);
                return false;
            }
            tally.count(&told);
        }
        if tally.is_full() {
            break;
        }
    }
    tally.print();
    println!("{}", tally.sum());
    !tally.is_thin(least)
}

const OWN_LIST: &str = "features: the own list is sent";
const OVER_256: &str = "decided: over 256 records or more on a side";
const OVER_2048: &str = "decided: over 2,048 records or more on a side";

/// What an answered pair is counted under: command and result, and what the two sides differ in.
fn rows(calls: &[Case; 2], own: &[Given; 2], why: &Why) -> Vec<String> {
    if found(own) == Found::Aside {
        return vec![];
    }
    let mut rows = vec![match why {
        Why::Decided(decision) => decided(decision),
        Why::Unsupported(command) => format!("{} X5011", name(command.code())),
        Why::Header(_) => "header at fault".to_string(),
        _ => format!("{} with a fault in reading", name(Message(&calls[0].held(Slice::Request)).command())),
    }];
    if let Why::Decided(decision) = why {
        rows.extend(asked(decision, &calls[0].held(Slice::Request)));
        let counts = [0, 1].map(|side| word_at(&calls[side].held(Slice::Table), header::COUNT));
        if counts.iter().all(|count| *count > 0) {
            let edition = calls[0].held(Slice::Table)[EDITION];
            rows.push(format!("decided: over edition {edition}, records on both sides"));
        }
        for (least, row) in [(256, OVER_256), (2048, OVER_2048)] {
            if counts.iter().any(|count| *count >= least) {
                rows.push(row.to_string());
            }
        }
    }
    rows.extend(differences(calls).into_iter().map(|what| format!("differs: {what}")));
    rows.push(peer(&calls[0], why));
    if Message(&own[0].answer).avps().sound(Slip::NONE).iter().any(|avp| avp.code == Kind::SupportedFeatures.code()) {
        rows.push(OWN_LIST.to_string());
    }
    rows
}

/// The peer's edition, and what comes of several Vendor-Ids.
fn peer(call: &Case, why: &Why) -> String {
    let request = call.held(Slice::Request);
    let all = Message(&request).avps().sound(Slip::NONE);
    let is_several = all.iter().any(|avp| avp.code == 260 && avp.vendor.is_none() && vendors_of(*avp).len() > 1);
    let came = match why {
        Why::Rule('h', SEVERAL) => ", several Vendor-Ids: B5009",
        Why::Decided(_) if is_several => ", several Vendor-Ids: decided",
        _ => "",
    };
    format!("peer: RFC {}{came}", call.stated().peer)
}

fn decided(decision: &Decision) -> String {
    let result = decision.result.map_or(String::new(), |result| result.to_string());
    let command = decision.command.map_or(0, |command| command.code());
    format!("{} {result}", name(command))
}

/// What is asked in a request that is decided.
fn asked(decision: &Decision, request: &[u8]) -> Vec<String> {
    let named = |code| Message(request).avps().sound(Slip::NONE).iter().filter(|avp| avp.code == code).count();
    let identities = match named(Kind::PublicIdentity.code()) {
        0 => "no identity",
        1 => "one identity",
        _ => "several identities",
    };
    match decision.command {
        Some(Command::ServerAssignment) => {
            vec![format!("asked: SAR of type {:2}", decision.asked_type), format!("asked: SAR of {identities}")]
        }
        Some(Command::UserAuthorization) => vec![format!("asked: UAR of type {}", decision.asked_type)],
        Some(Command::LocationInfo) if named(Kind::UserName.code()) > 0 => {
            vec!["asked: LIR with a User-Name, which it does not name".to_string()]
        }
        _ => vec![],
    }
}

fn name(command: u32) -> &'static str {
    match command {
        300 => "UAR",
        301 => "SAR",
        302 => "LIR",
        303 => "MAR",
        306 => "UDR",
        _ => "other",
    }
}

/// What the two sides differ in.
fn differences(calls: &[Case; 2]) -> Vec<&'static str> {
    let tables = [calls[0].held(Slice::Table), calls[1].held(Slice::Table)];
    let other = |slice| calls[0].held(slice) != calls[1].held(slice);
    let word = |at: usize| word_at(&tables[0], at) != word_at(&tables[1], at);
    // By public identity.
    let all = [0, 1].map(|side| {
        let records = Table(&tables[side]).records();
        records.map(|(_, record)| (record.public(), record.0)).collect::<BTreeMap<&[u8], &[u8]>>()
    });
    let pairs: Vec<[&[u8]; 2]> = all[0].iter().filter_map(|(public, one)| Some([*one, *all[1].get(public)?])).collect();
    let some = |part: Range<usize>| pairs.iter().any(|[one, other]| one[part.clone()] != other[part.clone()]);
    let past = |side: usize| &tables[side][BLOCK * (all[side].len() + 1)..];
    let edition_2 = tables[0][EDITION] == EDITION_2;
    [
        (word(8), "the count"),
        (edition_2 && word(ISSUE), "the issue"),
        (pairs.len() < all[0].len(), "a neighbour of the one gone"),
        (pairs.len() < all[1].len(), "a neighbour of the other new"),
        (some(8..9), "a neighbour's state"),
        (some(9..10), "a neighbour's bits"),
        (some(10..11), "a neighbour's roaming"),
        (some(368..400), "a neighbour's capabilities"),
        (some(272..368), "a neighbour's server name"),
        (some(144..272), "a neighbour's private identity"),
        (edition_2 && some(406..408), "a neighbour's set number"),
        (some(4..8), "a block number"),
        (some(400..404), "a profile start"),
        (other(Slice::Profile), "the profile file"),
        (other(Slice::Vectors), "the vector file"),
        (calls[0].buffer() != calls[1].buffer(), "the buffer's length"),
        (calls[0].fill != calls[1].fill, "the buffer's old bytes"),
        (past(0) != past(1), "what is past the count"),
    ]
    .into_iter()
    .filter(|(differs, _)| *differs)
    .map(|(_, what)| what)
    .collect()
}

/// The rows that there must be of pairs of Cx.
pub fn required_rows() -> Vec<String> {
    wanted(Dialect::Cx).into_iter().map(|(row, _)| row).collect()
}

/// Each with in how many pairs there is to be one.
fn wanted(dialect: Dialect) -> Vec<(String, u64)> {
    let mut wanted = match dialect {
        Dialect::Cx => wanted_of_cx(),
        Dialect::Sh => wanted_of_sh(),
    };
    wanted.push("header at fault".to_string());
    wanted.extend([1, 2].map(|edition| format!("decided: over edition {edition}, records on both sides")));
    let differences = [
        "the count",
        "the issue",
        "a neighbour of the one gone",
        "a neighbour of the other new",
        "a neighbour's state",
        "a neighbour's bits",
        "a neighbour's roaming",
        "a neighbour's capabilities",
        "a neighbour's server name",
        "a neighbour's private identity",
        "a neighbour's set number",
        "a block number",
        "a profile start",
        "the profile file",
        "the buffer's length",
        "the buffer's old bytes",
        "what is past the count",
    ];
    wanted.extend(differences.map(|what| format!("differs: {what}")));
    let of_peers = ["3588", "6733", "3588, several Vendor-Ids: decided", "6733, several Vendor-Ids: B5009"];
    wanted.extend(of_peers.map(|what| format!("peer: RFC {what}")));
    wanted.push(OVER_256.to_string());
    let mut wanted: Vec<(String, u64)> = wanted.into_iter().map(|row| (row, 1000)).collect();
    wanted.push((OVER_2048.to_string(), 10_000));
    wanted
}

fn wanted_of_cx() -> Vec<String> {
    let results = [
        ("UAR", &["X2001", "X2002", "B2001", "B5003", "X5001", "X5002", "X5003", "X5004"][..]),
        ("SAR", &["B2001", "X2004", "B5005", "B5009", "B5012", "X5001", "X5002", "X5005", "X5007"]),
        ("LIR", &["B2001", "X2003", "X5001", "X5003"]),
    ];
    let mut wanted: Vec<String> = Vec::new();
    for (command, results) in results {
        wanted.extend(results.iter().map(|result| format!("{command} {result}")));
        wanted.push(format!("{command} with a fault in reading"));
        wanted.push(format!("{command} X5011"));
    }
    wanted.extend((0..=11).map(|asked_type| format!("asked: SAR of type {asked_type:2}")));
    wanted.extend(["no identity", "one identity", "several identities"].map(|it| format!("asked: SAR of {it}")));
    wanted.extend((0..=2).map(|asked_type| format!("asked: UAR of type {asked_type}")));
    wanted.push("asked: LIR with a User-Name, which it does not name".to_string());
    wanted.extend(["differs: the vector file".to_string(), OWN_LIST.to_string()]);
    wanted
}

fn wanted_of_sh() -> Vec<String> {
    ["B2001", "X5001", "X5100", "with a fault in reading"].map(|result| format!("UDR {result}")).to_vec()
}

/// What came of the pairs of a breach: how many were answered on both sides, and in how many of them the answers differ.
#[derive(Default)]
struct Shown {
    pairs: u64,
    answered: u64,
    differ: u64,
}

/// Breaks each hypothesis in so many pairs: true if some answers differ for each that answers show, and none for the others. Where none
/// differ, more pairs are tried: what is not shown after ROUNDS is no matter of luck.
pub fn breaches(seed: u64, numbers: Range<u64>, command: &[String]) -> io::Result<bool> {
    let began = Instant::now();
    let mut as_expected = true;
    for ((breach, what), is_shown) in
        BREACHES.into_iter().map(|it| (it, true)).chain(SILENT.into_iter().map(|it| (it, false)))
    {
        let mut shown = Shown::default();
        let (first, count) = (numbers.start, numbers.end - numbers.start);
        for round in 0..if is_shown { ROUNDS } else { 1 } {
            let numbers = first + round * count..first + (round + 1) * count;
            if !show(breach, seed, numbers, command, &mut shown)? {
                return Ok(false);
            }
            if shown.differ > 0 {
                break;
            }
        }
        let Shown { pairs, answered, differ } = shown;
        let fails = (differ > 0) != is_shown;
        let why = match (fails, breach) {
            (true, _) => ": not as expected",
            (_, Breach::Unsound) => ": it is refused, so that sound follows from answered",
            _ if !is_shown => ": no answer shows it",
            _ => "",
        };
        println!("{differ:6} of {answered:6} differ, of {pairs} pairs: {what}{why}");
        as_expected &= !fails;
    }
    println!("{} breaches in {:.1} s", BREACHES.len() + SILENT.len(), began.elapsed().as_secs_f64());
    Ok(as_expected)
}

/// Which hypothesis a breach breaks; one of a record breaks that of its private identity too, or alone.
fn breaks(breach: Breach, broken: &BTreeSet<Hypothesis>) -> bool {
    let alone = |hypothesis| broken.iter().all(|it| *it == hypothesis) && !broken.is_empty();
    match breach {
        Breach::Request => broken.contains(&Hypothesis::Request),
        Breach::Vectors => alone(Hypothesis::Command),
        Breach::Peer | Breach::Features => alone(Hypothesis::Stated),
        Breach::Unsound => alone(Hypothesis::Sound),
        Breach::Edition => alone(Hypothesis::Edition),
        Breach::Keep | Breach::Host | Breach::Realm | Breach::Network => alone(Hypothesis::Header),
        Breach::ProfileBytes => alone(Hypothesis::Profile),
        Breach::RecordMore | Breach::Order => alone(Hypothesis::Private),
        _ => {
            let of_records = [Hypothesis::Public, Hypothesis::Private];
            !broken.is_empty() && broken.iter().all(|it| of_records.contains(it))
        }
    }
}

/// The pairs of a breach; false if the driver fails, or answers another way than this program.
fn show(breach: Breach, seed: u64, numbers: Range<u64>, command: &[String], shown: &mut Shown) -> io::Result<bool> {
    let mut fed = Fed::start(command, numbers.clone(), move |number| {
        let calls = broken(breach, seed, number);
        let told = told(&calls);
        (calls.into(), told)
    })?;
    for number in numbers {
        let outcomes = (fed.told.recv(), fed.outcome(), fed.outcome());
        let (told, outcomes) = match outcomes {
            (Ok(told), Ok(one), Ok(other)) => (told, [one, other]),
            _ => {
                println!("no outcome for pair {number} of {breach:?} of seed {seed}");
                fed.end()?;
                return Ok(false);
            }
        };
        let given = [0, 1].map(|side| Given::of(&told.bare[side], &outcomes[side]));
        let is_right =
            breaks(breach, &told.broken) && given.iter().zip(&told.own).all(|(it, own)| it.as_ref() == Some(own));
        if !is_right {
            println!(
                "pair {number} of {breach:?} of seed {seed}: another answer, or these are broken: {:?}",
                told.broken
            );
            fed.abandon();
            return Ok(false);
        }
        shown.pairs += 1;
        shown.answered += (found(&told.own) != Found::Aside) as u64;
        shown.differ += (found(&told.own) == Found::Another) as u64;
    }
    fed.end()
}
