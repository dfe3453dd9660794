//! Demand 3 on the outcomes of a driver: AVPs of unknown kinds put into an answered request change nothing if none
//! is marked, and give B5001 for the first marked one unless a fault stands before it. Only the place of an AVP at fault
//! is another: it moves by what was put in before it, or is the first marked one's.

use std::io;
use std::ops::Range;
use std::time::Instant;

use crate::account;
use crate::answer::answer;
use crate::block::BLOCK;
use crate::cases::{Case, Change, Entry, Outcome, Slice};
use crate::compare::Fed;
use crate::gen::{self, Stream};
use crate::message::{padded, Message, Received, HEADER, M};
use crate::read::{read_header, walk};
use crate::refuse::MOST_REQUEST;
use crate::rng::Rng;
use crate::serve::parts;
use crate::slip::Slip;
use crate::table::Table;
use crate::verdict::{Failed, Finding, Verdict, Why};

/// How the second of two outcomes relates to the first.
#[derive(Clone, PartialEq, Debug)]
enum Relation {
    /// None is marked: table, vectors and buffer are the same, and the word but for its place.
    Unmarked,
    /// A fault before the first marked one: the answer given without them.
    FaultBefore,
    /// Table and vectors as they were, this answer, and the first marked one's place.
    Marked(Vec<u8>, usize),
}

/// What is expected of a pair of outcomes.
#[derive(Clone)]
struct Expected {
    entry: Entry,
    relation: Relation,
    moves: Moves,
}

struct Pair {
    without: Case,
    with: Case,
    expected: Expected,
}

/// How places move: of what was put in, before which byte of the request it stands there, and how long it is.
#[derive(Clone)]
struct Moves(Vec<(usize, usize)>);

impl Moves {
    /// The word with its place moved; 0 stays.
    fn word(&self, word: u64) -> u64 {
        let place = parts(word).1 as usize;
        let before = self.0.iter().filter(|(at, _)| place != 0 && *at <= place);
        word + ((before.map(|(_, by)| by).sum::<usize>() as u64) << 32)
    }
}

/// An AVP of the inserted ones, as it stands in the request.
struct Inserted {
    /// Before which of the request's own AVPs; their number for the end.
    place: usize,
    bytes: Vec<u8>,
}

/// True if the driver's outcomes of all pairs, made from the cases of this stream, relate as they should.
pub fn compare(stream: Stream, seed: u64, numbers: Range<u64>, command: &[String]) -> io::Result<bool> {
    let began = Instant::now();
    let mut fed = Fed::start(command, numbers.clone(), move |number| {
        let pair = pair(stream, seed, number);
        (vec![pair.without, pair.with], pair.expected)
    })?;
    let (mut unmarked, mut before, mut marked) = (0u64, 0u64, 0u64);
    let (mut rewritten, mut sent, mut moved) = (0u64, 0u64, 0u64);
    let count = numbers.end - numbers.start;
    for number in numbers {
        let expected = match fed.told.recv() {
            Ok(expected) => expected,
            Err(_) => break,
        };
        let (without, with) = match (fed.outcome(), fed.outcome()) {
            (Ok(without), Ok(with)) => (without, with),
            _ => {
                println!("no outcome for pair {number} of seed {seed}");
                fed.end()?;
                return Ok(false);
            }
        };
        let made = || pair(stream, seed, number);
        if let Err(what) = relates(made, &expected, &without, &with) {
            println!("pair {number} of seed {seed}: {what}");
            tell(&made(), &without, &with);
            fed.abandon();
            return Ok(false);
        }
        match expected.relation {
            Relation::Unmarked => unmarked += 1,
            Relation::FaultBefore => before += 1,
            Relation::Marked(..) => marked += 1,
        }
        moved += (with.parts().1 != without.parts().1) as u64;
        rewritten += expected.entry.changed(&without, Slice::Table) as u64;
        sent += expected.entry.changed(&without, Slice::Vectors) as u64;
    }
    if !fed.end()? || unmarked + before + marked != count {
        return Ok(false);
    }
    println!(
        "{count} pairs relate: {unmarked} unmarked, {marked} marked, {before} marked with a fault before; \
         {moved} with another place, {rewritten} with a table rewritten, {sent} with vectors sent; {:.1} s",
        began.elapsed().as_secs_f64()
    );
    Ok(true)
}

fn relates(pair: impl Fn() -> Pair, expected: &Expected, without: &Outcome, with: &Outcome) -> Result<(), String> {
    let entry = expected.entry;
    if without.altered != 0 || with.altered != 0 {
        return Err("what was lent to be read was altered".to_string());
    }
    if without.parts().0 != 0 {
        return Err("the request is not answered".to_string());
    }
    match &expected.relation {
        relation @ (Relation::Unmarked | Relation::FaultBefore) => {
            let moved = Outcome { word: expected.moves.word(without.word), ..without.clone() };
            if (Outcome { word: moved.word, ..with.clone() }) != moved {
                return Err(format!("the outcome is another one ({relation:?})"));
            }
            placed(moved.word, with.word)?;
        }
        Relation::Marked(expected, place) => {
            for slice in [Slice::Table, Slice::Vectors] {
                if entry.changed(with, slice) {
                    return Err(format!("the {} was changed", slice.name()));
                }
            }
            placed((*place as u64) << 32 | expected.len() as u64, with.word)?;
            let case = pair().with;
            let before = case.held(Slice::Buffer);
            let mut after = before.to_vec();
            after[..expected.len()].copy_from_slice(expected);
            if entry.change(with, Slice::Buffer) != Some(&Change::between(&before, &after)) {
                return Err("the answer is not the one of B5001".to_string());
            }
        }
    }
    Ok(())
}

/// Whether the word is this one.
fn placed(expected: u64, given: u64) -> Result<(), String> {
    let (_, place, value) = parts(expected);
    match given == expected {
        true => Ok(()),
        false => Err(format!("the answer should have {value} bytes, and the word the place {place}")),
    }
}

fn tell(pair: &Pair, without: &Outcome, with: &Outcome) {
    println!("  request:\n{}", account::lines(&pair.without.held(Slice::Request)));
    println!("  with AVPs put in ({:?}):\n{}", pair.expected.relation, account::lines(&pair.with.held(Slice::Request)));
    for (which, case, outcome) in [("without", &pair.without, without), ("with", &pair.with, with)] {
        println!("  {which}: {}", account::word(case.entry, outcome));
        account::answer(which, case, outcome);
    }
}

/// Pair `number`: an answered request, without and with unknown kinds put in before its first length fault.
fn pair(stream: Stream, seed: u64, number: u64) -> Pair {
    let mut rng = Rng::for_case(seed ^ 0x3333, number);
    loop {
        let case = gen::make(stream, rng.draw(), 0).case;
        if let Some(pair) = sound_starts(&case).and_then(|starts| put_in(&mut rng, case, &starts)) {
            return pair;
        }
    }
}

/// Where the AVPs of an answered request begin and where their end is, up to the first length fault; none if there is no
/// AVP before that.
fn sound_starts(case: &Case) -> Option<Vec<usize>> {
    if case.outcome(Slip::NONE).parts().0 != 0 {
        return None;
    }
    let request = case.held(Slice::Request);
    let mut starts = vec![HEADER];
    for avp in Message(&request).avps().sound(Slip::NONE) {
        starts.push(starts[starts.len() - 1] + padded(avp.whole.len()));
    }
    (starts.len() > 1).then_some(starts)
}

/// The second case of the pair, or none if the request would be too long.
fn put_in(rng: &mut Rng, without: Case, starts: &[usize]) -> Option<Pair> {
    let bare = without.held(Slice::Request);
    let own = starts.len() - 1;
    let marks = rng.coin();
    let mut inserted: Vec<Inserted> = Vec::new();
    let room = MOST_REQUEST - bare.len();
    let many = if rng.once_in(10) { 40 } else { 4 };
    for _ in 0..rng.between(1, many) {
        let mut piece = gen::twists::unknown(rng, without.entry.dialect());
        if rng.once_in(60) {
            let length = rng.below(room + 1);
            piece.data = rng.bytes(length);
        }
        if !marks {
            piece.flags &= !M;
        }
        let mut bytes = Vec::new();
        piece.encode(&mut bytes);
        inserted.push(Inserted { place: rng.between(1, own), bytes });
    }
    inserted.sort_by_key(|avp| avp.place);
    if inserted.iter().map(|avp| avp.bytes.len()).sum::<usize>() > room {
        return None;
    }

    let mut request = bare[..starts[1]].to_vec();
    let mut first_marked = None;
    for place in 1..=own {
        for avp in inserted.iter().filter(|avp| avp.place == place) {
            if avp.bytes[4] & M != 0 && first_marked.is_none() {
                first_marked = Some(request.len());
            }
            request.extend(&avp.bytes);
        }
        if place < own {
            request.extend(&bare[starts[place]..starts[place + 1]]);
        }
    }
    request.extend(&bare[starts[own]..]);
    let length = request.len() as u32;
    request[1..4].copy_from_slice(&length.to_be_bytes()[1..]);
    let mut with = without.clone();
    with.put(Slice::Request, request);
    let relation = relation(&with, first_marked);
    let moves = Moves(inserted.iter().map(|avp| (starts[avp.place], avp.bytes.len())).collect());
    let entry = with.entry;
    Some(Pair { without, with, expected: Expected { entry, relation, moves } })
}

fn relation(with: &Case, first_marked: Option<usize>) -> Relation {
    let at = match first_marked {
        Some(at) => at,
        None => return Relation::Unmarked,
    };
    let request = with.held(Slice::Request);
    let message = Message(&request);
    let before = Received { at: HEADER, bytes: &request[HEADER..at] };
    let dialect = with.entry.dialect();
    let command = read_header(message, dialect, Slip::NONE);
    if command.and_then(|command| walk(before, command, with.stated(), Slip::NONE)).is_err() {
        return Relation::FaultBefore;
    }
    let avp = Received { at, bytes: &request[at..] }.sound(Slip::NONE)[0];
    debug_assert!(dialect.kind(avp.vendor, avp.code).is_none());
    let (failed, why) = (Failed::Whole(avp), Why::Rule('d', ""));
    let finding = Finding { result: 5001, failed, place: at, why };
    let table = with.held(Slice::Table);
    let header = Table(&table[..BLOCK]).header();
    let verdict = Verdict::of_finding(finding);
    Relation::Marked(answer(message, dialect, header, &verdict, with.stated(), Slip::NONE), at)
}
