//! Histograms of a stream of cases: what was done to get them, and what came of them.

mod authentication;
mod features;
mod lists;
mod moves;
mod peers;
mod places;
mod reports;
mod required;
mod rows;
mod sets;
mod shown;
mod sizes;
mod takes;
mod voicemail;

use std::collections::{BTreeMap, BTreeSet};
use std::ops::Range;

use crate::block::{word_at, BLOCK};
use crate::cases::{Case, Outcome, Slice};
use crate::gen::{self, Made, Stream, FAR};
use crate::kinds::{
    Command, Dialect, Kind, EXPERIMENTAL_RESULT, FAILED_AVP, RESULT_CODE, SERVER_CAPABILITIES, SH_USER_DATA, USER_DATA,
};
use crate::message::{Avp, Message};
use crate::read::read_header;
use crate::slip::Slip;
use crate::table::{Table, LONGEST_PROFILE};
use crate::verdict::{Code, Decision, Why};
use sizes::{many_places, size};

/// How many times as many cases are counted, where a row has too few, before it is told of.
pub const ROUNDS: u64 = 10;

#[derive(Default)]
pub struct Histogram {
    rows: BTreeMap<String, u64>,
    cases: u64,
}

impl Histogram {
    pub fn count(&mut self, stream: Stream, made: &Made, outcome: &Outcome, why: &Why) {
        self.cases += 1;
        match (stream, why) {
            (Stream::Tables, Why::Checked(found)) => self.count_table(made, *found),
            (Stream::Vectors, Why::CheckedVectors(found)) => self.count_vectors(made, *found),
            (Stream::Reports, _) => self.count_made(made, reports::rows(&made.case, outcome)),
            (Stream::Moves, _) => self.count_made(made, moves::rows(&made.case, outcome)),
            (Stream::Takes, _) => self.count_made(made, takes::rows(&made.case, outcome)),
            (Stream::Lists, _) => self.count_made(made, lists::rows(&made.case, outcome)),
            (Stream::Rows, _) => self.count_made(made, rows::rows(&made.case, outcome)),
            _ => self.count_call(made, outcome, why),
        }
    }

    /// What was done to get a case, and what came of it.
    fn count_made(&mut self, made: &Made, rows: Vec<String>) {
        let notes: BTreeSet<&&str> = made.notes.iter().collect();
        notes.iter().for_each(|note| self.add(format!("made by: {note}")));
        rows.into_iter().for_each(|row| self.add(row));
    }

    fn add(&mut self, row: String) {
        *self.rows.entry(row).or_insert(0) += 1;
    }

    fn count_table(&mut self, made: &Made, found: Result<u32, u32>) {
        if let Ok(records) = found {
            self.add(format!("sound table of {} records", size(records as usize)));
            let table = made.case.held(Slice::Table);
            moves::of_table(&table).into_iter().for_each(|row| self.add(format!("sound table, {row}")));
            sets::of_table(&table).into_iter().for_each(|row| self.add(format!("sound table, {row}")));
            takes::of_area(&table).into_iter().for_each(|row| self.add(format!("sound table, {row}")));
            if takes::is_past_the_most(&table) {
                self.add("sound table, more than 4,097 blocks".to_string());
            }
            if made.case.held(Slice::Profile).len() > FAR {
                self.add("sound table, profile over 65,536 bytes".to_string());
            }
        }
        self.count_check(made, found);
    }

    fn count_vectors(&mut self, made: &Made, found: Result<u32, u32>) {
        if let Ok(blocks) = found {
            self.add(format!("sound file of {} vectors", size(blocks as usize)));
        }
        self.count_check(made, found);
    }

    fn count_check(&mut self, made: &Made, found: Result<u32, u32>) {
        let outcome = match (found, made.damaged) {
            (Ok(_), _) => "sound",
            (Err(0), _) => "block 0",
            (Err(block), Some(damaged)) if block as usize == damaged => "the damaged block",
            (Err(block), Some(damaged)) if block as usize == damaged + 1 => "the block after the damaged one",
            _ => "another block",
        };
        let twice = made.notes.contains(&"a second damage");
        for note in made.notes.iter().filter(|note| note.contains(':') && !twice) {
            self.add(format!("{note} -> {outcome}"));
        }
        self.add(format!("all -> {outcome}"));
    }

    fn count_call(&mut self, made: &Made, outcome: &Outcome, why: &Why) {
        for note in &made.notes {
            self.add(format!("made by: {note}"));
        }
        let row = match why {
            Why::Refused(6) => format!("refused 6 to {}", asker(&made.case.held(Slice::Request))),
            Why::Refused(5) if disagrees(&made.case) => "refused 5, a set disagrees".to_string(),
            Why::Refused(5) if made.notes.contains(&"a cut take-over") => "refused 5, a cut take-over".to_string(),
            Why::Refused(12) => "unknown peer: refused 12".to_string(),
            Why::Refused(number) => format!("refused {number}"),
            Why::Header(code) => format!("header: B{code}"),
            Why::Rule(letter, what) => format!("rule ({letter}): {what}"),
            Why::Missing(kind) => format!("missing: {}", kind.name()),
            Why::Unsupported(command) => format!("unsupported in {}", command.code()),
            Why::Decided(decision) => {
                let table = made.case.held(Slice::Table);
                self.add(format!("decided over {} records", size(Table(&table).records().count())));
                takes::of_area(&table).into_iter().for_each(|row| self.add(format!("decided over {row}")));
                moves::of_table(&table).into_iter().for_each(|row| self.add(format!("decided over {row}")));
                sets::of_table(&table).into_iter().for_each(|row| self.add(format!("decided over {row}")));
                sets::of_decision(&made.case, outcome, decision).into_iter().for_each(|row| self.add(row));
                if decision.vectors.2 > 0 {
                    self.add(format!("sent of {} vectors", size(made.case.held(Slice::Vectors).len() / BLOCK)));
                }
                self.decision(decision)
            }
            // No call of a decision.
            _ => return,
        };
        self.add(row);
        for row in [places::row(outcome.parts().1, &made.case, why), peers::row(&made.case, why)].into_iter().flatten()
        {
            self.add(row);
        }
        match made.case.held(Slice::Request).len() {
            16_384 => self.add("request: 16,384 bytes".to_string()),
            length if length > FAR => self.add("request: over 65,536 bytes".to_string()),
            _ => {}
        }
        if outcome.parts().0 == 0 {
            let places = Message(&made.case.held(Slice::Request)).avps().places();
            many_places(places).into_iter().for_each(|row| self.add(row.to_string()));
            let rows = match made.case.entry.dialect() {
                Dialect::Cx => features::rows(&made.case, outcome.parts().1, why),
                Dialect::Sh => voicemail::rows(&made.case, why),
            };
            rows.into_iter().for_each(|row| self.add(row));
            self.count_answer(&made.case, outcome, why);
        }
    }

    fn decision(&mut self, decision: &Decision) -> String {
        let result = decision.result.map_or(String::new(), |result| result.to_string());
        let state = match decision.state {
            Some(state) => format!("state {state}"),
            None => "no record".to_string(),
        };
        match decision.command {
            Some(Command::UserAuthorization) => format!("UAR: type {}, {state}: {result}", decision.asked_type),
            Some(Command::LocationInfo) => format!("LIR: {state}: {result}"),
            Some(Command::UserData) => format!("UDR: {state}: {result}"),
            Some(Command::MultimediaAuth) => {
                authentication::rows(decision).into_iter().for_each(|row| self.add(row));
                format!("MAR: {state}: {result}")
            }
            _ => {
                if decision.records > 1 {
                    self.add(format!("SAR of many: {result}"));
                }
                let (asked, keep) = (decision.asked_type, decision.keep as u8);
                format!("SAR: type {asked:2}, {state}, keep {keep}: {result}")
            }
        }
    }

    fn count_answer(&mut self, case: &Case, outcome: &Outcome, why: &Why) {
        let buffer = case.after(outcome, Slice::Buffer).unwrap_or_default();
        let answer = &buffer[..outcome.parts().2 as usize];
        let avps = Message(answer).avps().sound(Slip::NONE);
        self.add(format!("result: {}", result_of(answer)));
        let copies = avps.iter().filter(|avp| avp.code == Kind::ProxyInfo.code()).count();
        if copies > 0 {
            self.add(format!("answer: {} Proxy-Info", if copies > 1 { "2 or more" } else { "1" }));
        }
        if avps.iter().all(|avp| avp.code != Kind::SessionId.code()) {
            self.add("answer: no Session-Id".to_string());
        }
        for avp in &avps {
            self.count_avp(avp, copies, why);
        }
        if case.entry.changed(outcome, Slice::Table) {
            self.add("answer: records rewritten".to_string());
            self.add(format!("answer: {}", moves::rewritten(case, outcome)));
        }
        if case.entry.changed(outcome, Slice::Vectors) {
            self.add("answer: vectors marked".to_string());
        }
        for (least, row) in [(16_384, "answer: over 16,384 bytes"), (32_000, "answer: over 32,000 bytes")] {
            if answer.len() > least {
                self.add(row.to_string());
            }
        }
    }

    /// An AVP of an answer with so many Proxy-Infos.
    fn count_avp(&mut self, avp: &Avp, copies: usize, why: &Why) {
        match avp.code {
            SERVER_CAPABILITIES => self.add("answer: Server-Capabilities".to_string()),
            USER_DATA => {
                self.add("answer: User-Data".to_string());
                if avp.data.len() == LONGEST_PROFILE {
                    self.add("answer: User-Data of 4,096".to_string());
                }
                if matches!(why, Why::Decided(decision) if decision.profile_start >= FAR) {
                    self.add("answer: User-Data from past 65,536".to_string());
                }
            }
            SH_USER_DATA => self.add("answer: the document".to_string()),
            1 => self.add("answer: User-Name".to_string()),
            602 => self.add("answer: Server-Name".to_string()),
            612 => self.add("answer: an item".to_string()),
            628 => self.add("answer: the own list".to_string()),
            FAILED_AVP if avp.data.is_empty() => self.add("answer: Failed-AVP without data".to_string()),
            FAILED_AVP => {
                self.add("answer: Failed-AVP".to_string());
                if copies > 0 && avp.data.starts_with(&Kind::ProxyInfo.code().to_be_bytes()) {
                    self.add("answer: Failed-AVP with a Proxy-Info".to_string());
                }
            }
            _ => {}
        }
    }

    /// Rows that must be there and have fewer cases than chance explains.
    pub fn thin_rows(&self, stream: Stream) -> Vec<String> {
        let mut thin = Vec::new();
        for (wanted, one_in) in required::of_stream(stream) {
            let count: u64 = self.rows.iter().filter(|(row, _)| row.starts_with(&wanted)).map(|(_, count)| count).sum();
            let least = least(self.cases, one_in);
            if count < least {
                thin.push(format!("{wanted}: {count} of {least}"));
            }
        }
        thin
    }

    pub fn print(&self) {
        for (row, count) in &self.rows {
            println!("{count:9} {:8.3}%  {row}", *count as f64 * 100.0 / self.cases as f64);
        }
        println!("{:9} cases", self.cases);
    }
}

/// The fewest of a row that comes once in so many cases: six standard deviations below what is expected, and at least
/// one. So a seed has fewer by bad luck only where hardly any are expected; for these `stats` goes on.
pub fn least(cases: u64, one_in: u64) -> u64 {
    let expected = cases as f64 / one_in as f64;
    (expected - 6.0 * expected.sqrt()).floor().max(1.0) as u64
}

/// Whether the table of a case is unsound by a set that disagrees.
fn disagrees(case: &Case) -> bool {
    sets::disagrees(&case.held(Slice::Table), case.held(Slice::Profile).len())
}

/// What a call that is refused by 6 would be answered as.
fn asker(request: &[u8]) -> &'static str {
    match read_header(Message(request), Dialect::Cx, Slip::NONE) {
        Ok(Command::UserAuthorization) => "a UAR",
        Ok(Command::ServerAssignment) => "a SAR",
        Ok(Command::LocationInfo) => "a LIR",
        Ok(Command::MultimediaAuth) => "a MAR",
        Ok(Command::UserData) | Err(_) => "a header fault",
    }
}

/// How each row begins that the cases of a stream must show.
pub fn required_rows(stream: Stream) -> Vec<String> {
    required::of_stream(stream).into_iter().map(|(row, _)| row).collect()
}

/// The result of an answer.
pub fn result_of(answer: &[u8]) -> Code {
    for avp in Message(answer).avps().sound(Slip::NONE) {
        match avp.code {
            RESULT_CODE => return Code::Base(word_at(avp.data, 0)),
            EXPERIMENTAL_RESULT => return Code::Experimental(word_at(avp.data, 20)),
            _ => {}
        }
    }
    Code::Base(0)
}

/// Counts the cases of a stream, prints the histogram, and says whether every required row has enough cases. Where one
/// has too few, the next cases of the seed are counted too: what is still thin after ROUNDS is no matter of luck.
pub fn stats(stream: Stream, seed: u64, numbers: Range<u64>) -> bool {
    let mut histogram = Histogram::default();
    let (first, count) = (numbers.start, numbers.end - numbers.start);
    for round in 0..ROUNDS {
        for number in first + round * count..first + (round + 1) * count {
            let made = gen::make(stream, seed, number);
            let (outcome, why) = made.case.outcome_and_why(Slip::NONE);
            histogram.count(stream, &made, &outcome, &why);
        }
        if histogram.thin_rows(stream).is_empty() {
            break;
        }
    }
    histogram.print();
    let thin = histogram.thin_rows(stream);
    for row in &thin {
        println!("too few: {row}");
    }
    thin.is_empty()
}

#[cfg(test)]
mod tests {
    use super::*;

    #[test]
    fn chance_is_no_fault_and_an_empty_row_is() {
        assert_eq!(
            [1, 1, 1, 40, 115, 810],
            [100, 1_000, 20_000, 100_000, 200_000, 1_000_000].map(|cases| least(cases, 1_000))
        );
        let mut histogram = Histogram { rows: BTreeMap::new(), cases: 100_000 };
        for row in required_rows(Stream::Vectors) {
            histogram.rows.insert(row, 40);
        }
        assert_eq!(Vec::<String>::new(), histogram.thin_rows(Stream::Vectors));
        histogram.rows.insert("vector: kind".to_string(), 39);
        histogram.rows.remove("vectors: 4,097 blocks");
        assert_eq!(
            vec!["vector: kind: 39 of 40", "vectors: 4,097 blocks: 0 of 1"],
            histogram.thin_rows(Stream::Vectors)
        );
    }
}
