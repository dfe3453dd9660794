//! The numbers of a report, and their places in it.

use crate::kinds::Command;
use crate::message::Message;
use crate::serve::{parts, Done};
use crate::slip::{Fault, Slip};
use crate::verdict::Code;
use crate::verdict::Code::{Base, Experimental};

/// The results in the order of their columns.
pub const COLUMNS: [Code; 25] = [
    Base(2001),
    Base(3001),
    Base(3007),
    Base(3008),
    Base(3009),
    Base(5001),
    Base(5003),
    Base(5004),
    Base(5005),
    Base(5009),
    Base(5011),
    Base(5012),
    Base(5014),
    Experimental(2001),
    Experimental(2002),
    Experimental(2003),
    Experimental(2004),
    Experimental(5001),
    Experimental(5002),
    Experimental(5003),
    Experimental(5004),
    Experimental(5005),
    Experimental(5006),
    Experimental(5007),
    Experimental(5011),
];

/// 300, 301, 302, 303, and all other commands as one.
pub const ROWS: usize = 5;
pub const REST: usize = ROWS - 1;

/// Places in the report, in words of 64 bits.
pub mod word {
    /// Requests read.
    pub const READ: usize = 0;
    /// The byte where reading stopped.
    pub const STOPPED: usize = 1;
    pub const ALTERED: usize = 2;
    pub const LARGEST: usize = 3;
    /// Those of refusals follow it, by their numbers.
    pub const ANSWERED: usize = 4;
    /// By row and column.
    pub const CELLS: usize = 20;
    pub const ALL: usize = 145;
}

/// The words of a report.
#[derive(Clone, PartialEq, Debug)]
pub struct Numbers(pub [u64; word::ALL]);

impl Numbers {
    pub const NONE: Numbers = Numbers([0; word::ALL]);

    /// Counts a request once: under its command and result, or under its refusal.
    pub fn count(&mut self, request: &[u8], done: &Done, slip: Slip) {
        let (number, place, length) = parts(done.word);
        match slip.0 {
            Some(Fault::LongPieceNotCounted) if number == 2 => return,
            Some(Fault::RefusedNotRead) => self.0[word::READ] += (number == 0) as u64,
            _ => self.0[word::READ] += 1,
        }
        self.0[word::ANSWERED + number as usize] += 1;
        let result = match (done.result, slip.0) {
            (Some(result), _) => result,
            (None, Some(Fault::RefusedAreAnswered)) => return self.0[word::ANSWERED] += 1,
            (None, Some(Fault::RefusedAnswersMeasured)) => return self.measure(length),
            (None, _) => return,
        };
        if let (Some(row), Some(column)) = (row(Message(request), result, slip), column(result, slip)) {
            self.0[word::CELLS + COLUMNS.len() * row + column] += 1;
        }
        let largest = self.0[word::LARGEST];
        match slip.0 {
            Some(Fault::LastAnswerTold) => self.0[word::LARGEST] = length,
            Some(Fault::SmallestAnswerTold) if largest != 0 => self.0[word::LARGEST] = largest.min(length),
            Some(Fault::AnswersSummed) => self.0[word::LARGEST] += length,
            Some(Fault::LargestWithPlace) => self.measure(place << 32 | length),
            Some(Fault::LargestRequestTold) => self.measure(request.len() as u64),
            _ => self.measure(length),
        }
    }

    fn measure(&mut self, length: u64) {
        self.0[word::LARGEST] = self.0[word::LARGEST].max(length);
    }

    /// The numbers that a report holds.
    pub fn of(report: &[u8]) -> Numbers {
        let mut numbers = Numbers::NONE;
        for (number, bytes) in numbers.0.iter_mut().zip(report.chunks_exact(8)) {
            *number = bytes.iter().fold(0, |word, byte| word << 8 | u64::from(*byte));
        }
        numbers
    }
}

/// What a word of the report counts.
pub fn name(at: usize) -> String {
    match at {
        word::READ => "requests read".to_string(),
        word::STOPPED => "the byte where reading stopped".to_string(),
        word::ALTERED => "records altered".to_string(),
        word::LARGEST => "the largest answer".to_string(),
        word::ANSWERED => "answered".to_string(),
        _ if at < word::CELLS => format!("refused {}", at - word::ANSWERED),
        _ => {
            let cell = at - word::CELLS;
            format!("{}: {}", row_name(cell / COLUMNS.len()), COLUMNS[cell % COLUMNS.len()])
        }
    }
}

pub fn row_name(row: usize) -> String {
    match row {
        REST => "other commands".to_string(),
        _ => (300 + row).to_string(),
    }
}

/// By the command field, also where the header is at fault; none only in a faulty program.
fn row(message: Message, result: Code, slip: Slip) -> Option<usize> {
    let command = match slip.0 {
        Some(Fault::CommandRowIn16Bits) => message.command() & 0xFFFF,
        Some(Fault::HeaderFaultsAreRest) if matches!(result, Base(5011 | 3008)) => 0,
        Some(Fault::OtherApplicationIsRest) if result == Base(3007) => 0,
        _ => message.command(),
    };
    match Command::of(command) {
        Some(Command::MultimediaAuth) if slip.is(Fault::AuthenticationIsRest) => Some(REST),
        Some(command) => Some((command.code() - Command::UserAuthorization.code()) as usize),
        None if slip.is(Fault::RestNotCounted) => None,
        None => Some(REST),
    }
}

/// None for a result that no request has.
fn column(result: Code, slip: Slip) -> Option<usize> {
    let place = |result| COLUMNS.iter().position(|it| *it == result);
    match (slip.0, result) {
        (Some(Fault::ResultsShareColumns), Experimental(code)) => place(Base(code)).or_else(|| place(result)),
        (Some(Fault::ExperimentalFirst), _) => place(result).map(|column| (column + 12) % COLUMNS.len()),
        (Some(Fault::UnsupportedIsVersionFault), Experimental(5011)) => place(Base(5011)),
        (Some(Fault::SchemeColumnLeftOut), Experimental(5007)) => place(Experimental(5006)),
        _ => place(result),
    }
}
