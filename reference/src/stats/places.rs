//! The rows of places.

use crate::cases::{Case, Slice};
use crate::kinds::Dialect;
use crate::message::Message;
use crate::read::fault_of;
use crate::slip::Slip;
use crate::verdict::{Code, Why};

/// How far behind the AVP at fault begins, or for what there is no place.
pub fn row(place: u64, case: &Case, why: &Why) -> Option<String> {
    let what = match place {
        0 => format!("none for {}", unplaced(case, why)?),
        20 => "the first AVP's".to_string(),
        21..=255 => "under 256".to_string(),
        256..=4095 => "256 to 4,095".to_string(),
        4096..=16_379 => "4,096 to 16,379".to_string(),
        16_380 => "16,380".to_string(),
        _ => "another".to_string(),
    };
    Some(format!("place: {what}"))
}

fn unplaced(case: &Case, why: &Why) -> Option<&'static str> {
    Some(match why {
        // Only with these is there a request to read.
        Why::Refused(5 | 6) => {
            let request = case.held(Slice::Request);
            match fault_of(Message(&request), case.entry.dialect(), case.stated(), Slip::NONE) {
                Some(finding) if finding.place != 0 => "a refusal, though an AVP is at fault",
                _ => "a refusal",
            }
        }
        Why::Refused(_) => "a refusal",
        Why::Header(_) => "a header fault",
        Why::Rule('b', _) => "(b)",
        Why::Missing(_) => "a missing AVP",
        Why::Unsupported(_) => "X5011",
        Why::Decided(decision) => match decision.result? {
            Code::Base(2001) => "a success",
            Code::Base(5003) => "B5003",
            Code::Base(5005) => "the SAR's B5005",
            Code::Base(5009) => "the SAR's B5009",
            Code::Base(_) => "B5012",
            Code::Experimental(_) => "an X result",
        },
        // A rule that has a place, or no call of a decision.
        _ => return None,
    })
}

/// The rows that there must be of calls of an interface.
pub fn wanted(dialect: Dialect) -> Vec<String> {
    let placed = ["the first AVP's", "under 256", "256 to 4,095", "4,096 to 16,379", "16,380"].map(String::from);
    let of_both = [
        "a refusal",
        "a refusal, though an AVP is at fault",
        "a header fault",
        "(b)",
        "a missing AVP",
        "a success",
        "an X result",
    ];
    let of_cx = ["B5003", "the SAR's B5005", "the SAR's B5009", "B5012", "X5011"];
    let unplaced = of_both.iter().chain(of_cx.iter().filter(|_| dialect == Dialect::Cx));
    let rows = placed.into_iter().chain(unplaced.map(|what| format!("none for {what}")));
    rows.map(|row| format!("place: {row}")).collect()
}
