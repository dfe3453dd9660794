//! The rows of MARs.

use crate::decide::MOST_SENT;
use crate::verdict::{Code, Decision, Stored};

/// What a MAR was about, in few words.
pub fn rows(decision: &Decision) -> Vec<String> {
    let (asked, unused, sent) = decision.vectors;
    match (decision.result, decision.state, decision.stored) {
        (Some(Code::Base(2001)), Some(state), Some(stored)) => {
            vec![format!("MAR: state {state}, {}", name_of(stored)), format!("MAR: {}", number(asked, unused, sent))]
        }
        (Some(Code::Base(5012)), ..) => vec![format!("MAR: {}", number(asked, unused, sent))],
        _ => vec![],
    }
}

fn name_of(stored: Stored) -> &'static str {
    match stored {
        Stored::None => "no name stored",
        Stored::Same => "the same name stored",
        Stored::Prefix => "a name stored that begins the given one, or begins with it",
        Stored::Another => "another name stored",
    }
}

/// How many were sent, and why not more.
fn number(asked: u32, unused: usize, sent: usize) -> &'static str {
    match (asked, unused, sent) {
        (0, 0, _) => "none asked, none unused",
        (0, _, _) => "none asked",
        (_, 0, _) => "none unused",
        (u32::MAX, _, _) => "2^32 - 1 asked",
        (_, _, 1) if asked == 1 => "one asked and sent",
        (_, unused, MOST_SENT) if unused > MOST_SENT && asked as usize > MOST_SENT => "16 of more sent",
        (_, _, MOST_SENT) => "16 sent",
        (_, unused, sent) if unused == sent && asked as usize > sent => "as many as remain sent",
        _ => "as many as asked sent",
    }
}

/// The rows that there must be, and how much rarer than others they may be.
pub fn wanted() -> Vec<(String, u64)> {
    let mut wanted = Vec::new();
    for state in 0..=2 {
        for stored in [Stored::None, Stored::Same, Stored::Prefix, Stored::Another] {
            // States 1 and 2 have a name; in state 0 it is a pending one.
            if state == 0 || stored != Stored::None {
                wanted.push((format!("MAR: state {state}, {}", name_of(stored)), 2));
            }
        }
        for result in ["B2001", "B5012", "X5002", "X5006"] {
            wanted.push((format!("MAR: state {state}: {result}"), 2));
        }
    }
    wanted.push(("MAR: no record: X5001".to_string(), 1));
    for (what, times) in [
        ("none asked, none unused", 2),
        ("none asked", 1),
        ("none unused", 1),
        ("2^32 - 1 asked", 1),
        ("one asked and sent", 1),
        ("16 of more sent", 2),
        ("16 sent", 2),
        ("as many as remain sent", 1),
        ("as many as asked sent", 1),
    ] {
        wanted.push((format!("MAR: {what}"), times));
    }
    wanted
}
