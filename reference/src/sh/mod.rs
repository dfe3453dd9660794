//! Sh: one call of the entry for the voicemail box. The table is only read.

mod decision;
mod document;

use crate::answer::answer;
use crate::kinds::{Command, Dialect};
use crate::message::Message;
use crate::place;
use crate::read::{features_of, read_sh};
use crate::refuse::{refusal, Lent};
use crate::serve::{put, refused, taken, touch};
use crate::slip::{Fault, Slip};
use crate::stated::Stated;
use crate::table::Table;
use crate::verdict::{Code, Verdict, Why};
use decision::decide;

pub use document::{NAME, STATE};

/// The return word, and what decided it. Of what is stated only the peer counts.
pub fn user_data(
    request: &[u8],
    table: &[u8],
    profile: &[u8],
    buffer: &mut [u8],
    stated: Stated,
    slip: Slip,
) -> (u64, Why) {
    let (request, stated) = (taken(request, slip), stated.taken(slip));
    let lent = Lent { dialect: Dialect::Sh, request, table, profile, vectors: &[], buffer, stated };
    if let Some(refusal) = refusal(&lent, slip) {
        if slip.is(Fault::RefusalTouchesBuffer) {
            touch(buffer);
        }
        return (refused(request, Dialect::Sh, refusal, stated, slip), Why::Refused(refusal.0));
    }
    let (message, table) = (Message(request), Table(table));
    let verdict = match read_sh(message, stated, slip) {
        Ok(_) if slip.is(Fault::FeaturesAskedInSh) && asks_for_features(message) => {
            Verdict { why: Why::Unsupported(Command::UserData), ..Verdict::of(Code::Experimental(5011)) }
        }
        Ok(request) => decide(&request, table, slip),
        Err(finding) => Verdict::of_finding(finding),
    };
    let answer = answer(message, Dialect::Sh, table.header(), &verdict, stated, slip);
    let place = place::of_answer(message, Dialect::Sh, &verdict, slip);
    put(buffer, &answer, slip);
    (place | answer.len() as u64, verdict.why)
}

/// Only a faulty program looks at 628s here.
fn asks_for_features(message: Message) -> bool {
    features_of(message, Slip::NONE).iter().any(|(avp, asked)| avp.is_marked() && asked.bits != 0)
}
