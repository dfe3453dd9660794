//! What is decided of a User-Data-Request: whether the identity is known, then whether what is asked for is served.

use super::document::{document, NAME, STATE};
use crate::decide::by_public;
use crate::kinds::Command;
use crate::read::UserDataRequest;
use crate::slip::{Fault, Slip};
use crate::table::{Record, Table, BARRED, NOT_REGISTERED};
use crate::verdict::Code::{Base, Experimental};
use crate::verdict::{Code, Decision, Failed, Verdict, Why};

pub fn decide<'a>(request: &UserDataRequest<'a>, table: Table<'a>, slip: Slip) -> Verdict<'a> {
    let found = by_public(table, request.identity, slip).map(|(_, record)| record);
    let mut verdict = match (found, is_served(request, slip)) {
        (None, false) if slip.is(Fault::ReferenceBeforeIdentity) => not_served(request, slip),
        (None, _) => unknown(slip),
        (Some(record), served) => match rejected(request, record, slip) {
            Some(result) => Verdict::of(result),
            None if !served => not_served(request, slip),
            None => served_with(request, record, table, slip),
        },
    };
    verdict.why = Why::Decided(Box::new(Decision {
        command: Some(Command::UserData),
        state: found.map(|record| record.state()),
        records: found.is_some() as usize,
        result: Some(verdict.result),
        ..Decision::default()
    }));
    verdict
}

fn unknown<'a>(slip: Slip) -> Verdict<'a> {
    Verdict::of(if slip.is(Fault::BaseForUnknownInSh) { Base(5001) } else { Experimental(5001) })
}

fn not_served<'a>(request: &UserDataRequest<'a>, slip: Slip) -> Verdict<'a> {
    let result = match slip.0 {
        Some(Fault::BaseForReference) => Base(5100),
        Some(Fault::ReferenceIsUnable) => Base(5012),
        Some(Fault::ReferenceIsNotAllowed) => Experimental(5101),
        _ => Experimental(5100),
    };
    let failed = match (slip.0, request.references.iter().find(|(_, told)| ![NAME, STATE].contains(told))) {
        (Some(Fault::ReferenceFails), Some((avp, _))) => Failed::Whole(*avp),
        _ => Failed::Absent,
    };
    Verdict { failed, ..Verdict::of(result) }
}

/// Whether each of the references is that of the state or of the server name.
fn is_served(request: &UserDataRequest, slip: Slip) -> bool {
    let serves = |told: u32| match slip.0 {
        Some(Fault::Reference10Served) => [10, STATE, NAME].contains(&told),
        Some(Fault::Reference13Served) => [STATE, NAME, 13].contains(&told),
        Some(Fault::Reference0Served) => [0, STATE, NAME].contains(&told),
        Some(Fault::ReferenceIn8Bits) => [STATE, NAME].contains(&(told & 0xFF)),
        Some(Fault::NameNotServed) => told == STATE,
        Some(Fault::StateNotServed) => told == NAME,
        _ => [STATE, NAME].contains(&told),
    };
    let mut all = request.references.iter().map(|(_, told)| *told);
    match slip.0 {
        Some(Fault::FirstReferenceAsked) => all.next().map_or(true, serves),
        Some(Fault::LastReferenceAsked) => all.last().map_or(true, serves),
        Some(Fault::OneServedReferenceIsEnough) => all.any(serves),
        Some(Fault::OtherReferencesIgnored) => true,
        _ => all.all(serves),
    }
}

/// What a faulty program refuses besides.
fn rejected(request: &UserDataRequest, record: Record, slip: Slip) -> Option<Code> {
    let told: Vec<u32> = request.references.iter().map(|(_, told)| *told).collect();
    match slip.0? {
        Fault::BarredNotToldInSh if record.has(BARRED) => Some(Base(5003)),
        Fault::State0NotToldInSh if record.state() == NOT_REGISTERED => Some(Experimental(5003)),
        Fault::UserNameComparedInSh => {
            request.user_name.filter(|name| *name != record.private()).map(|_| Experimental(5002))
        }
        Fault::ReferenceTwiceIsTooOften if (1..told.len()).any(|n| told[..n].contains(&told[n])) => Some(Base(5009)),
        _ => None,
    }
}

fn served_with<'a>(request: &UserDataRequest<'a>, record: Record<'a>, table: Table<'a>, slip: Slip) -> Verdict<'a> {
    let asked: Vec<u32> = request.references.iter().map(|(_, told)| *told).collect();
    let documents = match slip.0 {
        Some(Fault::DocumentForEachReference) => {
            asked.iter().map(|one| document(&[*one], record, table, slip).into()).collect()
        }
        _ => vec![document(&asked, record, table, slip).into()],
    };
    Verdict {
        user_data: documents,
        user_name: slip.is(Fault::UserNameInShAnswers).then(|| record.private()),
        server_name: Some(record.server_name()).filter(|it| !it.is_empty() && slip.is(Fault::ServerNameInShAnswers)),
        ..Verdict::of(Base(2001))
    }
}
