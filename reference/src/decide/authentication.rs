//! MAR.

use super::chosen::{chosen, marked, unused};
use super::lookup::{by_public, is_private_known};
use super::sets::{closed, first_of_set, is_barred, shared};
use crate::kinds::SCHEME;
use crate::read::Request;
use crate::slip::{Fault, Slip};
use crate::table::{Record, Rewriting, Table, BARRED, NOT_REGISTERED, PENDING, REGISTERED, UNREGISTERED};
use crate::vectors::{Vector, Vectors};
use crate::verdict::Code::{Base, Experimental};
use crate::verdict::{Authentication, Code, Verdict};

pub fn multimedia_auth<'a>(request: &Request<'a>, table: Table<'a>, vectors: Vectors<'a>, slip: Slip) -> Verdict<'a> {
    // Without one only if it is not needed.
    let found = request.identities.first().and_then(|public| by_public(table, public.data, slip));
    let sent = chosen(request, vectors, slip);
    let known = is_private_known(table, request.user_name.unwrap_or(&[])) || astray_known(request, vectors, slip);
    let fault = steps(request, table, found.map(|(_, record)| record), known, sent.is_empty(), slip)
        .into_iter()
        .find_map(|(result, holds)| holds.then_some(result));
    match (found, fault) {
        (Some(found), None) => success(request, Files { table, vectors }, found, sent, slip),
        (found, fault) => refused(request, vectors, found, fault.unwrap_or(Experimental(5001)), sent, slip),
    }
}

/// The two files that a success alters.
struct Files<'a> {
    table: Table<'a>,
    vectors: Vectors<'a>,
}

/// Whether a faulty program takes the User-Name for known, or for one to be compared.
fn astray_known(request: &Request, vectors: Vectors, slip: Slip) -> bool {
    match slip.0 {
        Some(Fault::UnknownUserNameMismatches) => true,
        Some(Fault::KnownByVectors) => vectors.all().any(|(_, vector)| Some(vector.private()) == request.user_name),
        _ => false,
    }
}

/// The faults in the order in which they are asked for.
fn steps(
    request: &Request,
    table: Table,
    record: Option<Record>,
    known: bool,
    none_to_send: bool,
    slip: Slip,
) -> Vec<(Code, bool)> {
    let private = request.user_name.unwrap_or(&[]);
    let differs = |record: Record| record.private() != private && !slip.is(Fault::IdentitiesNotCompared);
    let unable = if slip.is(Fault::NoVectorIsExperimental) { Experimental(5012) } else { Base(5012) };
    let mut steps = vec![
        (Experimental(5001), record.is_none() || !known),
        (Experimental(5002), record.map_or(false, differs)),
        (Experimental(5006), !scheme_is_served(request.scheme, slip)),
        (unable, none_to_send && !slip.is(Fault::NoVectorIsSuccess)),
    ];
    let is = |what: &dyn Fn(Record) -> bool| record.map_or(false, what);
    let stored = record.map_or(&[][..], |record| record.server_name());
    match slip.0 {
        Some(Fault::SchemeBeforeIdentities) => steps[..3].rotate_right(1),
        Some(Fault::SchemeBeforeMatch) => steps.swap(1, 2),
        Some(Fault::NoVectorBeforeScheme) => steps.swap(2, 3),
        Some(Fault::NoVectorBeforeMatch) => steps[1..].rotate_right(1),
        Some(Fault::ZeroAskedBeforeScheme) => steps.insert(2, (Base(5012), request.number_asked == 0)),
        Some(Fault::BarredNotAuthenticated) => steps.insert(2, (Base(5003), is(&|record| record.has(BARRED)))),
        Some(Fault::BarredSetNotAuthenticated) => {
            steps.insert(2, (Base(5003), is(&|record| is_barred(table, record, 0, slip))));
        }
        Some(Fault::RoamingAskedInAuthentication) => {
            steps.insert(2, (Experimental(5004), is(&|record| (0..8).all(|network| !record.roams_in(network)))));
        }
        Some(Fault::State0NotAuthenticated) => {
            steps.insert(2, (Experimental(5003), is(&|record| record.state() == NOT_REGISTERED)));
        }
        Some(Fault::AnotherServerNotAuthenticated) => {
            steps.insert(3, (Experimental(5005), !stored.is_empty() && stored != request.server_name));
        }
        _ => {}
    }
    steps
}

fn scheme_is_served(scheme: &[u8], slip: Slip) -> bool {
    match slip.0 {
        Some(Fault::SchemeNotAsked) => true,
        Some(Fault::SchemeWithoutCase) => scheme.eq_ignore_ascii_case(SCHEME),
        Some(Fault::LongerSchemeTaken) => scheme.starts_with(SCHEME),
        Some(Fault::ShorterSchemeTaken) => SCHEME.starts_with(scheme) && !scheme.is_empty(),
        Some(Fault::SchemeEndsAtZero) => scheme.split(|byte| *byte == 0).next() == Some(SCHEME),
        Some(Fault::EmptySchemeTaken) => scheme == SCHEME || scheme.is_empty(),
        _ => scheme == SCHEME,
    }
}

fn success<'a>(
    request: &Request<'a>,
    files: Files<'a>,
    (block, record): (usize, Record<'a>),
    sent: Vec<(usize, Vector<'a>)>,
    slip: Slip,
) -> Verdict<'a> {
    let mut verdict = Verdict::of(Base(2001));
    verdict.user_name = Some(record.private());
    verdict.marked = marked(&sent, slip);
    let unused = unused(request, files.vectors);
    verdict.authentication = Some(Authentication {
        public: match slip.0 {
            Some(Fault::IdentityOfSetsFirst) => first_of_set(files.table, record).public(),
            _ => record.public(),
        },
        asked: request.number_asked,
        unused: unused.len(),
        vectors: sent.into_iter().map(|(_, vector)| vector).collect(),
    });
    let reached = match slip.0 {
        Some(Fault::AuthenticationOnNamedAlone) => vec![(block, record)],
        _ => closed(files.table, &[(block, record)], slip),
    };
    let effect_on = |(place, (block, member)): (usize, &(usize, Record))| {
        let same = effect(request, record, slip);
        (*block, if place == 0 { same } else { of_others(same, *member, slip) })
    };
    verdict.rewritings = reached.iter().enumerate().map(effect_on).collect();
    match slip.0 {
        Some(Fault::VectorsForEachOfSet) => {
            verdict.marked = unused.into_iter().take(verdict.marked.len() * reached.len()).collect();
        }
        Some(Fault::SubscriptionNamed) => {
            let others = files.table.records().filter(|(_, other)| other.private() == record.private());
            verdict.rewritings = others.map(|(block, other)| (block, effect(request, other, slip))).collect();
        }
        Some(Fault::AllOfNameMarked) => verdict.marked = unused,
        Some(Fault::NameNotStored) => verdict.rewritings.clear(),
        Some(Fault::AuthenticationNamesServer) => verdict.server_name = Some(request.server_name),
        _ => {}
    }
    verdict
}

/// The name and pending reach the set.
fn of_others(rewriting: Rewriting, member: Record, slip: Slip) -> Rewriting {
    match slip.0 {
        Some(Fault::AuthenticationNamesOneAlone) => Rewriting { server_name: None, ..rewriting },
        Some(Fault::AuthenticationPendsOneAlone) => Rewriting { pending: member.has(PENDING), ..rewriting },
        _ => shared(rewriting, member, slip),
    }
}

/// The name is stored if it is another one; pending is set in state 0 and where the name changes.
fn effect(request: &Request, record: Record, slip: Slip) -> Rewriting {
    let (stored, given) = (record.server_name(), request.server_name);
    let differs = match slip.0 {
        Some(Fault::StoredBeginningIsSame) => !given.starts_with(stored) || stored.is_empty(),
        Some(Fault::GivenBeginningIsSame) => !stored.starts_with(given),
        Some(Fault::StoredNameKept) => stored.is_empty(),
        Some(Fault::NameStoredInState0Alone) => record.state() == NOT_REGISTERED && stored != given,
        _ => stored != given,
    };
    let had = record.has(PENDING);
    let in_state_0 = record.state() == NOT_REGISTERED;
    let pending = match slip.0 {
        Some(Fault::PendingAlwaysSet) => true,
        Some(Fault::PendingSetInState2) => had || differs || record.state() == UNREGISTERED,
        Some(Fault::PendingInState0Alone) => had || in_state_0,
        Some(Fault::PendingOnceClears) => in_state_0 || differs,
        Some(Fault::PendingNeverSet) => had,
        _ => had || in_state_0 || differs,
    };
    let state = match slip.0 {
        Some(Fault::OtherNameUnregisters) if differs => NOT_REGISTERED,
        Some(Fault::AuthenticationRegisters) => REGISTERED,
        _ => record.state(),
    };
    Rewriting { state, pending, server_name: differs.then(|| given.to_vec()) }
}

/// An error answer, which marks no vector and stores no name.
fn refused<'a>(
    request: &Request<'a>,
    vectors: Vectors<'a>,
    found: Option<(usize, Record<'a>)>,
    result: Code,
    sent: Vec<(usize, Vector<'a>)>,
    slip: Slip,
) -> Verdict<'a> {
    let mut verdict = Verdict::of(result);
    let (block, record) = match found {
        Some(found) => found,
        None => return verdict,
    };
    match (slip.0, result) {
        (Some(Fault::MarkedThoughMismatched), Experimental(5002)) => verdict.marked = marked(&sent, slip),
        (Some(Fault::MarkedThoughOtherScheme), Experimental(5006)) => verdict.marked = marked(&sent, slip),
        (Some(Fault::MarkedThoughZeroAsked), Base(5012)) if request.number_asked == 0 => {
            verdict.marked = unused(request, vectors).into_iter().take(1).collect();
        }
        (Some(Fault::NamedThoughMismatched), Experimental(5002))
        | (Some(Fault::NamedThoughOtherScheme), Experimental(5006))
        | (Some(Fault::NamedThoughNoVector), Base(5012)) => {
            verdict.rewritings = vec![(block, effect(request, record, slip))];
        }
        (Some(Fault::IdentitiesInErrors), Experimental(5006) | Base(5012)) => {
            verdict.user_name = Some(record.private());
            let public = record.public();
            verdict.authentication = Some(Authentication { public, asked: 0, unused: 0, vectors: vec![] });
        }
        _ => {}
    }
    verdict
}
