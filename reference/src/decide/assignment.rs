//! SAR.

use std::borrow::Cow;

use super::lookup::{by_public, is_private_known};
use super::sets::{closed, first_of_set, is_barred, members, shared, Records};
use crate::kinds::Kind;
use crate::read::Request;
use crate::slip::{Fault, Slip};
use crate::table::{Record, Rewriting, Table, BARRED, NOT_REGISTERED, PENDING, REGISTERED, UNREGISTERED};
use crate::verdict::Code::{Base, Experimental};
use crate::verdict::{Code, Failed, Verdict};

/// What a sentence of document 01 asks for holds, or this is decided.
type Holds<'a, T> = Result<T, Box<Verdict<'a>>>;

pub fn server_assignment<'a>(request: &Request<'a>, table: Table<'a>, profile: &'a [u8], slip: Slip) -> Verdict<'a> {
    let removal = is_removal(request.assignment_type, slip);
    let assignment = Assignment { request, table, profile, removal, slip };
    assignment.decide().unwrap_or_else(|decided| *decided)
}

fn is_removal(assignment_type: u32, slip: Slip) -> bool {
    match assignment_type {
        4..=8 => true,
        11 => !slip.is(Fault::Type11NoRemoval),
        9 | 10 => slip.is(Fault::FailuresAreRemovals),
        _ => false,
    }
}

/// The records that a removal without identity means: the User-Name's that are not in state 0.
pub fn nameless<'a>(private: &[u8], table: Table<'a>, slip: Slip) -> Records<'a> {
    table
        .records()
        .filter(|(_, record)| record.private() == private)
        .filter(|(_, record)| match slip.0 {
            Some(Fault::NamelessMeansPendingToo) => record.state() != NOT_REGISTERED || record.has(PENDING),
            Some(Fault::NamelessMeansAll) => true,
            _ => record.state() != NOT_REGISTERED,
        })
        .collect()
}

struct Assignment<'r, 'a> {
    request: &'r Request<'a>,
    table: Table<'a>,
    profile: &'a [u8],
    removal: bool,
    slip: Slip,
}

impl<'a> Assignment<'_, 'a> {
    /// The sentences in their order.
    fn decide(&self) -> Holds<'a, Verdict<'a>> {
        if self.slip.is(Fault::TooManyAfterUnknown) {
            self.known_records()?;
        }
        self.identities_fit()?;
        let named = self.known_records()?;
        self.of_one_subscription(&named)?;
        self.none_is_barred(&named)?;
        if self.request.assignment_type == 0 {
            return self.no_assignment(named[0]);
        }
        self.each_set_once(&named)?;
        let records = self.with_sets(&named);
        if self.slip.is(Fault::StateBeforeName) {
            self.states_fit(&records)?;
        }
        if self.slip.is(Fault::NameAndStateByRecord) {
            for record in records.chunks(1) {
                self.names_fit(record)?;
                self.states_fit(record)?;
            }
        }
        let asked = if self.slip.is(Fault::NamedAskedAlone) { &named } else { &records };
        self.names_fit(asked)?;
        self.states_fit(asked)?;
        Ok(self.effects(named.len(), &records))
    }

    /// The records of the request and all others of their sets. Those of a removal without identity are whole sets already.
    fn with_sets(&self, named: &Records<'a>) -> Records<'a> {
        let alone = match (self.slip.0, self.request.assignment_type) {
            (Some(Fault::AssignmentOnNamedAlone), _) => true,
            (Some(Fault::RegistrationOnNamedAlone), 1 | 2) => true,
            (Some(Fault::Type3OnNamedAlone), 3) => true,
            (Some(Fault::RemovalOnNamedAlone), _) => self.removal,
            (Some(Fault::KeepingOnNamedAlone), 6 | 7) => true,
            (Some(Fault::FailuresOnNamedAlone), 9 | 10) => true,
            (Some(Fault::NamelessNotClosed), _) => self.request.identities.is_empty(),
            _ => false,
        };
        if alone {
            named.clone()
        } else {
            closed(self.table, named, self.slip)
        }
    }

    /// Only a faulty program asks for barring here.
    fn none_is_barred(&self, named: &Records<'a>) -> Holds<'a, ()> {
        let barred = |record: Record| match self.slip.0 {
            Some(Fault::BarredNotAssigned) => record.has(BARRED),
            Some(Fault::BarredSetNotAssigned) => is_barred(self.table, record, 0, self.slip),
            _ => false,
        };
        match named.iter().any(|(_, record)| barred(*record)) {
            true => Err(Box::new(Verdict::of(Base(5003)))),
            false => Ok(()),
        }
    }

    /// Several of one set are like one: only a faulty program finds the second of them removed with the first.
    fn each_set_once(&self, named: &Records<'a>) -> Holds<'a, ()> {
        let gone = self.slip.is(Fault::SecondOfSetIsGone) && self.effect().0.state == NOT_REGISTERED;
        let again = |at: usize| named[..at].iter().any(|(_, it)| is_of_one_set(*it, named[at].1));
        match self.removal && gone && !self.request.identities.is_empty() && (0..named.len()).any(again) {
            true => Err(Box::new(Verdict::of(Experimental(5007)))),
            false => Ok(()),
        }
    }

    /// Others than removals need exactly one identity; a removal without one needs a User-Name.
    fn identities_fit(&self) -> Holds<'a, ()> {
        let identities = &self.request.identities;
        let missing = |kind| Err(Box::new(Verdict { failed: Failed::Example(kind), ..Verdict::of(Base(5005)) }));
        match identities.len() {
            0 if self.removal && self.request.user_name.is_some() => Ok(()),
            0 if self.removal && self.slip.is(Fault::NamelessMissesUserName) => missing(Kind::UserName),
            0 => missing(Kind::PublicIdentity),
            1 => Ok(()),
            _ if self.removal && !(self.slip.is(Fault::TwoOfSetTooMany) && self.name_one_set()) => Ok(()),
            _ if self.set_is_one() && self.name_one_set() => Ok(()),
            _ if self.slip.is(Fault::SameIdentityTwiceTaken)
                && identities.iter().all(|avp| avp.data == identities[0].data) =>
            {
                Ok(())
            }
            count => {
                let at = if self.slip.is(Fault::LastIdentityFails) { count - 1 } else { 1 };
                let failed = Failed::Whole(identities[at]);
                Err(Box::new(Verdict { failed, ..Verdict::of(Base(5009)) }))
            }
        }
    }

    /// Whether a faulty program takes the identities of a set for one, also for B5009.
    fn set_is_one(&self) -> bool {
        match self.slip.0 {
            Some(Fault::SetIsOneInAssignments) => self.request.assignment_type <= 3,
            Some(Fault::SetIsOneInFailures) => matches!(self.request.assignment_type, 9 | 10),
            _ => false,
        }
    }

    /// Whether all identities are known and of one set.
    fn name_one_set(&self) -> bool {
        let find = |public: &[u8]| by_public(self.table, public, self.slip).map(|(_, record)| record);
        let found: Option<Vec<Record>> = self.request.identities.iter().map(|avp| find(avp.data)).collect();
        found.map_or(false, |records| records.iter().all(|record| is_of_one_set(records[0], *record)))
    }

    /// Any named identity, or a User-Name given, unknown: X5001. An identity named twice counts once.
    fn known_records(&self) -> Holds<'a, Records<'a>> {
        let unknown = || Box::new(Verdict::of(Experimental(5001)));
        let mut records: Records = Vec::new();
        for identity in &self.request.identities {
            let found = by_public(self.table, identity.data, self.slip).ok_or_else(unknown)?;
            if records.iter().all(|(block, _)| *block != found.0) {
                records.push(found);
            }
            match self.slip.0 {
                Some(Fault::FirstIdentityAlone) => break,
                Some(Fault::ForeignBeforeLaterUnknown) => self.of_one_subscription(&records)?,
                _ => {}
            }
        }
        if let Some(name) = self.request.user_name {
            let overlooked = match self.slip.0 {
                Some(Fault::UnknownUserNameMismatches) => true,
                Some(Fault::NamelessNotLookedUp) => self.request.identities.is_empty(),
                _ => false,
            };
            if !is_private_known(self.table, name) && !overlooked {
                return Err(unknown());
            }
        }
        if self.request.identities.is_empty() {
            records = nameless(self.request.user_name.unwrap_or(&[]), self.table, self.slip);
        }
        Ok(records)
    }

    /// All in one subscription, the User-Name's if given, else X5002.
    fn of_one_subscription(&self, records: &Records<'a>) -> Holds<'a, ()> {
        let subscription = match self.request.user_name {
            Some(name) if !self.slip.is(Fault::UserNameNotCompared) => Some(name),
            _ => records.first().map(|(_, record)| record.private()),
        };
        match records.iter().position(|(_, record)| Some(record.private()) != subscription) {
            Some(at) if !self.slip.is(Fault::SubscriptionsMixed) => {
                let mut verdict = Verdict::of(Experimental(5002));
                if self.slip.is(Fault::ChangesBeforeForeign) && self.removal {
                    verdict.rewritings = self.rewritings(&records[..at]);
                }
                Err(Box::new(verdict))
            }
            _ => Ok(()),
        }
    }

    /// Type 0: stored name equal to the request's, B2001, else B5012.
    fn no_assignment(&self, (block, record): (usize, Record<'a>)) -> Holds<'a, Verdict<'a>> {
        let slip = self.slip;
        if slip.is(Fault::Type0AsksState) && record.state() == NOT_REGISTERED {
            return Err(Box::new(Verdict::of(Experimental(5007))));
        }
        if record.server_name() != self.request.server_name && !slip.is(Fault::Type0NameNotAsked) {
            let result = if slip.is(Fault::Type0IsAlreadyRegistered) { Experimental(5005) } else { Base(5012) };
            return Err(Box::new(Verdict::of(result)));
        }
        let mut verdict = self.success(Base(2001), record);
        let cleared = Rewriting { state: record.state(), pending: false, server_name: None };
        match slip.0 {
            Some(Fault::Type0ClearsPending) => verdict.rewritings.push((block, cleared)),
            Some(Fault::Type0ReachesSet) => {
                let others = closed(self.table, &[(block, record)], slip).into_iter().skip(1);
                verdict.rewritings = others.map(|(block, _)| (block, cleared.clone())).collect();
            }
            _ => {}
        }
        Ok(verdict)
    }

    /// A stored name of one of these records that differs from the request's: X5005.
    fn names_fit(&self, records: &[(usize, Record<'a>)]) -> Holds<'a, ()> {
        let is_asked = |record: &Record| match self.slip.0 {
            Some(Fault::AnotherServerTaken) => false,
            Some(Fault::NameComparedIfRegistered) => record.state() == REGISTERED,
            Some(Fault::RemovalsNotCompared) => !self.removal,
            Some(Fault::FailuresNotCompared) => !matches!(self.request.assignment_type, 9 | 10),
            _ => true,
        };
        let differs = |record: &Record| {
            let stored = record.server_name();
            stored != self.request.server_name && (!stored.is_empty() || self.slip.is(Fault::NoNameDiffers))
        };
        match records.iter().any(|(_, record)| is_asked(record) && differs(record)) {
            true => Err(Box::new(Verdict::of(Experimental(5005)))),
            false => Ok(()),
        }
    }

    /// Wrong state: X5007. Removals need at least one record.
    fn states_fit(&self, records: &[(usize, Record<'a>)]) -> Holds<'a, ()> {
        let wrong = records.iter().position(|(_, record)| !self.state_fits(record.state()));
        if wrong.is_none() && (!records.is_empty() || self.slip.is(Fault::NothingRemovedIsWell)) {
            return Ok(());
        }
        let mut verdict = Verdict::of(Experimental(5007));
        if self.slip.is(Fault::ChangesBeforeWrongState) && self.removal {
            verdict.rewritings = self.rewritings(&records[..wrong.unwrap_or(0)]);
        }
        Err(Box::new(verdict))
    }

    fn state_fits(&self, state: u8) -> bool {
        if self.removal {
            return match self.slip.0 {
                Some(Fault::RemovalFromAnyState) => true,
                Some(Fault::RemovalFromState1Alone) => state == REGISTERED,
                _ => state != NOT_REGISTERED,
            };
        }
        match (self.request.assignment_type, self.slip.0) {
            (1, Some(Fault::Type1FromState0Alone)) => state == NOT_REGISTERED,
            (2, Some(Fault::Type2FromAnyState)) => true,
            (2, Some(Fault::Type2FromState2Too)) => state != NOT_REGISTERED,
            (2, _) => state == REGISTERED,
            (3, Some(Fault::Type3FromAnyState)) => true,
            (3, Some(Fault::Type3FromState0Alone)) => state == NOT_REGISTERED,
            (3, _) => state != REGISTERED,
            (9 | 10, Some(Fault::FailuresNeedState)) => state != NOT_REGISTERED,
            _ => true,
        }
    }

    /// The named ones stand before the others of their sets.
    fn effects(&self, named: usize, records: &[(usize, Record<'a>)]) -> Verdict<'a> {
        let (_, result) = self.effect();
        let mut verdict = match records.first() {
            Some((_, record)) => self.success(result, *record),
            None => Verdict::of(result),
        };
        verdict.rewritings = match (self.slip.0, records.first()) {
            (Some(Fault::OneRecordRewritten), _) => self.rewritings(&records[..records.len().min(1)]),
            (Some(Fault::SubscriptionRewritten), Some((_, first))) => {
                let all = self.table.records().filter(|(_, record)| record.private() == first.private());
                self.rewritings(&all.collect::<Records>())
            }
            _ => {
                let mut rewritings = self.rewritings(records);
                for ((_, rewriting), (_, record)) in rewritings.iter_mut().zip(records).skip(named) {
                    *rewriting = shared(rewriting.clone(), *record, self.slip);
                }
                rewritings
            }
        };
        verdict
    }

    fn rewritings(&self, records: &[(usize, Record<'a>)]) -> Vec<(usize, Rewriting)> {
        let (rewriting, _) = self.effect();
        records.iter().map(|(block, _)| (*block, rewriting.clone())).collect()
    }

    /// The table of effects: what becomes of a record, and the result.
    fn effect(&self) -> (Rewriting, Code) {
        let slip = self.slip;
        let keep = self.table.header().keep() != slip.is(Fault::KeepTurned);
        let stored = |state| Rewriting { state, pending: false, server_name: Some(self.request.server_name.to_vec()) };
        let none = Rewriting { state: NOT_REGISTERED, pending: false, server_name: Some(Vec::new()) };
        let keeping = |asked_type| match asked_type {
            6 | 7 => true,
            4 | 5 => slip.is(Fault::Types4And5MayKeep),
            8 => slip.is(Fault::Type8MayKeep),
            _ => false,
        };
        match self.request.assignment_type {
            1 | 2 => (stored(REGISTERED), Base(2001)),
            3 => (stored(if slip.is(Fault::Type3Registers) { REGISTERED } else { UNREGISTERED }), Base(2001)),
            asked_type if keeping(asked_type) && keep => {
                (Rewriting { state: UNREGISTERED, pending: false, server_name: None }, Base(2001))
            }
            6 | 7 if slip.is(Fault::NotStoredIsSuccess) => (none, Base(2001)),
            6 | 7 => (none, Experimental(2004)),
            9 | 10 if slip.is(Fault::FailuresKeepName) => {
                (Rewriting { state: NOT_REGISTERED, pending: false, server_name: None }, Base(2001))
            }
            _ => (none, Base(2001)),
        }
    }

    /// A success: types 0 to 3 carry the User-Name, and the User-Data if it is asked for and there is any.
    fn success(&self, result: Code, record: Record<'a>) -> Verdict<'a> {
        let (asked_type, slip) = (self.request.assignment_type, self.slip);
        let mut verdict = Verdict::of(result);
        if asked_type <= 3 || slip.is(Fault::RemovalsCarryUserName) {
            verdict.user_name = Some(match slip.0 {
                Some(Fault::UserNameOfSetsFirst) => first_of_set(self.table, record).private(),
                _ => record.private(),
            });
        }
        if asked_type > 3 {
            return verdict;
        }
        if slip.is(Fault::UserNameOnlyIfGiven) {
            verdict.user_name = self.request.user_name;
        }
        if slip.is(Fault::AssignmentNamesServer) {
            verdict.server_name = Some(self.request.server_name);
        }
        let asked = (self.request.already_available == 0 || slip.is(Fault::UserDataAlways))
            && !(slip.is(Fault::NoUserDataForType0) && asked_type == 0);
        if asked {
            let of_set = || members(self.table, record).collect::<Vec<Record>>();
            let shown = match slip.0 {
                Some(Fault::UserDataOfSetsFirst) => vec![first_of_set(self.table, record)],
                Some(Fault::UserDataOfSetsLast) => vec![of_set().pop().unwrap_or(record)],
                Some(Fault::UserDataForEachOfSet | Fault::UserDataOfSetJoined) if record.set() != 0 => of_set(),
                _ => vec![record],
            };
            let data = shown.into_iter().filter_map(|record| self.user_data(record));
            verdict.user_data = data.map(Cow::Borrowed).collect();
        }
        verdict
    }

    /// A record's part of the profile file; none if it is empty.
    fn user_data(&self, record: Record<'a>) -> Option<&'a [u8]> {
        let start = match self.slip.0 {
            Some(Fault::UserDataFromTheStart) => 0,
            Some(Fault::ProfileStartIn16Bits) => record.profile_start() & 0xFFFF,
            _ => record.profile_start(),
        };
        let length = record.profile_length();
        let shown = length != 0 || self.slip.is(Fault::EmptyUserData);
        self.profile.get(start..start + length).filter(|_| shown)
    }
}

fn is_of_one_set(one: Record, other: Record) -> bool {
    one.implicit_set().is_some() && one.implicit_set() == other.implicit_set()
}
