//! Sets: the records of one subscription with the same number that is not 0. All of a set agree in state, pending and server name.
//! Inlined, as the check is.

use std::collections::HashMap;

use super::layout::{record, Record, BARRED, PENDING, UNREGISTERED_SERVICES};
use crate::slip::{Fault, Slip};

/// A set by its subscription and its number.
pub type Set<'a> = (&'a [u8], u16);

impl<'a> Record<'a> {
    /// The set that it is of; none with number 0.
    pub fn implicit_set(&self) -> Option<Set<'a>> {
        Some((self.private(), self.set())).filter(|(_, number)| *number != 0)
    }
}

/// The first record of each set so far, with its block number.
#[derive(Default)]
pub struct Sets<'a> {
    first: HashMap<Set<'a>, (u32, Record<'a>)>,
    /// Only for a faulty program: the record before.
    before: Option<(u32, Record<'a>)>,
}

impl<'a> Sets<'a> {
    /// Whether a record agrees with the first of its set; else the block that is blamed, the record's own.
    #[inline(always)]
    pub fn agree(&mut self, number: u32, this: Record<'a>, slip: Slip) -> Result<(), u32> {
        let set = match judged(this, slip) {
            Some(set) => set,
            None => return Ok(()),
        };
        let earlier = *self.first.entry(set).or_insert((number, this));
        let earlier = match slip.0 {
            Some(Fault::NeighboursMustAgree) => {
                self.before.filter(|(at, it)| at + 1 == number && judged(*it, slip) == Some(set))
            }
            Some(Fault::LatestOfSetAsked) => self.first.insert(set, (number, this)),
            _ => Some(earlier),
        };
        self.before = Some((number, this));
        match earlier {
            Some((block, it)) if !is_like(it, this, slip) => Err(match slip.0 {
                Some(Fault::EarlierOfSetBlamed) => block,
                Some(Fault::DisagreementBlamesHeader) => 0,
                Some(Fault::DisagreementBlamesNext) => number + 1,
                _ => number,
            }),
            _ => Ok(()),
        }
    }
}

/// The set by which a record is judged, or as a faulty program takes it.
#[inline(always)]
fn judged(this: Record, slip: Slip) -> Option<Set> {
    let (private, number) = (this.private(), this.set());
    match slip.0 {
        Some(Fault::SetsMayDisagree | Fault::AgreementAskedInDecisionsAlone) => None,
        Some(Fault::SetZeroMustAgree) => Some((private, number)),
        Some(Fault::SubscriptionMustAgree) => Some((private, 1)),
        Some(Fault::NumberMustAgree) => Some((&[][..], number)).filter(|_| number != 0),
        Some(Fault::SetsAgreeIn8Bits) => Some((private, number & 0xFF)).filter(|_| number != 0),
        Some(Fault::SetsAgreeByFirstByte) => Some((private, number >> 8)).filter(|_| number != 0),
        Some(Fault::GreatSetsMayDisagree) => this.implicit_set().filter(|_| number >> 15 == 0),
        Some(Fault::SetsByLengthOfName) => {
            Some((&this.0[record::PRIVATE_LENGTH..][..1], number)).filter(|_| number != 0)
        }
        Some(Fault::SetsByBeginningOfName) => Some((&this.0[record::PRIVATE..][..4], number)).filter(|_| number != 0),
        _ => this.implicit_set(),
    }
}

/// State, pending and server name, its length and its bytes.
#[inline(always)]
fn is_like(one: Record, other: Record, slip: Slip) -> bool {
    let named = |it: Record<'_>| it.server_name().to_vec();
    let state = one.state() == other.state() || slip.is(Fault::SetStateNotAsked);
    let pending = one.has(PENDING) == other.has(PENDING) || slip.is(Fault::SetPendingNotAsked);
    let name = match slip.0 {
        Some(Fault::SetNameNotAsked) => true,
        Some(Fault::SetNameByLength) => named(one).len() == named(other).len(),
        Some(Fault::SetNameByField) => {
            one.0[record::SERVER..record::MANDATORY] == other.0[record::SERVER..record::MANDATORY]
        }
        Some(Fault::SetNamePrefixTaken) => {
            named(one).starts_with(&named(other)) || named(other).starts_with(&named(one))
        }
        Some(Fault::SetNameAskedInState1) => one.state() != 1 || one.server_name() == other.server_name(),
        _ => one.server_name() == other.server_name(),
    };
    state && pending && name && is_like_besides(one, other, slip)
}

/// What a faulty program asks besides.
#[inline(always)]
fn is_like_besides(one: Record, other: Record, slip: Slip) -> bool {
    match slip.0 {
        Some(Fault::SetBarringMustAgree) => one.has(BARRED) == other.has(BARRED),
        Some(Fault::SetServicesMustAgree) => one.has(UNREGISTERED_SERVICES) == other.has(UNREGISTERED_SERVICES),
        Some(Fault::SetRoamingMustAgree) => one.0[record::ROAMING] == other.0[record::ROAMING],
        Some(Fault::SetCapabilitiesMustAgree) => {
            (one.mandatory(), one.optional()) == (other.mandatory(), other.optional())
        }
        Some(Fault::SetProfileMustAgree) => {
            one.0[record::PROFILE_START..record::SET] == other.0[record::PROFILE_START..record::SET]
        }
        _ => true,
    }
}
