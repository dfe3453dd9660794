//! Document 02, [13]: what the plain engine alone does wrong.

use super::fault::{faults, Fault, Listed};

faults! { 16;
    PlainListOf2045: "the plain engine lists 2,045 places",
    PlainListOf1024: "the plain engine lists 1,024 places",
    PlainCutOffNotListed: "the plain engine does not list an AVP whose header is cut off",
    PlainPlacesIn12Bits: "the plain engine tells places in 12 bits",
    PlainByLetter: "the plain engine picks the fault by its letter, then by its place",
    PlainLastFault: "the plain engine picks the fault that comes last",
    PlainSeveralVendorsLast: "the plain engine asks for several Vendor-Ids after what is missing",
    PlainJudgesUnnamed: "the plain engine judges known kinds that the command does not name",
    PlainFirstRuleEverywhere: "the plain engine asks (b) of every AVP",
    PlainCountsNeighbours: "the plain engine asks (f) only of AVPs behind one of their own kind",
    PlainProxyInfoUpToFault: "the plain engine copies Proxy-Info up to the faulty AVP",
    PlainOwnListPastLengthFault: "the plain engine sees a 628 behind a length fault",
    PlainOwnListUpToFault: "the plain engine sees a 628 up to the faulty AVP",
    PlainPlaceNeverTold: "the plain engine tells place 0 always",
    PlainPeerLast: "the plain engine gives refusal 12 after 6",
    PlainVectorsNotAsked: "the plain engine never gives refusal 6",
    PlainNeighboursMustAgree: "the plain engine compares only records of a set that follow one another",
    PlainLastRecordNotFound: "the plain engine does not look at the last record",
    PlainFeaturesNotAsked: "the plain engine never gives X5011",
    PlainPendingStays: "the plain engine leaves the pending bit",
    PlainUsedSentAgain: "the plain engine sends used vectors again",
    PlainClearsRestOfBuffer: "the plain engine clears the buffer past the answer",
}

/// What those of them are when they are done that the others could have too.
pub const DONE: &[(Fault, Fault)] = &[
    (Fault::PlainSeveralVendorsLast, Fault::SeveralVendorsAfterMissing),
    (Fault::PlainJudgesUnnamed, Fault::UnnamedJudged),
    (Fault::PlainProxyInfoUpToFault, Fault::ProxyInfoUpToFault),
    (Fault::PlainOwnListPastLengthFault, Fault::OwnListPastLengthFault),
    (Fault::PlainOwnListUpToFault, Fault::OwnListUpToFault),
    (Fault::PlainPlaceNeverTold, Fault::PlaceNeverTold),
    (Fault::PlainPeerLast, Fault::PeerLast),
    (Fault::PlainVectorsNotAsked, Fault::VectorsNotAsked),
    (Fault::PlainNeighboursMustAgree, Fault::NeighboursMustAgree),
    (Fault::PlainLastRecordNotFound, Fault::LastRecordNotFound),
    (Fault::PlainFeaturesNotAsked, Fault::FeaturesNotAsked),
    (Fault::PlainPendingStays, Fault::PendingStays),
    (Fault::PlainUsedSentAgain, Fault::UsedSentAgain),
    (Fault::PlainClearsRestOfBuffer, Fault::RestOfBufferCleared),
];
