//! Those that no case can show: over a sound table they come to the same.

use super::fault::{faults, Fault, Listed};

faults! { 19;
    LatestOfSetAsked: "a record is compared with the latest record of its set, not with the first",
    NamedAskedAlone: "X5005 and X5007 are asked of the named records alone, not of their sets",
    NamelessNotClosed: "a removal without identity does not look for sets",
    UserNameOfSetsFirst: "the User-Name is that of the set's first record",
    NoNameUnableInAuthorization: "UAR in state 1 or 2 without a stored name is B5012",
    NoNameUnableInLocation: "LIR in state 1 or 2 without a stored name is B5012",
    SeveralVendorsBeforeCount: "RFC 6733's B5009 of 260 goes before that of a second 260",
}
