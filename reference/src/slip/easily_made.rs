//! Document 01, "Errors easily made".

use super::fault::{faults, Fault, Listed};

faults! { 1;
    BaseForUserUnknown: "B5001 is sent where X5001 is meant",
    LengthWithPadding: "the AVP length is taken with its padding",
    ChangesBeforeForeign: "a removal changes the records before it finds a foreign one",
    PrefixTaken: "a complete prefix of a table is taken for the table",
    UnknownByCodeAlone: "an unknown kind is judged by code alone",
}
