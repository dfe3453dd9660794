//! User-Data: of Cx the profile part, 606; of Sh the document, 702.

use super::avps::Avps;
use crate::kinds::{Dialect, SH_USER_DATA, USER_DATA, VENDOR};
use crate::message::M;
use crate::slip::Fault;
use crate::verdict::Verdict;

pub fn write(avps: &mut Avps, verdict: &Verdict, dialect: Dialect) {
    let fault = avps.slip.0;
    let (vendor, code) = match (dialect, fault) {
        (Dialect::Cx, _) | (Dialect::Sh, Some(Fault::ShDataOf606)) => (Some(VENDOR), USER_DATA),
        (Dialect::Sh, Some(Fault::ShDataWithoutVendor)) => (None, SH_USER_DATA),
        (Dialect::Sh, _) => (Some(VENDOR), SH_USER_DATA),
    };
    let at = avps.bytes.len();
    match fault {
        Some(Fault::UserDataOfSetJoined) if !verdict.user_data.is_empty() => {
            avps.own(vendor, code, &verdict.user_data.concat());
        }
        _ => verdict.user_data.iter().for_each(|data| avps.own(vendor, code, data)),
    }
    if dialect == Dialect::Sh && fault == Some(Fault::ShDataUnmarked) && !verdict.user_data.is_empty() {
        avps.bytes[at + 4] &= !M;
    }
}
