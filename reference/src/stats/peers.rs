//! The rows of peers: what comes of a 260 with one Vendor-Id or several, by the peer's edition.

use crate::cases::{Case, Slice};
use crate::kinds::Kind;
use crate::message::Message;
use crate::read::{vendors_of, SEVERAL};
use crate::slip::Slip;
use crate::verdict::Why;

/// What came of the first 260 of a request without a header fault.
pub fn row(case: &Case, why: &Why) -> Option<String> {
    let came = match why {
        Why::Rule('h', SEVERAL) => "B5009",
        Why::Rule('h', what) if *what == Kind::VendorSpecificApplicationId.name() => "B5004",
        Why::Rule(..) => "another fault",
        Why::Missing(_) | Why::Unsupported(_) | Why::Decided(_) => "goes on",
        _ => return None,
    };
    let request = case.held(Slice::Request);
    let all = Message(&request).avps().sound(Slip::NONE);
    let first = all.iter().find(|avp| Kind::of(avp.vendor, avp.code) == Some(Kind::VendorSpecificApplicationId))?;
    let vendors = match vendors_of(*first).len() {
        0 => "no Vendor-Id",
        1 => "one Vendor-Id",
        _ => "several Vendor-Ids",
    };
    Some(format!("260: {vendors}, RFC {}: {came}", case.stated().peer))
}

/// The rows that there must be, and how much rarer than others they may be.
pub fn wanted() -> Vec<(String, u64)> {
    let mut wanted = vec![
        ("260: several Vendor-Ids, RFC 3588: goes on".to_string(), 1),
        ("260: several Vendor-Ids, RFC 6733: B5009".to_string(), 1),
    ];
    for peer in [3588, 6733] {
        for (what, times) in [
            ("one Vendor-Id", "goes on", 1),
            ("one Vendor-Id", "another fault", 1),
            ("one Vendor-Id", "B5004", 1),
            ("no Vendor-Id", "B5004", 4),
            ("several Vendor-Ids", "B5004", 1),
            ("several Vendor-Ids", "another fault", 1),
        ]
        .map(|(vendors, came, times)| (format!("{vendors}, RFC {peer}: {came}"), times))
        {
            wanted.push((format!("260: {what}"), times));
        }
    }
    wanted
}
