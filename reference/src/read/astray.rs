//! Deliberate faults of the order in which a request is read.

use super::kind::kind_of;
use super::missing::nothing_missing;
use super::peers::several_vendors;
use super::walk::walk;
use crate::kinds::{Command, Kind};
use crate::message::{Avp, Message};
use crate::slip::{Fault, Slip};
use crate::stated::{Stated, RFC_3588};
use crate::verdict::Finding;

/// What a faulty program asks before the walk: that there is no other fault, that nothing is missing, or the rule itself.
pub fn asked_before<'a>(message: Message<'a>, command: Command, stated: Stated, slip: Slip) -> Result<(), Finding<'a>> {
    let older = Stated { peer: RFC_3588, ..stated };
    match slip.0 {
        Some(Fault::SeveralVendorsAfterWalk) => walk(message.avps(), command, older, slip).map(drop),
        Some(Fault::SeveralVendorsAfterMissing) => {
            let found = walk(message.avps(), command, older, slip)?;
            let there: Vec<Kind> = found.iter().map(|(kind, _)| *kind).collect();
            nothing_missing(&there, command, slip)
        }
        Some(Fault::SeveralVendorsFirst) => {
            let all = message.avps().sound(slip);
            let is_one = |avp: &&Avp| kind_of(**avp, command, slip) == Some(Kind::VendorSpecificApplicationId);
            all.iter().filter(is_one).try_for_each(|avp| several_vendors(*avp, command, stated, slip))
        }
        _ => Ok(()),
    }
}
