//! The header's faults.

use crate::kinds::{Command, Dialect};
use crate::message::{Message, E};
use crate::slip::{Fault, Slip};
use crate::verdict::{Failed, Finding, Why};

pub fn read_header<'a>(message: Message, dialect: Dialect, slip: Slip) -> Result<Command, Finding<'a>> {
    let command = command(message.command(), dialect, slip);
    let application = message.application();
    let is_other = match (slip.0, dialect) {
        (Some(Fault::ApplicationNotAsked), _) => false,
        (Some(Fault::CxApplicationTakenInSh), Dialect::Sh) => {
            ![Dialect::Cx, Dialect::Sh].map(Dialect::application).contains(&application)
        }
        (Some(Fault::CxApplicationAloneInSh), Dialect::Sh) => application != Dialect::Cx.application(),
        (Some(Fault::ApplicationNotAskedInSh), Dialect::Sh) => false,
        _ => application != dialect.application(),
    };
    let reserved = slip.is(Fault::ReservedHeaderBitsAsked) && message.flags() & 0x0F != 0;
    let unserved = slip.is(Fault::AuthenticationNotServed) && command == Some(Command::MultimediaAuth);
    let mut faults = [
        (5011, message.version() != 1 && !slip.is(Fault::VersionNotAsked)),
        (3008, message.flags() & E != 0 && !slip.is(Fault::EBitNotAsked) || reserved),
        (3001, command.is_none() && !slip.is(Fault::CommandNotAsked) || unserved),
        (3007, is_other),
    ];
    match slip.0 {
        Some(Fault::EBitBeforeVersion) => faults.swap(0, 1),
        Some(Fault::CommandBeforeEBit) => faults.swap(1, 2),
        Some(Fault::ApplicationBeforeCommand) => faults.swap(2, 3),
        _ => {}
    }
    if let Some((result, _)) = faults.into_iter().find(|(_, holds)| *holds) {
        let failed = if slip.is(Fault::FailedAvpForHeaderFaults) { Failed::Empty } else { Failed::Absent };
        return Err(Finding { result, failed, place: 0, why: Why::Header(result) });
    }
    // Without one only if it is not asked.
    Ok(command.unwrap_or(match dialect {
        Dialect::Cx => Command::LocationInfo,
        Dialect::Sh => Command::UserData,
    }))
}

/// The command of this code, if the interface serves it.
fn command(code: u32, dialect: Dialect, slip: Slip) -> Option<Command> {
    match (slip.0, code) {
        (Some(Fault::Command304Taken), 304) if dialect == Dialect::Cx => Some(Command::MultimediaAuth),
        (Some(Fault::UserDataTakenInCx), 306) if dialect == Dialect::Cx => Some(Command::LocationInfo),
        (Some(Fault::CxCommandsTakenInSh), 300..=303) if dialect == Dialect::Sh => Some(Command::UserData),
        (Some(Fault::Command307Taken), 307) if dialect == Dialect::Sh => Some(Command::UserData),
        _ => dialect.command(code),
    }
}
