//! The document that 702 carries, in the XML of TS 29.328.

use crate::slip::{Fault, Slip};
use crate::table::{Record, Table, NOT_REGISTERED, PENDING};

/// The references that are served: the registration state, and the server name.
pub const STATE: u32 = 11;
pub const NAME: u32 = 12;

const DECLARATION: &[u8] = b"<?xml version=\"1.0\" encoding=\"UTF-8\"?>";

/// With the elements that were asked for, each once, in the schema's order.
pub fn document(asked: &[u32], record: Record, table: Table, slip: Slip) -> Vec<u8> {
    let mut document = match slip.0 {
        Some(Fault::DocumentUndeclared) => vec![],
        Some(Fault::DocumentDeclaredBriefly) => b"<?xml version=\"1.0\"?>".to_vec(),
        Some(Fault::DocumentIndented) => [DECLARATION, b"\n"].concat(),
        _ => DECLARATION.to_vec(),
    };
    let elements = elements(asked, record, table, slip);
    let inner = match slip.0 {
        Some(Fault::ImsDataLeftOut) => elements,
        Some(Fault::EmptyImsDataLeftOut) if elements.is_empty() => vec![],
        Some(Fault::EmptyImsDataClosed) if elements.is_empty() => b"<Sh-IMS-Data/>".to_vec(),
        _ => element(b"Sh-IMS-Data", &elements),
    };
    let before = match slip.0 {
        Some(Fault::PublicIdentifiersSent) => {
            element(b"PublicIdentifiers", &element(b"IMSPublicIdentity", &escaped(record.public(), slip)))
        }
        _ => vec![],
    };
    document.extend(element(b"Sh-Data", &[before, inner].concat()));
    if slip.is(Fault::DocumentEndsInNewline) {
        document.push(b'\n');
    }
    document
}

fn element(name: &[u8], content: &[u8]) -> Vec<u8> {
    [b"<", name, b">", content, b"</", name, b">"].concat()
}

/// The server name if one is stored, then the state.
fn elements(asked: &[u32], record: Record, table: Table, slip: Slip) -> Vec<u8> {
    let name_element = if slip.is(Fault::NameElementHyphenated) { &b"S-CSCFName"[..] } else { b"SCSCFName" };
    let state_element = if slip.is(Fault::StateElementRenamed) { &b"RegistrationState"[..] } else { b"IMSUserState" };
    let stored = server_name(record, table, slip);
    let name = match stored.is_empty() && !slip.is(Fault::EmptyNameElement) {
        true => vec![],
        false => element(name_element, &escaped(stored, slip)),
    };
    let state = element(state_element, &state(record, slip));
    let of = |reference: u32| match reference {
        NAME => name.clone(),
        STATE => state.clone(),
        _ => vec![],
    };
    let is_asked = |reference: u32| match slip.0 {
        Some(Fault::BothElementsAlways) => true,
        Some(Fault::NameElementAlways) if reference == NAME => true,
        Some(Fault::StateElementAlways) if reference == STATE => true,
        Some(Fault::FirstElementAlone) => asked.first() == Some(&reference),
        _ => asked.contains(&reference),
    };
    match slip.0 {
        Some(Fault::ElementForEachReference) => asked.iter().flat_map(|one| of(*one)).collect(),
        Some(Fault::ElementsAsAsked) => {
            let mut order = asked.to_vec();
            order.dedup();
            order.truncate(2);
            order.iter().flat_map(|one| of(*one)).collect()
        }
        Some(Fault::StateElementFirst) => [STATE, NAME].into_iter().filter(|one| is_asked(*one)).flat_map(of).collect(),
        _ => [NAME, STATE].into_iter().filter(|one| is_asked(*one)).flat_map(of).collect(),
    }
}

/// The record's own, in any state.
fn server_name<'a>(record: Record<'a>, table: Table<'a>, slip: Slip) -> &'a [u8] {
    let own = record.server_name();
    match slip.0 {
        Some(Fault::PendingNameNotToldInSh) if record.state() == NOT_REGISTERED => &[],
        Some(Fault::NameOfSubscriptionInSh) => {
            let of_subscription = table.records().map(|(_, it)| it).filter(|it| it.private() == record.private());
            of_subscription.map(|it| it.server_name()).find(|name| !name.is_empty()).unwrap_or(own)
        }
        Some(Fault::NameEndsAtZeroInSh) => own.split(|byte| *byte == 0).next().unwrap_or(own),
        _ => own,
    }
}

/// 0 not registered, 1 registered, 2 registered for unregistered services, 3 pending where it is not registered.
fn state(record: Record, slip: Slip) -> Vec<u8> {
    let (stored, pending) = (record.state(), record.has(PENDING));
    let told = match (stored, pending, slip.0) {
        (_, true, Some(Fault::PendingToldInAnyState)) => 3,
        (0, true, Some(Fault::PendingNotTold)) => 0,
        (0, true, Some(Fault::PendingIsRegistered)) => 1,
        (0, true, Some(Fault::PendingIsUnregistered)) => 2,
        (2, _, Some(Fault::UnregisteredIsRegistered)) => 1,
        (2, _, Some(Fault::UnregisteredIsNotRegistered)) => 0,
        (1 | 2, _, Some(Fault::StatesTurnedInSh)) => 3 - stored,
        (0, true, _) => 3,
        _ => stored,
    };
    let words = ["NOT_REGISTERED", "REGISTERED", "REGISTERED_UNREG_SERVICES", "AUTHENTICATION_PENDING"];
    match slip.0 {
        Some(Fault::StateInWords) => words[usize::from(told)].as_bytes().to_vec(),
        _ => vec![b'0' + told],
    }
}

/// Markup characters become entities; every other byte stays.
fn escaped(name: &[u8], slip: Slip) -> Vec<u8> {
    let mut text = Vec::new();
    for byte in name {
        match entity(*byte, slip) {
            Some(entity) => text.extend(entity),
            None => text.push(*byte),
        }
    }
    match slip.0 {
        Some(Fault::EscapedTwice) => {
            text.iter().flat_map(|byte| entity(*byte, Slip::NONE).unwrap_or(vec![*byte])).collect()
        }
        Some(Fault::SentAsCdata) => [b"<![CDATA[", name, b"]]>"].concat(),
        _ => text,
    }
}

/// What stands for a byte, if it is not itself.
fn entity(byte: u8, slip: Slip) -> Option<Vec<u8>> {
    let named = |text: &str| Some(text.as_bytes().to_vec());
    let is_left = match slip.0 {
        Some(Fault::NothingEscaped) => true,
        Some(Fault::AmpersandNotEscaped) => byte == b'&',
        Some(Fault::LessNotEscaped) => byte == b'<',
        Some(Fault::GreaterNotEscaped) => byte == b'>',
        Some(Fault::QuoteNotEscaped) => byte == b'"',
        Some(Fault::ApostropheNotEscaped) => byte == b'\'',
        Some(Fault::QuotesNotEscaped) => b"\"'".contains(&byte),
        _ => false,
    };
    match (slip.0, byte) {
        (Some(Fault::ApostropheByNumber), b'\'') => named("&#39;"),
        (Some(Fault::QuoteByNumber), b'"') => named("&#34;"),
        (Some(Fault::HighBytesByNumber), 128..) => Some(format!("&#{byte};").into_bytes()),
        (Some(Fault::HighBytesReplaced), 128..) => named("?"),
        (Some(Fault::ControlsByNumber), 0..=31) => Some(format!("&#{byte};").into_bytes()),
        (Some(Fault::ControlsLeftOut), 0..=31) => Some(vec![]),
        _ if is_left => None,
        (_, b'&') => named("&amp;"),
        (_, b'<') => named("&lt;"),
        (_, b'>') => named("&gt;"),
        (_, b'"') => named("&quot;"),
        (_, b'\'') => named("&apos;"),
        _ => None,
    }
}
