//! An answer as a person reads it.

use crate::block::word_at;
use crate::kinds::{self, name_of, VENDOR};
use crate::message::{Avp, LengthFault, Message, Received, E, HEADER, M, P, R, V};
use crate::slip::Slip;

/// Lines for an answer message, or for the text of a refusal.
pub fn show(bytes: &[u8]) -> String {
    if let Some(number) = refusal(bytes) {
        return format!("refused {number}: {}\n", refusal_name(number));
    }
    if bytes.len() < HEADER {
        return format!("no message: {} bytes\n{}\n", bytes.len(), hex(bytes));
    }
    let message = Message(bytes);
    let mut lines = format!(
        "{} version {}, length {}{}, flags {}, command {} {}, application {}\n",
        hex(&bytes[..12]),
        message.version(),
        message.length(),
        if message.length() == bytes.len() { String::new() } else { format!(" (of {} bytes)", bytes.len()) },
        header_flags(message.flags()),
        message.command(),
        command_name(message.command(), message.flags()),
        message.application(),
    );
    lines.push_str(&format!(
        "{} hop-by-hop {:08x}, end-to-end {:08x}\n",
        hex(&bytes[12..20]),
        word_at(bytes, 12),
        word_at(bytes, 16)
    ));
    show_avps(message.avps(), 1, false, &mut lines);
    lines
}

fn refusal(bytes: &[u8]) -> Option<u32> {
    let text = std::str::from_utf8(bytes).ok()?;
    text.strip_prefix("refused ")?.trim_end().parse().ok()
}

fn refusal_name(number: u32) -> &'static str {
    match number {
        1 => "answer buffer under 36,864 bytes",
        2 => "request under 20 or over 16,384 bytes",
        3 => "header length differs from the request's, or is no multiple of 4",
        4 => "R bit clear",
        5 => "table unsound",
        6 => "vector file unsound",
        12 => "peer edition neither 3588 nor 6733",
        _ => "a number that the documents do not have",
    }
}

fn header_flags(flags: u8) -> String {
    let mut text = format!("{flags:02x}");
    for (bit, name) in [(R, " R"), (P, " P"), (E, " E"), (0x10, " T")] {
        if flags & bit != 0 {
            text.push_str(name);
        }
    }
    text
}

fn command_name(command: u32, flags: u8) -> &'static str {
    match (command, flags & R != 0) {
        (300, false) => "User-Authorization-Answer",
        (301, false) => "Server-Assignment-Answer",
        (302, false) => "Location-Info-Answer",
        (303, false) => "Multimedia-Auth-Answer",
        (300, true) => "User-Authorization-Request",
        (301, true) => "Server-Assignment-Request",
        (302, true) => "Location-Info-Request",
        (303, true) => "Multimedia-Auth-Request",
        (306, false) => "User-Data-Answer",
        (306, true) => "User-Data-Request",
        _ => "(not known)",
    }
}

fn show_avps(avps: Received, depth: usize, experimental: bool, lines: &mut String) {
    let indent = "  ".repeat(depth);
    let mut rest = avps;
    while !rest.is_empty() {
        match rest.first(Slip::NONE) {
            Ok((avp, after)) => {
                show_avp(avp, depth, experimental, lines);
                rest = after;
            }
            Err(LengthFault::CutOff) => {
                lines.push_str(&format!("{indent}a header cut off: {}\n", hex(rest.bytes)));
                return;
            }
            Err(LengthFault::Header(_)) => {
                lines.push_str(&format!("{indent}an AVP of unsound length: {}\n", hex(rest.bytes)));
                return;
            }
        }
    }
}

fn show_avp(avp: Avp, depth: usize, experimental: bool, lines: &mut String) {
    let indent = "  ".repeat(depth);
    let name = name_of(avp.vendor, avp.code).unwrap_or("(unknown)");
    let mut flags = String::new();
    for (bit, letter) in [(V, 'V'), (M, 'M'), (P_OF_AVP, 'P')] {
        if avp.flags & bit != 0 {
            flags.push(letter);
        }
    }
    if avp.has_reserved_flags() {
        flags.push_str(&format!(" reserved {:02x}", avp.flags & 0x1F));
    }
    let vendor = avp.vendor.map_or(String::new(), |vendor| format!(" of {vendor}"));
    lines.push_str(&format!("{indent}{name} {}{vendor} [{flags}] length {}", avp.code, avp.whole.len()));
    if is_group(avp) && !avp.data.is_empty() {
        lines.push_str(&format!("  {}\n", hex(avp.header())));
        show_avps(avp.members(), depth + 1, avp.code == kinds::EXPERIMENTAL_RESULT, lines);
        return;
    }
    lines.push_str(&format!("{}  {}\n", value(avp, experimental), hex(avp.whole)));
}

/// The P flag of an AVP has the place of the header's E.
const P_OF_AVP: u8 = 0x20;

fn is_group(avp: Avp) -> bool {
    matches!(
        (avp.vendor, avp.code),
        (None, 260 | kinds::FAILED_AVP | 284 | kinds::EXPERIMENTAL_RESULT)
            | (Some(VENDOR), kinds::SERVER_CAPABILITIES | 612 | 628 | 700)
    )
}

fn value(avp: Avp, experimental: bool) -> String {
    let number = (avp.data.len() == 4).then(|| word_at(avp.data, 0));
    match (avp.vendor, avp.code, number) {
        (None, kinds::RESULT_CODE, Some(code)) => format!(" = B{code} {}", base_name(code)),
        (None, kinds::EXPERIMENTAL_RESULT_CODE, Some(code)) if experimental => {
            format!(" = X{code} {}", experimental_name(code))
        }
        (None, 258 | 259 | 266 | 277 | 278 | 298, Some(number))
        | (Some(VENDOR), 604 | 605 | 607 | 613 | 614 | 623 | 624 | 629 | 630 | 703, Some(number)) => {
            format!(" = {number}")
        }
        _ if avp.data.is_empty() => String::new(),
        _ if avp.data.iter().all(|byte| (0x20..0x7F).contains(byte)) => {
            format!(" = \"{}\"", String::from_utf8_lossy(avp.data))
        }
        _ => String::new(),
    }
}

pub fn base_name(code: u32) -> &'static str {
    match code {
        2001 => "success",
        3001 => "command unsupported",
        3007 => "application unsupported",
        3008 => "invalid header bits",
        3009 => "invalid AVP bits",
        5001 => "AVP unsupported",
        5003 => "authorization rejected",
        5004 => "invalid AVP value",
        5005 => "missing AVP",
        5009 => "AVP occurs too many times",
        5011 => "unsupported version",
        5012 => "unable to comply",
        5014 => "invalid AVP length",
        _ => "(not known)",
    }
}

pub fn experimental_name(code: u32) -> &'static str {
    match code {
        2001 => "first registration",
        2002 => "subsequent registration",
        2003 => "unregistered service",
        2004 => "success, server name not stored",
        5001 => "user unknown",
        5002 => "identities don't match",
        5003 => "identity not registered",
        5004 => "roaming not allowed",
        5005 => "identity already registered",
        5006 => "authentication scheme not supported",
        5007 => "error in assignment type",
        5011 => "feature unsupported",
        5100 => "user data not recognized",
        _ => "(not known)",
    }
}

/// Words of 4 bytes.
pub fn hex(bytes: &[u8]) -> String {
    let word = |word: &[u8]| word.iter().map(|byte| format!("{byte:02x}")).collect::<String>();
    bytes.chunks(4).map(word).collect::<Vec<String>>().join(" ")
}
