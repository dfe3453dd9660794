//! Writing a list: its lines, each of a record.

use super::columns::{is_listable, number, Fields, FIRST_LINE, NAMES};
use crate::block::word_at;
use crate::slip::{Fault, Slip};
use crate::table::{Record, Table, ISSUE, MOST_CAPABILITIES};

/// The lines of a sound table's list, each with its end.
pub fn lines(table: Table, slip: Slip) -> Vec<Vec<u8>> {
    let mut records: Vec<(usize, Record)> = table.records().collect();
    match slip.0 {
        Some(Fault::ListedByPrivate) => records.sort_by_key(|(_, it)| it.private()),
        Some(Fault::UnlistableLeftOut) => records.retain(|(_, it)| unlistable(*it, Slip::NONE).is_none()),
        _ => {}
    }
    let mut lines = vec![first_line(slip)];
    lines.extend(records.iter().map(|(block, it)| ended(cells(*it, *block, table, slip), slip)));
    match (slip.0, lines.last_mut()) {
        (Some(Fault::LastLineLeftOpen), Some(last)) => last.truncate(last.len() - 2),
        (Some(Fault::BlankLineAtEnd), _) => lines.push(b"\r\n".to_vec()),
        _ => {}
    }
    lines
}

fn first_line(slip: Slip) -> Vec<u8> {
    let names = FIRST_LINE[..FIRST_LINE.len() - 2].split(|byte| *byte == b',').map(<[u8]>::to_vec);
    match slip.0 {
        Some(Fault::FirstLineLeftOut) => vec![],
        Some(Fault::FirstLineInCapitals) => FIRST_LINE.to_ascii_uppercase(),
        Some(Fault::FirstLineQuoted) => ended(names.map(|name| quoted(&name, slip)).collect(), slip),
        _ => ended(names.collect(), slip),
    }
}

/// Commas between the cells, and the end of a line behind them.
fn ended(cells: Vec<Vec<u8>>, slip: Slip) -> Vec<u8> {
    let comma = if slip.is(Fault::SpacesBehindCommas) { &b", "[..] } else { b"," };
    let mut line = cells.join(comma);
    if slip.is(Fault::LongLinesCut) {
        line.truncate(510);
    }
    line.extend(if slip.is(Fault::LinesEndInLf) { &b"\n"[..] } else { b"\r\n" });
    line
}

/// What stands between the commas: the names in quotes, the numbers in digits.
fn cells(this: Record, block: usize, table: Table, slip: Slip) -> Vec<Vec<u8>> {
    let fields = Fields::of(this);
    let mut cells: Vec<Vec<u8>> = fields.names.iter().map(|name| quoted(name, slip)).collect();
    cells.extend(fields.numbers.iter().enumerate().map(|(column, told)| digits(column, *told, &fields, slip)));
    turned(&mut cells, slip);
    match slip.0 {
        Some(Fault::BlockNumberListed) => cells.insert(0, block.to_string().into_bytes()),
        Some(Fault::IssueListed) => cells.push(word_at(table.0, ISSUE).to_string().into_bytes()),
        _ => {}
    }
    cells
}

/// Always in quotes, a quote within doubled.
fn quoted(name: &[u8], slip: Slip) -> Vec<u8> {
    let needed = name.iter().any(|byte| b"\",".contains(byte));
    match slip.0 {
        Some(Fault::NamesUnquoted) => return name.to_vec(),
        Some(Fault::NamesQuotedIfNeeded) if !needed => return name.to_vec(),
        Some(Fault::EmptyServerUnquoted) if name.is_empty() => return vec![],
        _ => {}
    }
    let mut cell = vec![b'"'];
    for byte in name {
        match (slip.0, *byte) {
            (Some(Fault::QuoteNotDoubled), b'"') => cell.push(b'"'),
            (Some(Fault::QuoteBackslashed), b'"') => cell.extend(b"\\\""),
            (Some(Fault::UnlistableReplaced), byte) if !is_listable(byte) => cell.push(b'?'),
            (_, b'"') => cell.extend(b"\"\""),
            (_, byte) => cell.push(byte),
        }
    }
    cell.push(b'"');
    cell
}

/// A number of a column, in decimal digits.
fn digits(column: usize, told: u32, fields: &Fields, slip: Slip) -> Vec<u8> {
    let is_capability = |at: usize| (at + 1..=at + MOST_CAPABILITIES).contains(&column);
    let of = [number::MANDATORY, number::OPTIONAL].into_iter().find(|at| is_capability(*at));
    let is_unused = of.map_or(false, |at| column > at + fields.numbers[at] as usize);
    let text = match (slip.0, column) {
        (Some(Fault::UnusedCapabilitiesEmpty), _) if is_unused => String::new(),
        (Some(Fault::CapabilitiesListedInHex), _) if of.is_some() => format!("{told:x}"),
        (Some(Fault::CapabilitiesListedSigned), _) if of.is_some() => (told as i32).to_string(),
        (Some(Fault::RoamingListedAsBits), number::ROAMING) => format!("{told:08b}"),
        (Some(Fault::RoamingListedSigned), number::ROAMING) => (told as i8).to_string(),
        (Some(Fault::RoamingListedAsCount), number::ROAMING) => told.count_ones().to_string(),
        (Some(Fault::RoamingListedIn3Digits), number::ROAMING) => format!("{told:03}"),
        (Some(Fault::StartListedIn16Bits), number::START) => (told & 0xFFFF).to_string(),
        (Some(Fault::LengthListedIn8Bits), number::LENGTH) => (told & 0xFF).to_string(),
        (Some(Fault::PartEndListed), number::LENGTH) => (fields.numbers[number::START] + told).to_string(),
        (Some(Fault::SetListedIn8Bits), number::SET) => (told & 0xFF).to_string(),
        (Some(Fault::NumbersQuoted), _) => format!("\"{told}\""),
        _ => told.to_string(),
    };
    text.into_bytes()
}

/// The columns as a faulty program has them.
fn turned(cells: &mut Vec<Vec<u8>>, slip: Slip) {
    let at = |column: usize| NAMES.len() + column;
    match slip.0 {
        Some(Fault::PrivateListedFirst) => cells.swap(0, 1),
        Some(Fault::PendingAndBarredTurned) => cells.swap(at(number::PENDING), at(number::BARRED)),
        Some(Fault::BarredAndServicesTurned) => cells.swap(at(number::BARRED), at(number::SERVICES)),
        Some(Fault::StartAndLengthTurned) => cells.swap(at(number::START), at(number::LENGTH)),
        Some(Fault::OptionalListedFirst) => {
            cells[at(number::MANDATORY)..at(number::START)].rotate_left(number::OPTIONAL - number::MANDATORY)
        }
        Some(Fault::CapabilityCountsLeftOut) => {
            cells.remove(at(number::OPTIONAL));
            cells.remove(at(number::MANDATORY));
        }
        Some(Fault::SetLeftOut) => drop(cells.pop()),
        Some(Fault::BitsListedAsOne) => {
            let bits = (0..3).filter(|n| cells[at(number::PENDING) + n] == b"1").fold(0, |all, n| all | 1 << n);
            let one = [format!("{bits}").into_bytes()];
            cells.splice(at(number::PENDING)..=at(number::SERVICES), one);
        }
        _ => {}
    }
}

/// The first byte in a record's names that cannot be listed.
pub fn unlistable(this: Record, slip: Slip) -> Option<u8> {
    let names = match slip.0 {
        Some(Fault::PublicMayBeUnlistable) => [&[][..], this.private(), this.server_name()],
        Some(Fault::PrivateMayBeUnlistable) => [this.public(), &[], this.server_name()],
        Some(Fault::ServerMayBeUnlistable) => [this.public(), this.private(), &[]],
        _ => [this.public(), this.private(), this.server_name()],
    };
    names.into_iter().flatten().copied().find(|byte| !is_taken(*byte, slip))
}

/// Whether the export lists a byte.
pub fn is_taken(byte: u8, slip: Slip) -> bool {
    match slip.0 {
        Some(Fault::ControlsListed) => byte <= 126,
        Some(Fault::DeleteListed) => (32..=127).contains(&byte),
        Some(Fault::HighBytesListed) => is_listable(byte) || byte >= 128,
        Some(Fault::TildeUnlistable) => is_listable(byte) && byte != b'~',
        Some(Fault::SpaceUnlistable) => is_listable(byte) && byte != b' ',
        Some(Fault::QuoteUnlistable) => is_listable(byte) && byte != b'"',
        Some(Fault::CommaUnlistable) => is_listable(byte) && byte != b',',
        Some(Fault::UnlistableReplaced | Fault::UnlistableLeftOut) => true,
        _ => is_listable(byte),
    }
}
