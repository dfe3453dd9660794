//! Reading a list: one form of every line is taken, the one that an export writes.

use super::columns::{is_listable, Fields, FIRST_LINE, NAMES, NUMBERS};
use crate::block::word_at;
use crate::slip::{Fault, Slip};
use crate::table::header;

/// Why no export could hold a line there.
#[derive(Clone, Copy, PartialEq, Eq, PartialOrd, Ord, Debug)]
pub enum Reason {
    /// Its bytes are no line's.
    Form,
    /// The record breaks a rule of the table.
    Rule,
    /// Too few names are left above its own for the lines that must follow.
    Room,
    Missing,
    Surplus,
}

/// The line that is blamed, from 1, and why.
#[derive(Clone, Copy, PartialEq, Eq, PartialOrd, Ord, Debug)]
pub struct Blame {
    pub line: u32,
    pub reason: Reason,
}

/// What the lines say before the first that is wrong by itself or not there.
pub struct Lines {
    pub records: Vec<Fields>,
    pub end: Result<(), Blame>,
    /// Where each line begins, and the end.
    pub places: Vec<usize>,
}

/// Reads as many lines as the header block wants.
pub fn lines(list: &[u8], head: &[u8], slip: Slip) -> Lines {
    let mut reader = Reader { list, rest: list, slip };
    let mut lines = Lines { records: Vec::new(), end: Ok(()), places: vec![0] };
    let count = wanted(list, head, slip);
    lines.end = (0..=count).try_for_each(|number| {
        let line = number + 1;
        reader.skip_blank_lines();
        if reader.rest.is_empty() && !(number == 0 && slip.is(Fault::FirstLineNotNeeded)) {
            return Err(Blame { line, reason: Reason::Missing });
        }
        let wrong = Blame { line, reason: Reason::Form };
        match number {
            0 => reader.first_line().ok_or(wrong)?,
            _ => lines.records.push(reader.record().ok_or(wrong)?),
        }
        lines.places.push(reader.place());
        Ok(())
    });
    if lines.end.is_ok() && reader.has_surplus() {
        lines.end = Err(Blame { line: count.saturating_add(2), reason: Reason::Surplus });
    }
    lines
}

/// How many records there are to be: the header block says it.
fn wanted(list: &[u8], head: &[u8], slip: Slip) -> u32 {
    let count = word_at(head, header::COUNT);
    let told = list.split(|byte| *byte == b'\n').filter(|line| !line.is_empty()).count().saturating_sub(1) as u32;
    match slip.0 {
        Some(Fault::CountedByLines) => told,
        Some(Fault::MissingLinesTaken) => told.min(count),
        _ => count,
    }
}

struct Reader<'a> {
    list: &'a [u8],
    rest: &'a [u8],
    slip: Slip,
}

impl<'a> Reader<'a> {
    fn place(&self) -> usize {
        self.list.len() - self.rest.len()
    }

    /// Takes these bytes, if they come next.
    fn take(&mut self, bytes: &[u8]) -> Option<()> {
        self.rest = self.rest.strip_prefix(bytes)?;
        Some(())
    }

    fn next(&self) -> Option<u8> {
        self.rest.first().copied()
    }

    fn skip_blank_lines(&mut self) {
        while self.slip.is(Fault::BlankLinesTaken) && self.take(b"\r\n").is_some() {}
    }

    fn first_line(&mut self) -> Option<()> {
        let given = self.rest.iter().position(|byte| *byte == b'\n').map_or(self.rest, |end| &self.rest[..=end]);
        match self.slip.0 {
            Some(Fault::ByteOrderMarkTaken) => drop(self.take(b"\xEF\xBB\xBF")),
            Some(Fault::FirstLineNotNeeded) if self.next() == Some(b'"') || self.rest.is_empty() => return Some(()),
            Some(Fault::AnyFirstLineTaken) => return self.take(given),
            Some(Fault::FirstLineWithoutCase) if given.eq_ignore_ascii_case(FIRST_LINE) => return self.take(given),
            Some(Fault::QuotedFirstLineTaken) => {
                let bare: Vec<u8> = given.iter().copied().filter(|byte| *byte != b'"').collect();
                return if bare == FIRST_LINE { self.take(given) } else { None };
            }
            _ => {}
        }
        self.take(&FIRST_LINE[..FIRST_LINE.len() - 2])?;
        self.line_end()
    }

    /// A line of 21 columns.
    fn record(&mut self) -> Option<Fields> {
        let mut fields = Fields { names: Default::default(), numbers: [0; NUMBERS.len()] };
        for (name, most) in fields.names.iter_mut().zip(NAMES) {
            *name = self.name(most)?;
            self.comma()?;
        }
        for (column, most) in NUMBERS.into_iter().enumerate() {
            if column > 0 {
                self.comma()?;
            }
            fields.numbers[column] = self.number(most)?;
        }
        if self.slip.is(Fault::LastCommaTaken) {
            self.take(b",");
        }
        if self.slip.is(Fault::SurplusColumnTaken) && self.take(b",").is_some() {
            self.number(u32::MAX)?;
        }
        self.line_end()?;
        Some(fields)
    }

    fn comma(&mut self) -> Option<()> {
        if self.slip.is(Fault::SpacesBesideCommasTaken) {
            self.rest = &self.rest[self.rest.iter().take_while(|byte| **byte == b' ').count()..];
        }
        self.take(if self.slip.is(Fault::SemicolonsTaken) && self.next() == Some(b';') { b";" } else { b"," })?;
        if self.slip.is(Fault::SpacesBesideCommasTaken) {
            self.rest = &self.rest[self.rest.iter().take_while(|byte| **byte == b' ').count()..];
        }
        Some(())
    }

    /// CR LF, behind the last line too.
    fn line_end(&mut self) -> Option<()> {
        match (self.slip.0, self.rest) {
            (Some(Fault::LoneLfTaken), [b'\n', ..]) => self.take(b"\n"),
            (Some(Fault::LoneCrTaken), [b'\r', rest @ ..]) if rest.first() != Some(&b'\n') => self.take(b"\r"),
            (Some(Fault::OpenLastLineTaken), []) => Some(()),
            (Some(Fault::CutLastLineTaken), [b'\r']) => self.take(b"\r"),
            _ => self.take(b"\r\n"),
        }
    }

    /// In quotes, a quote within doubled, of bytes that can be listed.
    fn name(&mut self, most: usize) -> Option<Vec<u8>> {
        if self.next() != Some(b'"') && self.slip.is(Fault::UnquotedNamesTaken) {
            let end = self.rest.iter().position(|byte| b",\r\n".contains(byte))?;
            let (name, rest) = self.rest.split_at(end);
            self.rest = rest;
            return Some(name.to_vec()).filter(|name| name.len() <= most);
        }
        self.take(b"\"")?;
        let mut name = Vec::new();
        loop {
            let (byte, rest) = self.rest.split_first()?;
            self.rest = rest;
            match (*byte, rest.first()) {
                (b'"', Some(b'"')) if self.slip.is(Fault::DoubledQuoteRefused) => return None,
                (b'"', Some(b'"')) => {
                    self.rest = &rest[1..];
                    name.push(b'"');
                }
                (b'"', Some(next)) if *next != b',' && self.slip.is(Fault::BareQuoteTaken) => name.push(b'"'),
                (b'"', _) => break,
                (b',', _) if self.slip.is(Fault::CommaInNameRefused) => return None,
                (byte, _) if self.is_taken(byte) => name.push(byte),
                _ => return None,
            }
        }
        if self.slip.is(Fault::LongerNamesCut) {
            name.truncate(most);
        }
        Some(name).filter(|name| name.len() <= most)
    }

    fn is_taken(&self, byte: u8) -> bool {
        match self.slip.0 {
            Some(Fault::ControlsTaken) => byte <= 126 && !b"\r\n".contains(&byte),
            Some(Fault::LineEndInNameTaken) => is_listable(byte) || b"\r\n".contains(&byte),
            Some(Fault::DeleteTaken) => (32..=127).contains(&byte),
            Some(Fault::HighBytesTaken) => is_listable(byte) || byte >= 128,
            Some(Fault::TildeInNameRefused) => is_listable(byte) && byte != b'~',
            Some(Fault::SpaceInNameRefused) => is_listable(byte) && byte != b' ',
            _ => is_listable(byte),
        }
    }

    /// Decimal digits without a leading zero, up to what the column takes.
    fn number(&mut self, most: u32) -> Option<u32> {
        let in_quotes = self.slip.is(Fault::QuotedNumbersTaken) && self.take(b"\"").is_some();
        match self.slip.0 {
            Some(Fault::PlusSignTaken) => drop(self.take(b"+")),
            Some(Fault::MinusZeroTaken) if self.rest.starts_with(b"-0") => drop(self.take(b"-")),
            _ => {}
        }
        let length = self.rest.iter().take_while(|byte| byte.is_ascii_digit()).count();
        let (digits, rest) = self.rest.split_at(length);
        self.rest = rest;
        let is_empty = digits.is_empty() && !self.slip.is(Fault::EmptyNumberIsZero);
        let is_padded = digits.len() > 1 && digits[0] == b'0' && !self.slip.is(Fault::LeadingZerosTaken);
        if in_quotes {
            self.take(b"\"")?;
        }
        if self.slip.is(Fault::FractionsTaken) {
            self.take(b".0");
        }
        if is_empty || is_padded {
            return None;
        }
        let told =
            digits.iter().try_fold(0u64, |sum, digit| sum.checked_mul(10)?.checked_add(u64::from(digit - b'0')))?;
        let within = match self.slip.0 {
            Some(Fault::NumbersWrapAt32Bits) => told & 0xFFFF_FFFF,
            Some(Fault::NumbersWrapInField) => match most {
                0..=0xFF => told & 0xFF,
                0x100..=0xFFFF => told & 0xFFFF,
                _ => told & 0xFFFF_FFFF,
            },
            Some(Fault::NumbersCutToField) => told.min(most.into()),
            Some(Fault::BitsOver1Taken) if most == 1 => told.min(1),
            _ => told,
        };
        u32::try_from(within).ok().filter(|within| *within <= most)
    }

    /// Whether something stands behind the last line.
    fn has_surplus(&self) -> bool {
        let is_blank = self.rest.iter().all(|byte| b"\r\n".contains(byte));
        match self.slip.0 {
            Some(Fault::SurplusLinesTaken) => false,
            Some(Fault::SurplusBlankLineTaken) => !is_blank,
            Some(Fault::ZerosBehindListTaken) => self.rest.iter().any(|byte| *byte != 0),
            _ => !self.rest.is_empty(),
        }
    }
}
