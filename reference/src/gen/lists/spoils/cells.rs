//! What stands between the commas of a line.

use super::shape::{of_cells, of_line, Spoil};
use crate::list::NAMES;
use crate::rng::Rng;

pub const SPOILS: &[Spoil] = &[
    of_cells("name: without quotes", |rng, cells| {
        let cell = some_name(rng, cells)?;
        *cell = cell[1..cell.len() - 1].to_vec();
        Some(())
    }),
    of_cells("name: a quote that is not doubled", |rng, cells| put_in(rng, cells, b"\"")),
    of_cells("name: a doubled quote more", |rng, cells| put_in(rng, cells, b"\"\"")),
    of_cells("name: a control", |rng, cells| {
        let byte = *rng.pick(&[0, 1, 9, 27, 31, 31]);
        replace_in(rng, cells, byte)
    }),
    of_cells("name: CR or LF", |rng, cells| {
        let byte = *rng.pick(b"\r\n");
        replace_in(rng, cells, byte)
    }),
    of_cells("name: byte 127", |rng, cells| replace_in(rng, cells, 127)),
    of_cells("name: a byte over 127", |rng, cells| {
        let byte = *rng.pick(&[128, 160, 200, 255]);
        replace_in(rng, cells, byte)
    }),
    of_cells("name: about as long as its field", |rng, cells| {
        let at = rng.below(NAMES.len());
        let (most, quote) = (NAMES[at], rng.once_in(4));
        let length = *rng.pick(&[most - 1, most, most + 1, most + 1, most + 1, 255, 256, 300]);
        let name = if quote { b"\"\"".repeat(length) } else { vec![b'x'; length] };
        cells[at] = [b"\"", &name[..], b"\""].concat();
        Some(())
    }),
    of_cells("name: empty", |rng, cells| {
        let cell = some_name(rng, cells)?;
        *cell = b"\"\"".to_vec();
        Some(())
    }),
    of_cells("name: no quote at one end", |rng, cells| {
        let cell = some_name(rng, cells)?;
        match rng.coin() {
            true => drop(cell.remove(0)),
            false => drop(cell.pop()),
        }
        Some(())
    }),
    of_cells("name: a number", |rng, cells| {
        *some_name(rng, cells)? = b"7".to_vec();
        Some(())
    }),
    of_cells("number: leading zeros", |rng, cells| {
        let zeros = vec![b'0'; rng.between(1, 3)];
        let cell = some_number(rng, cells);
        cell.splice(0..0, zeros);
        Some(())
    }),
    of_cells("number: a sign", |rng, cells| {
        let sign = *rng.pick(b"++-");
        some_number(rng, cells).insert(0, sign);
        Some(())
    }),
    of_cells("number: empty", |rng, cells| {
        some_number(rng, cells).clear();
        Some(())
    }),
    of_cells("number: in quotes", |rng, cells| {
        let cell = some_number(rng, cells);
        *cell = [b"\"", &cell[..], b"\""].concat();
        Some(())
    }),
    of_cells("number: a fraction", |rng, cells| {
        some_number(rng, cells).extend(b".0");
        Some(())
    }),
    of_cells("number: a letter", |rng, cells| {
        let letter = *rng.pick(b"ax_'e");
        let cell = some_number(rng, cells);
        let at = rng.below(cell.len() + 1);
        cell.insert(at, letter);
        Some(())
    }),
    of_cells("number: the same in fewer bits", |rng, cells| {
        let by = *rng.pick(&[1 << 8, 1 << 16, 1 << 32, 1 << 32, 1 << 32, 3 << 32]);
        let cell = some_number(rng, cells);
        *cell = (told(cell)? + by).to_string().into_bytes();
        Some(())
    }),
    of_cells("number: another", |rng, cells| {
        let number: u64 =
            *rng.pick(&[0, 1, 2, 3, 4, 5, 9, 10, 255, 256, 4096, 4097, 65_535, 65_536, u32::MAX.into(), 1 << 32]);
        *some_number(rng, cells) = number.to_string().into_bytes();
        Some(())
    }),
    of_cells("number: a great one", |rng, cells| {
        *some_number(rng, cells) = vec![b'9'; rng.between(11, 25)];
        Some(())
    }),
    of_cells("cells: a space beside a comma", |rng, cells| {
        let at = rng.below(cells.len() - 1);
        match rng.coin() {
            true => cells[at].push(b' '),
            false => cells[at + 1].insert(0, b' '),
        }
        Some(())
    }),
    of_cells("cells: a semicolon for a comma", |rng, cells| {
        let at = rng.below(cells.len() - 1);
        let second = cells.remove(at + 1);
        cells[at] = [&cells[at][..], &second].join(&b';');
        Some(())
    }),
    of_cells("cells: one left out", |rng, cells| {
        cells.remove(rng.below(cells.len()));
        Some(())
    }),
    of_cells("cells: one more at the end", |rng, cells| {
        let more: &[u8] = *rng.pick(&[&b""[..], b"0", b"1", b"\"\""]);
        cells.push(more.to_vec());
        Some(())
    }),
    of_cells("cells: two turned", |rng, cells| {
        let (one, other) = (rng.below(cells.len()), rng.below(cells.len()));
        cells.swap(one, other);
        (cells[one] != cells[other]).then_some(())
    }),
    of_line("line: one byte", |rng, line| {
        let at = rng.below(line.len());
        line[at] = if rng.coin() { *rng.pick(b"\",0 \r\n") } else { rng.byte() };
        Some(())
    }),
    of_line("line: one bit", |rng, line| {
        let at = rng.below(line.len());
        line[at] ^= 1 << rng.below(8);
        Some(())
    }),
    of_line("line: a byte left out", |rng, line| {
        line.remove(rng.below(line.len()));
        Some(())
    }),
    of_line("line: a byte more", |rng, line| {
        let at = rng.below(line.len() + 1);
        line.insert(at, *rng.pick(b"\",0 1x\r\n"));
        Some(())
    }),
];

/// One that is in quotes still.
fn some_name<'a>(rng: &mut Rng, cells: &'a mut [Vec<u8>]) -> Option<&'a mut Vec<u8>> {
    let cell = &mut cells[rng.below(NAMES.len())];
    (cell.len() > 1 && cell.starts_with(b"\"") && cell.ends_with(b"\"")).then_some(cell)
}

fn some_number<'a>(rng: &mut Rng, cells: &'a mut [Vec<u8>]) -> &'a mut Vec<u8> {
    let at = rng.between(NAMES.len(), cells.len() - 1);
    &mut cells[at]
}

fn told(cell: &[u8]) -> Option<u64> {
    std::str::from_utf8(cell).ok()?.parse().ok()
}

/// Puts bytes into a name that has room for a byte more and is not empty, between its outer quotes.
fn put_in(rng: &mut Rng, cells: &mut [Vec<u8>], bytes: &[u8]) -> Option<()> {
    let which = rng.below(NAMES.len());
    let cell = Some(&mut cells[which]).filter(|cell| (3..=NAMES[which]).contains(&cell.len()))?;
    let at = rng.between(1, cell.len() - 1);
    cell.splice(at..at, bytes.iter().copied());
    Some(())
}

/// A byte of a name becomes another, but for a quote.
fn replace_in(rng: &mut Rng, cells: &mut [Vec<u8>], byte: u8) -> Option<()> {
    let cell = some_name(rng, cells)?;
    let at = rng.below(cell.len());
    if cell[at] == b'"' {
        return None;
    }
    cell[at] = byte;
    Some(())
}
