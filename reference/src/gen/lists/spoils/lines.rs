//! Which lines there are, in which order, and how they end.

use super::shape::{of_line, of_whole, Spoil};
use crate::list::FIRST_LINE;
use crate::rng::Rng;

pub const SPOILS: &[Spoil] = &[
    of_whole("lines: one left out", |rng, s| {
        let at = s.some_line(rng)?;
        s.lines.remove(at);
        Some(())
    }),
    of_whole("lines: the last ones left out", |rng, s| {
        let left = rng.below(s.lines.len());
        s.lines.truncate(left);
        Some(())
    }),
    of_whole("lines: one left out, and one less wanted", |rng, s| {
        let at = s.some_line(rng)?;
        s.lines.remove(at);
        s.want(s.lines.len() as u32 - 1);
        Some(())
    }),
    of_whole("lines: one twice", |rng, s| {
        let at = s.some_line(rng)?;
        let again = s.lines[at].clone();
        s.lines.insert(at, again);
        if rng.coin() {
            s.want(s.lines.len() as u32 - 1);
        }
        Some(())
    }),
    of_whole("lines: two turned", |rng, s| {
        let (one, other) = (s.some_line(rng)?, s.some_line(rng)?);
        s.lines.swap(one, other);
        (one != other).then_some(())
    }),
    of_whole("lines: more at the end", |rng, s| {
        for _ in 0..rng.between(1, 3) {
            let line = match s.some_line(rng) {
                Some(at) => s.lines[at].clone(),
                None => FIRST_LINE.to_vec(),
            };
            s.lines.push(line);
        }
        Some(())
    }),
    of_whole("lines: a blank one", |rng, s| {
        let at = if rng.coin() { s.lines.len() } else { rng.below(s.lines.len() + 1) };
        s.lines.insert(at, b"\r\n".to_vec());
        Some(())
    }),
    of_whole("lines: the last one is not ended", |rng, s| {
        let last = s.lines.last_mut()?;
        last.truncate(last.len().saturating_sub(rng.between(1, 2)));
        Some(())
    }),
    of_whole("lines: cut anywhere", |rng, s| {
        let list = s.list();
        s.lines = vec![list[..rng.below(list.len())].to_vec()];
        Some(())
    }),
    of_whole("lines: cut in one", |rng, s| {
        let at = rng.below(s.lines.len());
        s.lines.truncate(at + 1);
        let left = rng.below(s.lines[at].len().max(1));
        s.lines[at].truncate(left);
        Some(())
    }),
    of_whole("lines: bytes behind the last", |rng, s| {
        let more: &[u8] = *rng.pick(&[&b"\0"[..], b"\0\0\0\0", b"\n", b"\r", b" ", b"\x1A", b"x"]);
        s.lines.push(more.to_vec());
        Some(())
    }),
    of_whole("lines: LF alone everywhere", |_, s| {
        s.lines.iter_mut().for_each(|line| line.retain(|byte| *byte != b'\r'));
        Some(())
    }),
    of_line("line end: LF alone", |_, line| put_end(line, b"\n")),
    of_line("line end: CR alone", |_, line| put_end(line, b"\r")),
    of_line("line end: none", |_, line| put_end(line, b"")),
    of_line("line end: another", |rng, line| {
        let end: &[u8] = *rng.pick(&[&b"\n\r"[..], b"\r\r\n", b"\r\n\n", b" \r\n", b"\0\r\n", b";\r\n"]);
        put_end(line, end)
    }),
    of_whole("first line: left out", |_, s| {
        s.lines.remove(0);
        Some(())
    }),
    of_whole("first line: in capitals", |rng, s| {
        let first = s.lines.first_mut()?;
        match rng.coin() {
            true => first.make_ascii_uppercase(),
            false => first[0] = b'P',
        }
        Some(())
    }),
    of_whole("first line: in quotes", |_, s| {
        let names = FIRST_LINE.strip_suffix(b"\r\n")?.split(|byte| *byte == b',');
        let quoted: Vec<Vec<u8>> = names.map(|name| [b"\"", name, b"\""].concat()).collect();
        s.lines[0] = [&quoted.join(&b","[..])[..], b"\r\n"].concat();
        Some(())
    }),
    of_whole("first line: behind a byte order mark", |_, s| {
        s.lines.insert(0, b"\xEF\xBB\xBF".to_vec());
        Some(())
    }),
    of_whole("first line: another", |rng, s| {
        s.lines[0] = another_first_line(rng);
        Some(())
    }),
    of_whole("first line: ends otherwise", |rng, s| {
        let end: &[u8] = *rng.pick(&[&b"\n"[..], b"\r", b"", b",\r\n", b" \r\n"]);
        put_end(s.lines.first_mut()?, end)
    }),
];

fn put_end(line: &mut Vec<u8>, end: &[u8]) -> Option<()> {
    *line = [line.strip_suffix(b"\r\n")?, end].concat();
    Some(())
}

/// Other columns, another order of them, other commas.
fn another_first_line(rng: &mut Rng) -> Vec<u8> {
    let names = FIRST_LINE[..FIRST_LINE.len() - 2].split(|byte| *byte == b',').map(<[u8]>::to_vec);
    let mut names: Vec<Vec<u8>> = names.collect();
    let at = rng.below(names.len());
    let comma: &[u8] = *rng.pick(&[&b","[..], b",", b",", b";", b", "]);
    match rng.below(4) {
        0 => drop(names.remove(at)),
        1 => names.swap(at, (at + 1) % 21),
        2 => names[at].push(b's'),
        _ => names.insert(at, b"block".to_vec()),
    }
    [&names.join(comma)[..], b"\r\n"].concat()
}
