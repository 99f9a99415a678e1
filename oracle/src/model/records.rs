//! A second reader and writer of byte records (docs/MANUAL.md, Byte records), written from the manual alone: the file is cut into its parts from the end, and every
//! number is taken off the front of a part.
use crate::line::Line;
use crate::text;

/// The numbers of the manual's table that a move or a read can be refused by.
pub const RANGE: u8 = 18;
pub const SMALL: u8 = 19;
pub const SELF: u8 = 22;
pub const FILE: u8 = 23;

/// Bytes that are taken from the front.
struct Rest<'a>(&'a [u8]);

impl Rest<'_> {
    fn number(&mut self, bytes: usize) -> Option<u64> {
        let mut number = 0;
        for at in 0..bytes {
            number += u64::from(*self.0.get(at)?) << (8 * at);
        }
        self.0 = &self.0[bytes..];
        Some(number)
    }

    fn byte(&mut self) -> Option<u32> {
        self.number(1).map(|number| number as u32)
    }

    fn word(&mut self) -> Option<u32> {
        self.number(4).map(|number| number as u32)
    }

    fn serial(&mut self) -> Option<u32> {
        self.word().filter(|serial| *serial > 0)
    }

    fn record(&mut self) -> Option<Line> {
        let letter = self.byte()? as u8 as char;
        let first = self.byte()?;
        let line = match letter {
            'D' => Line::Defect(first, self.word()?),
            'B' => {
                let count = self.number(2)?;
                let (mut members, mut pairs) = (vec![], vec![]);
                for _ in 0..count {
                    members.push(self.serial()?);
                    pairs.push((self.serial()?, self.serial()?));
                }
                Line::Blossom(first, members, pairs)
            }
            'E' => Line::Expand(first, self.serial()?),
            'S' => {
                let serial = self.serial()?;
                let state = [(0, 0), (1, 1), (255, -1)].into_iter().find(|(byte, _)| Some(*byte) == self.0.first().copied())?.1;
                self.byte()?;
                Line::SetState(first, serial, state)
            }
            'G' => Line::Grow(first, self.number(8)? as i64),
            'F' => Line::Fuse(first, self.byte()?, self.byte()?),
            'C' => Line::Clear(first),
            'K' => Line::Check(first),
            _ => return None,
        };
        // its line is of the grammar, by the text program's own reader
        let said = spelled(&line);
        (said.len() < text::LONGEST && text::read(said.as_bytes()).is_some()).then_some(line)
    }
}

/// A line's text without its newline: the pairs are left out.
pub fn spelled(line: &Line) -> String {
    match line {
        Line::Defect(u, v) => format!("D {u} {v}"),
        Line::Blossom(u, members, _) => members.iter().fold(format!("B {u}"), |text, serial| format!("{text} {serial}")),
        Line::Expand(u, s) => format!("E {u} {s}"),
        Line::SetState(u, s, state) => format!("S {u} {s} {state}"),
        Line::Grow(u, length) => format!("G {u} {length}"),
        Line::Fuse(p, l, r) => format!("F {p} {l} {r}"),
        Line::Clear(u) => format!("C {u}"),
        Line::Check(u) => format!("K {u}"),
        other => unreachable!("{other:?} has no record"),
    }
}

/// What a file says; none if it is not whole.
pub fn read(file: &[u8]) -> Option<Vec<Line>> {
    let before = file.len().checked_sub(16)?;
    let (body, mut trailer) = (&file[..before], Rest(&file[before..]));
    let (start, count, said) = (trailer.word()? as usize, trailer.word()? as usize, trailer.word()? as usize);
    if trailer.0 != b"DLG2" || said != before || start > before || (before - start) != count.checked_mul(4)? || file.len() > u32::MAX as usize {
        return None;
    }
    let (mut records, mut list, mut lines) = (Rest(&body[..start]), Rest(&body[start..]), vec![]);
    while !list.0.is_empty() {
        if list.word()? as usize != start - records.0.len() {
            return None;
        }
        lines.push(records.record()?);
    }
    records.0.is_empty().then_some(lines)
}

/// Record `at` of any bytes, by the trailer and the list alone: the record between its start and the next one's, or the list's.
pub fn kth(file: &[u8], at: usize) -> Result<Line, u8> {
    let number = |from: usize| Rest(file.get(from..)?).word().map(|number| number as usize);
    let before = file.len().checked_sub(16).ok_or(FILE)?;
    let (start, count, said) = (number(before).ok_or(FILE)?, number(before + 4).ok_or(FILE)?, number(before + 8).ok_or(FILE)?);
    if !file.ends_with(b"DLG2") || said != before || start + 4 * count != before || file.len() > u32::MAX as usize {
        return Err(FILE);
    }
    if at >= count {
        return Err(RANGE);
    }
    let from = number(start + 4 * at).ok_or(FILE)?;
    let to = if at + 1 < count { number(start + 4 * at + 4).ok_or(FILE)? } else { start };
    if (at == 0 && from != 0) || to > start {
        return Err(FILE);
    }
    let mut record = Rest(file.get(from..to).ok_or(FILE)?);
    record.record().filter(|_| record.0.is_empty()).ok_or(FILE)
}

/// A line's words: its letter, then its record's fields, signed ones in two's complement.
pub fn words(line: &Line) -> Vec<u64> {
    let letter = u64::from(spelled(line).as_bytes()[0]);
    let fields: Vec<i64> = match line {
        Line::Defect(u, v) | Line::Expand(u, v) => vec![i64::from(*u), i64::from(*v)],
        Line::Blossom(u, members, pairs) => {
            let each = members.iter().zip(pairs).flat_map(|(serial, (first, second))| [i64::from(*serial), i64::from(*first), i64::from(*second)]);
            [i64::from(*u), members.len() as i64].into_iter().chain(each).collect()
        }
        Line::SetState(u, s, state) => vec![i64::from(*u), i64::from(*s), *state],
        Line::Grow(u, length) => vec![i64::from(*u), *length],
        Line::Fuse(p, l, r) => vec![i64::from(*p), i64::from(*l), i64::from(*r)],
        Line::Clear(u) | Line::Check(u) => vec![i64::from(*u)],
        other => unreachable!("{other:?} has no record"),
    };
    std::iter::once(letter).chain(fields.into_iter().map(|field| field as u64)).collect()
}

/// The file of lines, pairs as they say; a blossom without pairs touches by its members.
pub fn write(lines: &[Line]) -> Vec<u8> {
    let (mut records, mut list) = (vec![], vec![]);
    let word = |out: &mut Vec<u8>, number: u32| out.extend(number.to_le_bytes());
    for line in lines {
        word(&mut list, records.len() as u32);
        let letter = spelled(line).as_bytes()[0];
        let out = &mut records;
        out.push(letter);
        match line {
            Line::Defect(u, v) | Line::Expand(u, v) => {
                out.push(*u as u8);
                word(out, *v);
            }
            Line::Blossom(u, members, pairs) => {
                out.push(*u as u8);
                out.extend((members.len() as u16).to_le_bytes());
                for (at, serial) in members.iter().enumerate() {
                    let (first, second) = pairs.get(at).copied().unwrap_or((*serial, *serial));
                    [*serial, first, second].into_iter().for_each(|number| word(out, number));
                }
            }
            Line::SetState(u, s, state) => {
                out.push(*u as u8);
                word(out, *s);
                out.push(*state as i8 as u8);
            }
            Line::Grow(u, length) => {
                out.push(*u as u8);
                out.extend(length.to_le_bytes());
            }
            Line::Fuse(p, l, r) => out.extend([*p as u8, *l as u8, *r as u8]),
            Line::Clear(u) | Line::Check(u) => out.push(*u as u8),
            other => unreachable!("{other:?} has no record"),
        }
    }
    let start = records.len() as u32;
    let mut file = records;
    file.extend(&list);
    let before = file.len() as u32;
    [start, lines.len() as u32, before].into_iter().for_each(|number| word(&mut file, number));
    file.extend(b"DLG2");
    file
}

/// What a text file says; none if a line is not of the grammar or has no newline.
pub fn read_text(input: &[u8]) -> Option<Vec<Line>> {
    text::lines(input).map(|(line, can_be)| text::read(line).filter(|_| can_be)).collect()
}

fn answered(bytes: Vec<u8>, room: usize) -> Result<Vec<u8>, u8> {
    Some(bytes).filter(|bytes| bytes.len() <= room).ok_or(SMALL)
}

/// A text file moved into so much room: its bytes, or the number it is refused by.
pub fn to_bytes(input: &[u8], room: usize) -> Result<Vec<u8>, u8> {
    answered(write(&read_text(input).ok_or(FILE)?), room)
}

/// A file of byte records moved back.
pub fn to_text(file: &[u8], room: usize) -> Result<Vec<u8>, u8> {
    let lines = read(file).ok_or(FILE)?;
    let is_own = |line: &Line| match line {
        Line::Blossom(_, members, pairs) => members.iter().zip(pairs).all(|(serial, pair)| *pair == (*serial, *serial)),
        _ => true,
    };
    if !lines.iter().all(is_own) {
        return Err(SELF);
    }
    answered(lines.iter().flat_map(|line| (spelled(line) + "\n").into_bytes()).collect(), room)
}
