//! Files of byte records beside the model's reader: made by chance, spoiled in many ways, and moved both ways into slices of every room that matters. Verdict,
//! count, answers and every byte of the lent slice are compared.
use dual_ledger::records::{get, get_into, to_bytes, to_bytes_into, to_text, to_text_into, Records, Writer};
use dual_ledger::Refusal;
use oracle::generator::rng::Rng;
use oracle::line::Line;
use oracle::model::records as model;

/// What was compared: files by how they were spoiled, and what became of them.
#[derive(Default)]
pub struct Seen {
    pub files: usize,
    kinds: [usize; KINDS.len()],
    whole: [usize; KINDS.len()],
    foreign: usize,
    texts: usize,
    moved: usize,
    long: usize,
    asked: usize,
    answered: usize,
    apart: usize,
}

impl std::fmt::Display for Seen {
    fn fmt(&self, f: &mut std::fmt::Formatter) -> std::fmt::Result {
        writeln!(
            f,
            "{} files of byte records, {} spoiled: {} whole, of which {} have another's pair",
            self.files,
            self.spoiled(),
            self.all_whole(),
            self.foreign
        )?;
        for (at, kind) in KINDS.iter().enumerate() {
            writeln!(f, "  {kind:<36} {:>9}, {:>9} whole all the same", self.kinds[at], self.whole[at])?;
        }
        writeln!(f, "{} records asked by number: {} answered, {} of them of files that are not whole", self.asked, self.answered, self.apart)?;
        writeln!(f, "{} texts, some with a bad line, {} with one too long: {} moved there and back", self.texts, self.long, self.moved)
    }
}

impl Seen {
    fn spoiled(&self) -> usize {
        self.kinds[1..].iter().sum()
    }

    fn all_whole(&self) -> usize {
        self.whole.iter().sum()
    }
}

const KINDS: [&str; 12] = [
    "as it was",
    "a bit",
    "a byte",
    "cut at the end",
    "cut at the front",
    "bytes put in",
    "bytes taken out",
    "starts exchanged",
    "another file's trailer",
    "a trailer's number",
    "a gap, with the numbers put right",
    "a field, with the numbers put right",
];

const EDGES: [u32; 8] = [0, 1, 2, 9, 10, 255, u32::MAX - 1, u32::MAX];

fn number(rng: &mut Rng) -> u32 {
    match rng.below(3) {
        0 => rng.next() as u32,
        1 => EDGES[rng.below(EDGES.len())],
        _ => 1 + rng.below(60) as u32,
    }
}

fn serial(rng: &mut Rng) -> u32 {
    number(rng).max(1)
}

/// Members whose line is about as long as a line may be.
fn long(rng: &mut Rng, unit: u32) -> Vec<u32> {
    let mut members = vec![];
    let mut left = 1017 + rng.below(12) - unit.to_string().len() - 2;
    while left > 1 {
        let digits = (left - 1).min(1 + rng.below(10)) as u32;
        members.push(10u32.pow(digits - 1) + rng.below(9) as u32);
        left -= digits as usize + 1;
    }
    members
}

fn line(rng: &mut Rng, own: bool) -> Line {
    let units = if rng.chance(80) { 8 } else { 256 };
    let unit = rng.below(units) as u32;
    match rng.below(9) {
        0 => Line::Defect(unit, number(rng)),
        1 | 2 => {
            let members = match rng.below(16) {
                0 => long(rng, unit),
                1 => (0..64 + rng.below(60)).map(|_| 1 + rng.below(99) as u32).collect(),
                _ => (0..1 + rng.below(9)).map(|_| serial(rng)).collect::<Vec<u32>>(),
            };
            let pair = |serial: &u32| if own { (*serial, *serial) } else { (number(rng).max(1), number(rng).max(1)) };
            let pairs = members.iter().map(pair).collect();
            Line::Blossom(unit, members, pairs)
        }
        3 => Line::Expand(unit, serial(rng)),
        4 => Line::SetState(unit, serial(rng), rng.between(-1, 1)),
        5 => Line::Grow(unit, if rng.chance(50) { rng.next() as i64 } else { [0, 1, -1, i64::MAX, i64::MIN][rng.below(5)] }),
        6 => Line::Fuse(unit, rng.below(256) as u32, rng.below(8) as u32),
        7 => Line::Clear(unit),
        _ => Line::Check(unit),
    }
}

fn fits(line: &Line) -> bool {
    model::spelled(line).len() < 1024
}

/// Lines of a record. A blossom's may be too long for one, which both forms must find.
fn lines(rng: &mut Rng, own: bool) -> Vec<Line> {
    let count = if rng.chance(10) { 0 } else { 1 + rng.below(12) };
    (0..count).map(|_| line(rng, own)).collect()
}

fn word(file: &[u8], at: usize) -> usize {
    u32::from_le_bytes(file[at..at + 4].try_into().expect("4 bytes")) as usize
}

fn store(file: &mut [u8], at: usize, number: usize) {
    file[at..at + 4].copy_from_slice(&(number as u32).to_le_bytes());
}

/// A file of the model's spoiled in some way; the way is one of `KINDS`.
fn spoil(rng: &mut Rng, kind: usize, file: &mut Vec<u8>, other: &[u8]) {
    let end = file.len();
    let (list, count) = (word(file, end - 16), word(file, end - 12));
    match kind {
        0 => {}
        1 => {
            for _ in 0..1 + rng.below(2) {
                let at = rng.below(end);
                file[at] ^= 1 << rng.below(8);
            }
        }
        2 => {
            let at = rng.below(end);
            file[at] = [0, 1, 2, 255, b'B', b'C', rng.next() as u8][rng.below(7)];
        }
        3 => file.truncate(rng.below(end)),
        4 => drop(file.drain(..1 + rng.below(end))),
        5 => {
            let at = rng.below(end + 1);
            (0..1 + rng.below(6)).for_each(|_| file.insert(at, rng.next() as u8));
        }
        6 => {
            let at = rng.below(end);
            drop(file.drain(at..(at + 1 + rng.below(6)).min(end)));
        }
        7 if count > 1 => {
            let (a, b) = (rng.below(count), rng.below(count));
            let (x, y) = (word(file, list + 4 * a), word(file, list + 4 * b));
            store(file, list + 4 * a, y);
            store(file, list + 4 * b, x);
        }
        7 => {}
        8 => {
            file.truncate(end - 16);
            file.extend(&other[other.len() - 16..]);
        }
        9 => {
            let at = end - 16 + 4 * rng.below(4);
            let old = word(file, at);
            store(
                file,
                at,
                [old.wrapping_add(1), old.wrapping_sub(1), old.wrapping_add(4), old.wrapping_sub(4), old.swap_bytes() >> 32, 0][rng.below(6)],
            );
        }
        // the list and the trailer go with it: only the records can say that something is wrong
        10 => {
            let (at, extra) = (rng.below(count + 1), 1 + rng.below(6));
            let place = if at < count { word(file, list + 4 * at) } else { list };
            let bytes: Vec<u8> = (0..extra).map(|_| [b'C', b'K', 0, 1, 7, rng.next() as u8][rng.below(6)]).collect();
            drop(file.splice(place..place, bytes));
            let list = list + extra;
            (at..count).for_each(|index| {
                let start = word(file, list + 4 * index);
                store(file, list + 4 * index, start + extra);
            });
            let end = file.len();
            store(file, end - 16, list);
            store(file, end - 8, end - 16);
        }
        _ if list > 0 => {
            let at = rng.below(list);
            file[at] = [0, 1, 2, 10, 254, 255, b'B', b'S', rng.next() as u8][rng.below(9)];
        }
        _ => {}
    }
}

fn refusal(said: Result<usize, Refusal>) -> Result<usize, u8> {
    said.map_err(Refusal::number)
}

/// A move into slices of several lengths: number, bytes written, and what stands past them.
fn moves(
    what: &str,
    wanted: impl Fn(usize) -> Result<Vec<u8>, u8>,
    call: impl Fn(&mut [u8]) -> Result<usize, Refusal>,
) -> Result<Option<Vec<u8>>, String> {
    let whole = wanted(usize::MAX);
    let size = whole.as_ref().map_or(40, Vec::len);
    for room in [size.saturating_sub(1), size, size + 3, 0] {
        let mut out: Vec<u8> = (0..room).map(|at| (at * 37 + 11) as u8).collect();
        let before = out.clone();
        let said = refusal(call(&mut out));
        let wanted = wanted(room);
        if said != wanted.as_ref().map(Vec::len).map_err(|number| *number) {
            return Err(format!("{what} into {room} bytes: {said:?}, and the model {:?}", wanted.map(|bytes| bytes.len())));
        }
        let (front, back) = out.split_at(said.unwrap_or(0));
        if wanted.is_ok_and(|bytes| bytes != front) || back != &before[front.len()..] {
            return Err(format!("{what} into {room} bytes: other bytes than the model's"));
        }
    }
    Ok(whole.ok())
}

/// Records of a file by their numbers, some past the last, into slices of several lengths: number, words written, and what stands past them.
fn compare_numbers(file: &[u8], whole: Option<usize>, seen: &mut Seen) -> Result<(), String> {
    let last = whole.unwrap_or(12) + 1;
    for at in (0..=last).chain([usize::MAX]) {
        let wanted = model::kth(file, at);
        let said = get(file, at).map(|operation| format!("{operation:?}")).map_err(Refusal::number);
        if said != wanted.as_ref().map(shown).map_err(|number| *number) {
            return Err(format!("record {at}: {said:?}, and the model {wanted:?}"));
        }
        let words = wanted.as_ref().map(model::words);
        let size = words.as_ref().map_or(6, Vec::len);
        for room in [size - 1, size, size + 2, 0] {
            let before: Vec<u64> = (0..room as u64).map(|at| at * 37 + 11).collect();
            let mut out = before.clone();
            let said = refusal(get_into(file, at, &mut out));
            let wanted = words.as_ref().map_err(|number| **number).and_then(|words| if words.len() <= room { Ok(words) } else { Err(model::SMALL) });
            let front = wanted.map_or(0, |words| words.len());
            if said != wanted.map(|words| words.len()) || wanted.is_ok_and(|words| words[..] != out[..front]) || out[front..] != before[front..] {
                return Err(format!("record {at} into {room} words: {said:?}, {out:?}"));
            }
        }
        seen.asked += 1;
        seen.answered += usize::from(wanted.is_ok());
        seen.apart += usize::from(wanted.is_ok() && whole.is_none());
    }
    Ok(())
}

/// A file, whatever it is; whether it is whole.
fn compare_file(file: &[u8], seen: &mut Seen) -> Result<bool, String> {
    let read = model::read(file);
    match (Records::new(file), &read) {
        (Err(Refusal::File), None) => {}
        (Ok(records), Some(lines)) if records.len() == lines.len() => {
            if !records.iter().map(|operation| format!("{operation:?}")).eq(lines.iter().map(shown)) {
                return Err("records read as other than the model's".to_string());
            }
            let mut writer = Writer::new();
            if records.iter().any(|operation| writer.push(&operation).is_err()) || writer.finish() != file {
                return Err("records written anew are another file".to_string());
            }
        }
        (said, wanted) => return Err(format!("{:?} records, and the model {:?}", said.map(|records| records.len()), wanted.as_ref().map(Vec::len))),
    }
    compare_numbers(file, read.as_ref().map(Vec::len), seen)?;
    let text = moves("to text", |room| model::to_text(file, room), |out| to_text_into(file, out))?;
    if to_text(file).map(String::into_bytes).map_err(Refusal::number) != model::to_text(file, usize::MAX) {
        return Err("to text into a buffer of its own: another than the model's".to_string());
    }
    if let Some(text) = &text {
        let mut back = vec![0; file.len()];
        if to_bytes_into(text, &mut back) != Ok(file.len()) || back != file {
            return Err("to text and back: other bytes".to_string());
        }
    } else if read.is_some() {
        seen.foreign += 1;
    }
    Ok(read.is_some())
}

/// A model's line as the crate's operation is shown.
fn shown(line: &Line) -> String {
    let state = |state: &i64| ["Shrink", "Stay", "Grow"][(state + 1) as usize];
    match line {
        Line::Defect(u, v) => format!("Defect {{ unit: {u}, vertex: {v} }}"),
        Line::Blossom(u, members, pairs) => {
            let each =
                members.iter().zip(pairs).map(|(serial, (first, second))| format!("Member {{ serial: {serial}, first: {first}, second: {second} }}"));
            format!("Blossom {{ unit: {u}, members: [{}] }}", each.collect::<Vec<_>>().join(", "))
        }
        Line::Expand(u, s) => format!("Expand {{ unit: {u}, serial: {s} }}"),
        Line::SetState(u, s, g) => format!("SetState {{ unit: {u}, serial: {s}, state: {} }}", state(g)),
        Line::Grow(u, l) => format!("Grow {{ unit: {u}, length: {l} }}"),
        Line::Fuse(p, l, r) => format!("Fuse {{ parent: {p}, left: {l}, right: {r} }}"),
        Line::Clear(u) => format!("Clear {{ unit: {u} }}"),
        Line::Check(u) => format!("Check {{ unit: {u} }}"),
        other => format!("{other:?}"),
    }
}

/// A text, perhaps with a bad line.
fn compare_text(rng: &mut Rng, lines: &[Line], seen: &mut Seen) -> Result<(), String> {
    let mut text: Vec<u8> = lines.iter().flat_map(|line| (model::spelled(line) + "\n").into_bytes()).collect();
    if !text.is_empty() && rng.chance(60) {
        let at = rng.below(text.len());
        match rng.below(4) {
            0 => text[at] = b"09 -\nDBZ\r\0"[rng.below(10)],
            1 => text.truncate(at),
            2 => text.insert(at, b"0 -\n1"[rng.below(5)]),
            _ => drop(text.remove(at)),
        }
    }
    seen.texts += 1;
    let file = moves("to bytes", |room| model::to_bytes(&text, room), |out| to_bytes_into(&text, out))?;
    if to_bytes(&text).map_err(Refusal::number) != model::to_bytes(&text, usize::MAX) {
        return Err("to bytes into a buffer of its own: another than the model's".to_string());
    }
    if let Some(file) = file {
        seen.moved += 1;
        let mut back = vec![0; text.len()];
        if to_text_into(&file, &mut back) != Ok(text.len()) || back != text {
            return Err("to bytes and back: other text".to_string());
        }
    }
    Ok(())
}

/// Until so many files were compared.
pub fn compare(least: usize, seed: u64) -> Result<Seen, String> {
    let (mut seen, mut at) = (Seen::default(), 0);
    let mut other = model::write(&[]);
    while seen.files < least {
        let seed = seed * 1_000_000_007 + at;
        let rng = &mut Rng::new(seed);
        let own = rng.chance(50);
        let lines = lines(rng, own);
        seen.long += usize::from(!lines.iter().all(fits));
        let whole = model::write(&lines);
        compare_text(rng, &lines, &mut seen).map_err(|why| format!("seed {seed}: {why}"))?;
        for kind in 0..KINDS.len() {
            let mut file = whole.clone();
            spoil(rng, kind, &mut file, &other);
            let is_whole = compare_file(&file, &mut seen).map_err(|why| format!("seed {seed}, {}: {why}\n{file:?}", KINDS[kind]))?;
            seen.files += 1;
            seen.kinds[kind] += 1;
            seen.whole[kind] += usize::from(is_whole);
        }
        other = whole;
        at += 1;
    }
    Ok(seen)
}
