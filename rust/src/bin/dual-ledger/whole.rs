//! Why a file of byte records does not move, in words. The verdict is the proved functions'; this reads the file a second time, from the trailer back, for what
//! is to be said about it.
use dual_ledger::records::{Operation, Records};
use dual_ledger::Refusal;

const TRAILER: usize = 16;

fn number(file: &[u8], at: usize, bytes: usize) -> u64 {
    file[at..at + bytes].iter().rev().fold(0, |number, byte| number << 8 | u64::from(*byte))
}

/// What the trailer says that does not fit the file; else where the list starts, and how many records it says.
fn trailer(file: &[u8]) -> Result<(usize, usize), String> {
    if file.len() < TRAILER {
        return Err(format!("it has {} bytes, and a trailer alone has 16", file.len()));
    }
    let before = file.len() - TRAILER;
    let [start, count, said] = [0, 4, 8].map(|at| number(file, before + at, 4) as usize);
    if &file[before + 12..] != b"DLG2" {
        return Err("it does not end in the letters DLG2".to_string());
    }
    if said != before {
        return Err(format!("the trailer says {said} bytes before it, and there are {before}"));
    }
    if start + 4 * count != before {
        return Err(format!("the trailer says a list from byte {start} on of {count} starts, which does not end at byte {before}"));
    }
    if file.len() > u32::MAX as usize {
        return Err("it passes 4,294,967,295 bytes".to_string());
    }
    Ok((start, count))
}

/// How many bytes the record at a place has, of those before the list; or what is wrong with it.
fn record(bytes: &[u8]) -> Result<usize, String> {
    let (Some(letter), Some(unit)) = (bytes.first(), bytes.get(1)) else {
        return Err("it is cut: the list starts after its first byte".to_string());
    };
    let is_cut = |wanted: usize| if bytes.len() < wanted { Err("it is cut: it goes on into the list".to_string()) } else { Ok(wanted) };
    let serial = |at: usize| if number(bytes, at, 4) == 0 { Err("it has a serial 0".to_string()) } else { Ok(()) };
    match letter {
        b'D' => is_cut(6),
        b'G' => is_cut(10),
        b'F' => is_cut(4),
        b'C' | b'K' => Ok(2),
        b'E' => is_cut(6).and_then(|size| serial(2).map(|()| size)),
        b'S' => {
            is_cut(7)?;
            serial(2)?;
            match bytes[6] {
                0 | 1 | 255 => Ok(7),
                other => Err(format!("its state is {other}, and a state is 0, 1 or 255")),
            }
        }
        b'B' => {
            is_cut(4)?;
            let count = number(bytes, 2, 2) as usize;
            let size = is_cut(4 + 12 * count)?;
            (4..size).step_by(4).try_for_each(serial)?;
            let digits = |number: u64| number.to_string().len();
            let line = 2 + digits(u64::from(*unit)) + (4..size).step_by(12).map(|at| 1 + digits(number(bytes, at, 4))).sum::<usize>();
            match count {
                0 => Err("its blossom has no members".to_string()),
                _ if line > 1023 => Err(format!("its line would have {} bytes with the newline, and a line has at most 1,024", line + 1)),
                _ => Ok(size),
            }
        }
        other => Err(format!("no record begins with byte {other}")),
    }
}

/// What does not fit in a file that is not whole.
fn not_whole(file: &[u8]) -> String {
    let (list, count) = match trailer(file) {
        Ok(numbers) => numbers,
        Err(why) => return why,
    };
    let mut place = 0;
    for index in 0..count {
        let start = number(file, list + 4 * index, 4) as usize;
        if start != place {
            return format!("record {}: the list says byte {start}, and it starts at byte {place}", index + 1);
        }
        match record(&file[place..list]) {
            Ok(size) => place += size,
            Err(why) => return format!("record {}, at byte {place}: {why}", index + 1),
        }
    }
    format!("the {count} records end at byte {place}, and the list starts at byte {list}")
}

/// The first pair that is not its member.
fn not_self(file: &[u8]) -> Option<String> {
    for (index, operation) in Records::new(file).ok()?.iter().enumerate() {
        let Operation::Blossom { members, .. } = operation else { continue };
        if let Some(member) = members.iter().find(|member| member.first != member.serial || member.second != member.serial) {
            let (serial, first, second) = (member.serial, member.first, member.second);
            return Some(format!("record {}: member {serial} touches at {first} and {second}, which a line cannot say", index + 1));
        }
    }
    None
}

pub fn why(file: &[u8], refusal: Refusal) -> String {
    match refusal {
        Refusal::File => not_whole(file),
        Refusal::SelfPair => not_self(file).unwrap_or_else(|| refusal.about().to_string()),
        other => other.about().to_string(),
    }
}
