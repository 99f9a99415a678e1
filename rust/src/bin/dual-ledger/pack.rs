//! `dual-ledger pack` and `unpack`: a record moved from text to bytes and back. The verdict and the bytes are the proved functions'; what is said about a file
//! that does not move is found by reading it once more (`whole`).
use crate::args::Args;
use crate::explain::line_words;
use crate::input::{self, reason, Progress};
use crate::output::{said, Answers};
use crate::whole;
use dual_ledger::records::{to_bytes, to_text};
use dual_ledger::Refusal;
use std::io::{self, Read};
use std::path::Path;

/// So many bytes are read or written between two looks at the clock.
const PIECE: usize = 1 << 20;
/// From so many on, a bar is shown.
pub const LARGE: usize = 4 << 20;

/// A bar of how many of so many bytes are done; without a number where it is not known.
pub fn bar(what: &str, done: usize, of: Option<usize>) -> String {
    const WIDE: usize = 30;
    match of.filter(|of| *of > 0) {
        None => format!("{what} {} MB", done >> 20),
        Some(of) => {
            let full = WIDE * done.min(of) / of;
            format!("{what} [{}{}] {:3} %, {} MB", "#".repeat(full), ".".repeat(WIDE - full), 100 * done.min(of) / of, done >> 20)
        }
    }
}

pub fn read(path: &Path, name: &str) -> Result<Vec<u8>, String> {
    let mut from = input::open(path).map_err(|trouble| said(name, &trouble))?;
    let size =
        if path.as_os_str() == "-" { None } else { std::fs::metadata(path).ok().filter(|found| found.is_file()).map(|found| found.len() as usize) };
    let mut progress = Progress::new(size.map_or(true, |size| size >= LARGE));
    let mut bytes = Vec::with_capacity(size.unwrap_or(0));
    loop {
        match from.by_ref().take(PIECE as u64).read_to_end(&mut bytes) {
            Ok(0) => break,
            Ok(_) => progress.at(|| bar("reading", bytes.len(), size)),
            Err(trouble) if trouble.kind() == io::ErrorKind::Interrupted => {}
            Err(trouble) => return Err(format!("{name}: {}", reason(&trouble))),
        }
    }
    progress.clear();
    Ok(bytes)
}

pub fn write(path: &Path, bytes: &[u8]) -> Result<bool, String> {
    let mut out = Answers::open(path)?;
    let mut progress = Progress::new(bytes.len() >= LARGE);
    for (at, piece) in bytes.chunks(PIECE).enumerate() {
        if let Err(why) = out.write(piece) {
            progress.clear();
            out.abandon();
            return Err(why);
        }
        progress.at(|| bar("writing", at * PIECE + piece.len(), Some(bytes.len())));
    }
    progress.clear();
    out.finish()?;
    Ok(true)
}

/// The name that a message has for a file.
pub fn named(path: &Path, standard: &str) -> String {
    if path.as_os_str() == "-" {
        return standard.to_string();
    }
    path.display().to_string()
}

/// Why a text does not move: its first line that is not of the grammar.
fn bad_line(name: &str, text: &[u8]) -> String {
    let file = Refusal::File;
    for (at, line) in text.split_inclusive(|byte| *byte == b'\n').enumerate() {
        let Some(bare) = line.strip_suffix(b"\n") else {
            return format!("{name}:{}: {} {}: the last line has no newline, so the record may be cut", at + 1, file.number(), file.name());
        };
        if to_bytes(line).is_err() {
            return format!("{name}:{}: {} {}: the line is LINE: {}", at + 1, file.number(), file.name(), line_words(bare));
        }
    }
    format!("{name}: {} {}: the byte records would pass 4,294,967,295 bytes", file.number(), file.name())
}

pub fn pack(args: &Args) -> Result<bool, String> {
    let (from, to) = (&args.files[0], &args.files[1]);
    let name = named(from, "standard input");
    let text = read(from, &name)?;
    let file = to_bytes(&text).map_err(|_| bad_line(&name, &text))?;
    drop(text);
    write(to, &file)
}

pub fn unpack(args: &Args) -> Result<bool, String> {
    let (from, to) = (&args.files[0], &args.files[1]);
    let name = named(from, "standard input");
    let file = read(from, &name)?;
    let text = to_text(&file).map_err(|refusal| format!("{name}: {} {}: {}", refusal.number(), refusal.name(), whole::why(&file, refusal)))?;
    drop(file);
    write(to, text.as_bytes())
}
