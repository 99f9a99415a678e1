//! Records read in buffers and cut into lines. Where a line is cut does not matter to the text engine; here it is cut at newlines, so that what is said
//! about a refused line can be said before the next one is done.
use std::fs::File;
use std::io::{self, IsTerminal, Read, Write};
use std::path::Path;
use std::time::{Duration, Instant};

const BUFFER: usize = 1 << 16;
/// As much of a line is kept for what is said about it.
const SHOWN: usize = 1025;

/// A part of a line: all of it and its newline, or some of it.
pub struct Part<'a> {
    /// The bytes to be given to the engine.
    pub bytes: &'a [u8],
    /// The line's number, from 1.
    pub number: u64,
    /// The whole line without its newline, if this part ends it; of a long one the beginning.
    pub line: Option<&'a [u8]>,
}

pub fn open(path: &Path) -> io::Result<Box<dyn Read>> {
    if path.as_os_str() == "-" {
        return Ok(Box::new(io::stdin().lock()));
    }
    let file = File::open(path)?;
    if file.metadata()?.is_dir() {
        return Err(io::Error::new(io::ErrorKind::Other, "Is a directory"));
    }
    Ok(Box::new(file))
}

/// A failed system call in the system's words, without the number.
pub fn reason(trouble: &io::Error) -> String {
    let said = trouble.to_string();
    said.split(" (os error").next().unwrap_or(&said).to_string()
}

/// Gives each part to `take`, and answers how many lines were ended and what is left without newline.
pub fn parts(mut from: impl Read, mut take: impl FnMut(Part) -> Result<(), String>) -> Result<(u64, Vec<u8>), String> {
    let mut buffer = vec![0; BUFFER];
    let (mut number, mut begun) = (1, vec![]);
    loop {
        let got = match from.read(&mut buffer) {
            Ok(0) => return Ok((number - 1, begun)),
            Ok(got) => got,
            Err(trouble) if trouble.kind() == io::ErrorKind::Interrupted => continue,
            Err(trouble) => return Err(reason(&trouble)),
        };
        for bytes in buffer[..got].split_inclusive(|byte| *byte == b'\n') {
            let Some(text) = bytes.strip_suffix(b"\n") else {
                keep(&mut begun, bytes);
                take(Part { bytes, number, line: None })?;
                continue;
            };
            if begun.is_empty() {
                take(Part { bytes, number, line: Some(text) })?;
            } else {
                keep(&mut begun, text);
                take(Part { bytes, number, line: Some(&begun) })?;
                begun.clear();
            }
            number += 1;
        }
    }
}

fn keep(begun: &mut Vec<u8>, bytes: &[u8]) {
    let room = SHOWN.saturating_sub(begun.len()).min(bytes.len());
    begun.extend_from_slice(&bytes[..room]);
}

/// How far a long run has come, on standard error where that is a terminal.
pub struct Progress {
    since: Option<Instant>,
    next: Duration,
    is_shown: bool,
}

impl Progress {
    pub fn new(is_wanted: bool) -> Progress {
        let is_seen = is_wanted && io::stderr().is_terminal();
        Progress { since: is_seen.then(Instant::now), next: Duration::from_secs(1), is_shown: false }
    }

    /// Called often; says something after a second, and five times a second from then on.
    pub fn at(&mut self, what: impl FnOnce() -> String) {
        let Some(passed) = self.since.map(|since| since.elapsed()) else { return };
        if passed >= self.next {
            let _ = write!(io::stderr(), "\r\x1b[K{}", what());
            self.next = passed + Duration::from_millis(200);
            self.is_shown = true;
        }
    }

    /// Takes the line away, before something else is printed.
    pub fn clear(&mut self) {
        if self.is_shown {
            let _ = write!(io::stderr(), "\r\x1b[K");
            self.is_shown = false;
        }
    }
}
