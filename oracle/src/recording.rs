//! A recording: a call, then `= ` and its answer; `#` begins a comment. Written from lines, and compared with what is answered now.
use crate::line::{numbers, read};
use crate::replay::{Replay, Turn};

/// A line that cannot stand, by its number.
#[derive(Debug, PartialEq, Eq)]
pub struct Wrong {
    pub line: usize,
    pub why: String,
}

impl std::fmt::Display for Wrong {
    fn fmt(&self, f: &mut std::fmt::Formatter) -> std::fmt::Result {
        write!(f, "line {}: {}", self.line, self.why)
    }
}

/// Runs a text's calls in order; `seen` gets each with its number, its turn and the answer written after it, if any.
pub fn replay(text: &str, mut seen: impl FnMut(usize, &str, &Turn, Option<&str>)) -> Result<(), Wrong> {
    let mut both = Replay::default();
    let all: Vec<&str> = text.lines().collect();
    for (at, line) in all.iter().enumerate() {
        if line.is_empty() || line.starts_with('#') || line.starts_with('=') {
            continue;
        }
        let call = read(line).map_err(|why| Wrong { line: at + 1, why })?;
        let turn = both.turn(&call);
        let written = all[at + 1..].iter().find(|next| !next.starts_with('#')).and_then(|next| next.strip_prefix("= "));
        seen(at + 1, line, &turn, written);
    }
    Ok(())
}

/// The recording of calls: comments stay, each call gets its answer, and a mark where that is the manual's alone.
pub fn record(calls: &str) -> Result<String, Wrong> {
    let mut both = Replay::default();
    let mut out = String::new();
    for (at, line) in calls.lines().enumerate() {
        if line.is_empty() || line.starts_with('#') {
            out.push_str(line);
            out.push('\n');
            continue;
        }
        let wrong = |why| Wrong { line: at + 1, why };
        let turn = both.turn(&read(line).map_err(wrong)?);
        if !turn.agrees() {
            return Err(wrong(format!("{line}: the original gives {:?}, the model {}", turn.original, numbers(&turn.answer))));
        }
        if let Some(mark) = turn.mark {
            out.push_str(&format!("# {mark}\n"));
        }
        out.push_str(&format!("{line}\n= {}\n", numbers(&turn.answer)));
    }
    Ok(out)
}
