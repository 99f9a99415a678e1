//! The calls of recordings written as files of byte records, blossoms with their touching pairs, by the crate's writer, and run: each answer beside
//! the one that is recorded and beside the original's own. Where every pair is the member the file is moved to text, and that is run too.
use crate::file_runs::operation;
use crate::ledger::state;
use dual_ledger::records::{to_text, Member, Operation, Records, Writer};
use dual_ledger::runs::{run_lent, Four};
use dual_ledger::{Bench, Session};
use oracle::line::{read, Line, Mode};
use oracle::model::records as model;
use oracle::recording::replay;
use oracle::replay::Turn;

#[derive(Default)]
pub struct Seen {
    texts: usize,
    files: usize,
    operations: usize,
    refused: usize,
    original: usize,
    blossoms: usize,
    pairs: usize,
    /// of them accepted
    made: usize,
    lines: usize,
    /// refused calls that have no record
    left: usize,
}

impl std::fmt::Display for Seen {
    fn fmt(&self, f: &mut std::fmt::Formatter) -> std::fmt::Result {
        writeln!(f, "{} recordings as {} files: {} operations, {} refused", self.texts, self.files, self.operations, self.refused)?;
        let Seen { original, blossoms, pairs, made, lines, left, .. } = self;
        writeln!(f, "{original} answers the original's own; {blossoms} blossoms, {pairs} touching by others, {made} of them made")?;
        writeln!(f, "{lines} of the operations run as text too; {left} refused calls without a record left out")
    }
}

/// The crate's operation of a line that has a record.
fn said(line: &Line) -> Operation {
    match line {
        Line::Defect(u, vertex) => Operation::Defect { unit: *u as u8, vertex: *vertex },
        Line::Blossom(u, members, pairs) => {
            let pair = |at: usize, serial: u32| pairs.get(at).copied().unwrap_or((serial, serial));
            let member = |(at, serial): (usize, &u32)| Member { serial: *serial, first: pair(at, *serial).0, second: pair(at, *serial).1 };
            Operation::Blossom { unit: *u as u8, members: members.iter().enumerate().map(member).collect() }
        }
        Line::Expand(u, serial) => Operation::Expand { unit: *u as u8, serial: *serial },
        Line::SetState(u, serial, rate) => Operation::SetState { unit: *u as u8, serial: *serial, state: state(*rate) },
        Line::Grow(u, length) => Operation::Grow { unit: *u as u8, length: *length },
        Line::Fuse(p, l, r) => Operation::Fuse { parent: *p as u8, left: *l as u8, right: *r as u8 },
        Line::Clear(u) => Operation::Clear { unit: *u as u8 },
        Line::Check(u) => Operation::Check { unit: *u as u8 },
        other => unreachable!("{other:?} has no record"),
    }
}

/// Calls from a set-up or a mark to the next, with what was answered.
struct Part {
    bench: Bench,
    lines: Vec<Line>,
    recorded: Vec<Four>,
    original: Vec<Option<Four>>,
}

impl Part {
    fn new(bench: Bench) -> Part {
        Part { bench, lines: vec![], recorded: vec![], original: vec![] }
    }

    /// Written, and run on the bench before it; the bench after it.
    fn run(self, seen: &mut Seen) -> Result<Bench, String> {
        let mut writer = Writer::new();
        self.lines.iter().try_for_each(|line| writer.push(&said(line))).map_err(|why| format!("not written: {why}"))?;
        let file = writer.finish();
        let read = Records::new(&file).map_err(|why| format!("no file: {why}"))?;
        if file != model::write(&self.lines) || (0..self.lines.len()).any(|at| read.get(at) != Some(said(&self.lines[at]))) {
            return Err("the file is another than the model's, or reads otherwise".to_string());
        }
        let (mut bench, mut words) = (self.bench.clone(), Box::new(*self.bench.words()));
        let mut answers = vec![[77; 4]; self.lines.len()];
        let mut lent = answers.clone();
        let counts = (bench.run(&file, &mut answers), run_lent(&mut words, &file, &mut lent));
        if counts != (Ok(self.lines.len()), Ok(self.lines.len())) || answers != lent || bench.words() != &*words {
            return Err(format!("a file of {} was answered {counts:?}, or otherwise in the two forms", self.lines.len()));
        }
        for (at, line) in self.lines.iter().enumerate() {
            if answers[at] != self.recorded[at] || self.original[at].is_some_and(|four| four != answers[at]) {
                return Err(format!("{line:?}: run {:?}, recorded {:?}, the original {:?}", answers[at], self.recorded[at], self.original[at]));
            }
        }
        if let Ok(text) = to_text(&file) {
            let (mut session, mut printed) = (Session::on(self.bench.clone()), vec![]);
            session.feed(text.as_bytes(), &mut printed);
            let wanted: String = answers.iter().map(|[a, b, c, d]| format!("{a} {b} {c} {d}\n")).collect();
            if printed != wanted.as_bytes() || session.bench() != &bench {
                return Err("moved to text, it is answered otherwise".to_string());
            }
            seen.lines += self.lines.len();
        }
        seen.files += 1;
        self.count(&answers, seen);
        Ok(bench)
    }

    fn count(&self, answers: &[Four], seen: &mut Seen) {
        seen.operations += answers.len();
        seen.refused += answers.iter().filter(|four| four[0] != 0).count();
        seen.original += self.original.iter().flatten().count();
        for (line, four) in self.lines.iter().zip(answers) {
            if let Line::Blossom(_, members, pairs) = line {
                let others = pairs.iter().zip(members).any(|(pair, member)| *pair != (*member, *member));
                seen.blossoms += 1;
                seen.pairs += usize::from(others);
                seen.made += usize::from(others && four[0] == 0);
            }
        }
    }

    /// A call with its turn and its recorded answer; the part goes on, or the next begins.
    fn take(mut self, line: &Line, turn: &Turn, recorded: &[i64], seen: &mut Seen) -> Result<Part, String> {
        let four = |numbers: &[i64]| -> Result<Four, String> {
            numbers.get(..4).and_then(|four| four.try_into().ok()).ok_or_else(|| format!("{line:?}: no four numbers"))
        };
        match (line, operation(line)) {
            (Line::SetUp(first), _) => {
                self.run(seen)?;
                Ok(Part::new(Bench::new(*first).unwrap_or_default()))
            }
            (Line::Mark(unit, mode), _) => {
                let mut bench = self.run(seen)?;
                let marked = if let Mode::Filling = mode { bench.mark_filling(*unit as u8) } else { bench.mark_floored(*unit as u8) };
                if marked.is_ok() == turn.is_accepted() {
                    Ok(Part::new(bench))
                } else {
                    Err(format!("{line:?}: {marked:?}"))
                }
            }
            (_, Some(operation)) => {
                self.recorded.push(four(recorded)?);
                let own = turn.original.as_ref().filter(|_| turn.mark.is_none());
                self.original.push(own.and_then(|answer| answer.as_ref().ok()).map(|numbers| four(numbers)).transpose()?);
                self.lines.push(operation);
                Ok(self)
            }
            _ if crate::runs::changes(line) && turn.is_accepted() => Err(format!("{line:?} was accepted, and has no record")),
            _ => {
                seen.left += usize::from(crate::runs::changes(line));
                Ok(self)
            }
        }
    }
}

/// A recording, or lines without answers, which are then the model's.
fn play(text: &str, seen: &mut Seen) -> Result<(), String> {
    let mut part = Ok(Part::new(Bench::default()));
    let step = |at: usize, call: &str, turn: &Turn, written: Option<&str>| {
        let before = std::mem::replace(&mut part, Err(String::new()));
        let written: Option<Vec<i64>> = written.map(|answer| answer.split(' ').map(|number| number.parse().unwrap_or(i64::MIN)).collect());
        part = before.and_then(|part| {
            let line = read(call)?;
            part.take(&line, turn, written.as_ref().unwrap_or(&turn.answer), seen).map_err(|why| format!("line {at}: {why}"))
        });
    };
    replay(text, step).map_err(|wrong| wrong.to_string())?;
    part?.run(seen)?;
    seen.texts += 1;
    Ok(())
}

/// Every text named, with its name.
pub fn compare(texts: &[(String, String)]) -> Result<Seen, String> {
    let mut seen = Seen::default();
    for (name, text) in texts {
        play(text, &mut seen).map_err(|why| format!("{name}: {why}"))?;
    }
    Ok(seen)
}
