//! Text records, by the proved text engine: what `ledger` writes for an input, however it is cut into chunks.
use crate::linked::{text, Held, Hints, Words};
use crate::{Bench, Refusal};
use alloc::boxed::Box;
use alloc::vec;
use alloc::vec::Vec;

/// As many bytes of a chunk are given to the engine at once.
const PIECE: usize = 4096;
/// The room that it wants for each.
const ROOM: usize = 57;
/// As many bytes of a first line are kept: one more than tell that it is overlong.
const FIRST: usize = 1025;

/// What a line of a record is answered by (docs/MANUAL.md, Answers).
#[derive(Clone, Copy, Debug, PartialEq, Eq, Hash)]
pub struct Reply {
    /// None where the line was accepted.
    pub refusal: Option<Refusal>,
    /// The serial of the node made or named; for a check the verdict; 0 where there is none.
    pub serial: u32,
    /// The speed of the interface named.
    pub speed: i64,
    /// Its sum.
    pub sum: i64,
}

pub(crate) fn reply(number: u8, serial: u64, speed: i64, sum: i64) -> Reply {
    Reply { refusal: Refusal::from_number(number), serial: serial as u32, speed, sum }
}

/// A line on any words.
pub(crate) fn any_line(words: &mut Words, line: &[u8]) -> Reply {
    let (mut serial, mut speed, mut sum) = (0, 0, 0);
    let number = text::line_of_any(words, line, &mut [0; 512], &mut serial, &mut speed, &mut sum);
    reply(number, serial, speed, sum)
}

/// What is done to a bench before its record runs.
type Prepare = Box<dyn Fn(&mut Bench) + Send + Sync>;

/// A text record as it is run: a bench, and what is held of a line that is not ended yet. The first line of a record may choose the engine.
///
/// ```
/// use dual_ledger::{Refusal, Session};
///
/// let mut session = Session::new();
/// let mut answers = vec![];
/// session.feed(b"M 1\nD 0 3\nG 0 5\nE 0", &mut answers); // cut anywhere
/// session.feed(b" 1\nK 0", &mut answers);
/// assert!(session.end(&mut answers)); // the last line has no newline
/// assert_eq!(answers, b"0 0 0 0\n0 1 1 0\n0 0 1 5\n10 0 1 5\n1 0 0 0\n");
/// assert_eq!(session.bench().sum_dual_variables(0), Ok(5));
/// assert!(session.bench().is_plain());
/// ```
pub struct Session {
    bench: Bench,
    held: Box<Held>,
    count: usize,
    hints: Box<Hints>,
    room: Vec<u8>,
    /// The bytes of the first line as long as it is not ended, and what is done to the bench when its engine is chosen; none where that is past.
    first: Option<(Vec<u8>, Prepare)>,
}

impl Default for Session {
    fn default() -> Self {
        Session::prepared(|_| {})
    }
}

impl Session {
    /// A record from its beginning: an empty bench, whose first node gets serial 1, of the engine that the first line chooses, else of the lazy one.
    pub fn new() -> Session {
        Session::default()
    }

    /// The same on a bench that is prepared before any line but the one that chooses the engine: interfaces are [marked](Bench::mark_filling). No line marks an
    /// interface.
    ///
    /// ```
    /// use dual_ledger::{Bench, Session};
    ///
    /// let mut session = Session::prepared(|bench| bench.mark_filling(0).unwrap());
    /// let mut answers = vec![];
    /// session.feed(b"M 1\nD 0 3\nB 0 1\nE 0 2\nD 0 4\n", &mut answers);
    /// assert_eq!(session.bench().nodes_count(0), Ok(2));
    /// assert!(session.bench().is_plain());
    /// ```
    pub fn prepared(prepare: impl Fn(&mut Bench) + Send + Sync + 'static) -> Session {
        let mut bench = Bench::default();
        prepare(&mut bench);
        Session { first: Some((vec![], Box::new(prepare))), ..Session::on(bench) }
    }

    /// A record that goes on from a bench: one that an earlier record left, or one with interfaces that are [marked](Bench::mark_filling). Its engine was chosen
    /// when it was set up, so an M is LINE here.
    ///
    /// ```
    /// use dual_ledger::{Bench, Session};
    ///
    /// let mut session = Session::on(Bench::plain(7).unwrap());
    /// let mut answers = vec![];
    /// session.feed(b"M 1\nD 0 3\n", &mut answers);
    /// assert_eq!(answers, b"1 0 0 0\n0 7 1 0\n");
    /// ```
    pub fn on(bench: Bench) -> Session {
        Session { bench, held: Box::new([0; 1024]), count: 0, hints: Box::new([0; 512]), room: vec![0; PIECE * ROOM], first: None }
    }

    /// The bench as it stands after the lines that were answered.
    pub fn bench(&self) -> &Bench {
        &self.bench
    }

    /// Takes the next bytes of the record, and appends the answers to the lines that they end.
    pub fn feed(&mut self, chunk: &[u8], answers: &mut Vec<u8>) {
        let Some((mut held, prepare)) = self.first.take() else { return self.take(chunk, answers) };
        let end = chunk.iter().position(|byte| *byte == b'\n');
        let (line, rest) = chunk.split_at(end.unwrap_or(chunk.len()));
        held.extend_from_slice(&line[..line.len().min(FIRST - held.len())]);
        if end.is_none() {
            self.first = Some((held, prepare));
        } else if self.open(&held, prepare, answers) {
            self.take(&rest[1..], answers);
        } else {
            self.take(&held, answers);
            self.take(rest, answers);
        }
    }

    /// The bytes of lines after the one that chooses, if there is one.
    fn take(&mut self, chunk: &[u8], answers: &mut Vec<u8>) {
        for piece in chunk.chunks(PIECE) {
            let mut wrote = 0;
            let number = text::chunk(&mut self.bench.0, piece, &mut self.held, &mut self.count, &mut self.hints, &mut self.room, &mut wrote);
            debug_assert_eq!(number, 0, "there is room for every answer");
            answers.extend_from_slice(&self.room[..wrote]);
        }
    }

    /// Does what a first line says if it chooses the engine, and appends its answer; else answers no.
    fn open(&mut self, line: &[u8], prepare: Prepare, answers: &mut Vec<u8>) -> bool {
        let Some((bench, zeros)) = chosen(line) else { return false };
        self.bench = bench;
        prepare(&mut self.bench);
        answers.extend_from_slice(&zeros);
        true
    }

    /// The record ends. A last line without newline is answered as LINE and not done; then the record may be cut, and the answer is yes.
    pub fn end(&mut self, answers: &mut Vec<u8>) -> bool {
        let held = self.first.take().map_or(self.count, |(first, _)| first.len());
        let mut wrote = 0;
        let number = text::end(held, &mut self.room, &mut wrote);
        debug_assert_eq!(number, 0, "there is room for an answer");
        answers.extend_from_slice(&self.room[..wrote]);
        self.count = 0;
        held > 0
    }

    /// Does what one line says, its newline left out, whatever is held. Before any other it may choose the engine.
    pub fn line(&mut self, line: &[u8]) -> Reply {
        if let Some((held, prepare)) = self.first.take() {
            let is_chosen = self.open(line, prepare, &mut vec![]);
            self.take(&held, &mut vec![]);
            if is_chosen {
                return reply(0, 0, 0, 0);
            }
        }
        let (mut serial, mut speed, mut sum) = (0, 0, 0);
        let number = text::line(&mut self.bench.0, line, &mut self.hints, &mut serial, &mut speed, &mut sum);
        reply(number, serial, speed, sum)
    }
}

/// The bench of the engine that a first line chooses, and the answer to it.
fn chosen(line: &[u8]) -> Option<(Bench, Vec<u8>)> {
    let is_m = line.first() == Some(&b'M') && !line.contains(&b'\n') && line.len() < FIRST;
    let (mut bench, mut room, mut held, mut wrote) = (Bench::default(), vec![0; (FIRST + 1) * ROOM], 0, 0);
    let text = if is_m { [line, b"\n"].concat() } else { return None };
    let number = text::opening(&mut bench.0, &text, &mut [0; 1024], &mut held, &mut [0; 512], &mut room, &mut wrote);
    debug_assert_eq!(number, 0, "there is room for the answer");
    room.truncate(wrote);
    // of all lines that begin with M only those that choose are accepted
    room.starts_with(b"0 ").then_some((bench, room))
}

impl core::fmt::Debug for Session {
    fn fmt(&self, f: &mut core::fmt::Formatter) -> core::fmt::Result {
        f.debug_struct("Session").field("bench", &self.bench).field("held", &self.count).finish_non_exhaustive()
    }
}
