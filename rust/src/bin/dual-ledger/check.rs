//! `dual-ledger check`: records answered, refused lines put into words, many files on many cores. What is printed comes in the order of the files.
use crate::args::Args;
use crate::explain::explain;
use crate::input::{self, Progress};
use crate::output::{said, Answers};
use dual_ledger::{Refusal, Session};
use std::io::{self, BufWriter, Write};
use std::panic::{catch_unwind, AssertUnwindSafe};
use std::path::Path;
use std::sync::atomic::{AtomicBool, AtomicU64, AtomicUsize, Ordering};
use std::sync::mpsc::{sync_channel, Receiver, RecvTimeoutError, SyncSender};
use std::time::Duration;

/// So many bytes of answers are handed on at once, and so many parcels wait for a file's turn.
const PARCEL: usize = 1 << 18;
const WAITING: usize = 8;

/// From the run of one file.
enum News {
    Refused(String),
    Answers(Vec<u8>),
    Done { lines: u64, refused: u64, trouble: Option<String> },
}

/// What the runs share.
struct Shared<'a> {
    args: &'a Args,
    next: AtomicUsize,
    lines: AtomicU64,
    is_over: AtomicBool,
}

/// The run of one file.
struct Run<'a> {
    session: Session,
    name: String,
    answers: Vec<u8>,
    refused: u64,
    shared: &'a Shared<'a>,
    to: SyncSender<News>,
}

impl Run<'_> {
    /// Hands on; an error where nobody waits for it any more.
    fn tell(&self, news: News) -> Result<(), String> {
        self.to.send(news).map_err(|_| String::new())
    }

    /// Answers a part of a line, and says why the line was refused if it was.
    fn part(&mut self, part: input::Part) -> Result<(), String> {
        let before = self.answers.len();
        self.session.feed(part.bytes, &mut self.answers);
        if let Some(line) = part.line {
            if self.answers[before] != b'0' {
                self.refuse(before, part.number, line)?;
            }
            if part.number % 1024 == 0 {
                self.shared.lines.fetch_add(1024, Ordering::Relaxed);
            }
        }
        if self.answers.len() >= PARCEL {
            self.hand_on()?;
        }
        Ok(())
    }

    fn hand_on(&mut self) -> Result<(), String> {
        if self.shared.is_over.load(Ordering::Relaxed) {
            return Err(String::new());
        }
        let answers = std::mem::take(&mut self.answers);
        if self.shared.args.answers.is_some() {
            self.tell(News::Answers(answers))?;
        }
        Ok(())
    }

    /// The answer that begins there refuses the line.
    fn refuse(&mut self, at: usize, number: u64, line: &[u8]) -> Result<(), String> {
        self.refused += 1;
        if self.shared.args.is_quiet {
            return Ok(());
        }
        let refusal = refusal_at(&self.answers[at..]);
        let why = explain(self.session.bench(), refusal, line);
        self.tell(News::Refused(format!("{}:{number}: {} {}: {why}", self.name, refusal.number(), refusal.name())))
    }

    fn file(&mut self, path: &Path) -> Result<(u64, bool), String> {
        let from = input::open(path).map_err(|trouble| input::reason(&trouble))?;
        let (lines, _) = input::parts(from, |part| self.part(part))?;
        let is_cut = self.session.end(&mut self.answers);
        if is_cut {
            self.refused += 1;
            if !self.shared.args.is_quiet {
                let line = lines + 1;
                self.tell(News::Refused(format!("{}:{line}: 1 LINE: the last line has no newline, and was not done", self.name)))?;
            }
        }
        self.hand_on()?;
        Ok((lines + u64::from(is_cut), is_cut))
    }
}

/// The number at the beginning of an answer.
fn refusal_at(answer: &[u8]) -> Refusal {
    let digits = answer.iter().take_while(|byte| byte.is_ascii_digit());
    let number = digits.fold(0, |number, digit| number * 10 + (digit - b'0'));
    Refusal::from_number(number).expect("an answer begins with a number of the table")
}

fn work(shared: &Shared, senders: &[SyncSender<News>]) {
    loop {
        let at = shared.next.fetch_add(1, Ordering::Relaxed);
        let (Some(path), Some(to)) = (shared.args.files.get(at), senders.get(at)) else { return };
        let mut run = Run { session: shared.args.session(), name: path.display().to_string(), answers: vec![], refused: 0, shared, to: to.clone() };
        // whatever happens, the file's end is told: somebody waits for it
        let ended = catch_unwind(AssertUnwindSafe(|| run.file(path))).unwrap_or_else(|_| Err("this program is at fault".to_string()));
        let (lines, trouble) = match ended {
            Ok((lines, true)) => (lines, Some("the input is cut: its last line has no newline".to_string())),
            Ok((lines, false)) => (lines, None),
            Err(why) => (0, Some(why)),
        };
        if shared.is_over.load(Ordering::Relaxed) || run.tell(News::Done { lines, refused: run.refused, trouble }).is_err() {
            return;
        }
    }
}

/// Prints what the runs say, file by file; answers whether every file was whole.
fn gather(args: &Args, shared: &Shared, from: Vec<Receiver<News>>, answers: &mut Option<Answers>) -> Result<bool, String> {
    let mut out = BufWriter::new(io::stdout().lock());
    let written = |trouble: io::Error| said("standard output", &trouble);
    let (mut progress, mut are_whole) = (Progress::new(!args.is_quiet), true);
    for (at, (path, from)) in args.files.iter().zip(from).enumerate() {
        loop {
            let got = from.recv_timeout(Duration::from_millis(200));
            progress.at(|| format!("{} lines, file {} of {}", shared.lines.load(Ordering::Relaxed), at + 1, args.files.len()));
            let news = match got {
                Ok(news) => news,
                Err(RecvTimeoutError::Timeout) => continue,
                Err(RecvTimeoutError::Disconnected) => return Err(format!("{}: its run ended early", path.display())),
            };
            match news {
                News::Refused(line) => {
                    progress.clear();
                    writeln!(out, "{line}").map_err(written)?
                }
                News::Answers(bytes) => answers.as_mut().map_or(Ok(()), |answers| answers.write(&bytes))?,
                News::Done { lines, refused, trouble } => {
                    progress.clear();
                    if !args.is_quiet && trouble.as_ref().map_or(true, |_| lines > 0) {
                        writeln!(out, "{}: {lines} lines, {refused} refused", path.display()).map_err(written)?;
                    }
                    if let Some(why) = trouble {
                        out.flush().map_err(written)?;
                        eprintln!("dual-ledger: {}: {why}", path.display());
                        are_whole = false;
                    }
                    break;
                }
            }
        }
    }
    out.flush().map_err(written)?;
    Ok(are_whole)
}

pub fn run(args: &Args) -> Result<bool, String> {
    let mut answers = args.answers.as_deref().map(Answers::open).transpose()?;
    let shared = Shared { args, next: AtomicUsize::new(0), lines: AtomicU64::new(0), is_over: AtomicBool::new(false) };
    let (to, from): (Vec<_>, Vec<_>) = args.files.iter().map(|_| sync_channel(WAITING)).unzip();
    let done = std::thread::scope(|scope| {
        for _ in 0..args.jobs.min(args.files.len()) {
            scope.spawn(|| work(&shared, &to));
        }
        let done = gather(args, &shared, from, &mut answers);
        shared.is_over.store(true, Ordering::Relaxed);
        done
    });
    match (answers, &done) {
        (Some(answers), Ok(true)) => answers.finish()?,
        (Some(answers), _) => answers.abandon(),
        (None, _) => {}
    }
    done
}
