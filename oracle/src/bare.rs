//! The original alone, on any line, refused or not: what it answers, where it panics, and that it hangs. A call that does not come back in
//! time is given up with the thread it runs in.
use crate::driver::{Driver, Trouble};
use crate::line::{numbers, Line};
use crate::show::{self, Notice};
use std::fmt::{Display, Formatter};
use std::sync::mpsc::{channel, RecvTimeoutError, Sender};
use std::time::Duration;

/// How long one line may take.
const PATIENCE: Duration = Duration::from_secs(5);

#[derive(Clone, Debug, PartialEq, Eq)]
pub enum Outcome {
    Answer(Vec<i64>),
    /// why there is no answer, and what was noted before
    Trouble(Trouble, Vec<Notice>),
    Hangs,
}

impl Display for Outcome {
    fn fmt(&self, f: &mut Formatter) -> std::fmt::Result {
        match self {
            Outcome::Answer(answer) => write!(f, "{}", numbers(answer)),
            Outcome::Trouble(trouble, noted) if noted.is_empty() => write!(f, "{trouble}"),
            Outcome::Trouble(trouble, noted) => write!(f, "{trouble}; noted {}", numbers(&show::notices(noted))),
            Outcome::Hangs => write!(f, "hangs"),
        }
    }
}

/// What work sends, until it ends or one thing takes too long: then `late` is the last.
pub fn watched<T: Send + 'static>(late: T, work: impl FnOnce(Sender<T>) + Send + 'static) -> Vec<T> {
    let (sender, receiver) = channel();
    std::thread::spawn(move || work(sender));
    let mut found = vec![];
    loop {
        match receiver.recv_timeout(PATIENCE) {
            Ok(one) => found.push(one),
            Err(RecvTimeoutError::Disconnected) => return found,
            Err(RecvTimeoutError::Timeout) => {
                found.push(late);
                return found;
            }
        }
    }
}

/// The outcomes of lines in order; none after a line that hangs.
pub fn run(lines: Vec<Line>) -> Vec<Outcome> {
    watched(Outcome::Hangs, move |sender| {
        let mut driver = Driver::new(1, true);
        for line in &lines {
            let outcome = match driver.answer(line) {
                Ok(answer) => Outcome::Answer(answer),
                Err(trouble) => Outcome::Trouble(trouble, driver.notices()),
            };
            if sender.send(outcome).is_err() {
                return;
            }
        }
    })
}
