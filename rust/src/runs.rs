//! A run over a whole file of byte records: the file is tested once, the bench once where its words are lent, and every operation is answered as its own call
//! would answer it.
use crate::linked::{runs, Words};
use crate::refusal::settled;
use crate::text::reply;
use crate::{Bench, Refusal, Reply};

/// What a run has for one operation: number, serial, speed and sum, as its text line is answered (docs/MANUAL.md, Answers).
pub type Four = [i64; 4];

/// The same by names. An entry that no run wrote may hold anything.
pub fn read(four: &Four) -> Reply {
    reply(four[0] as u8, four[1] as u64, four[2], four[3])
}

/// # Runs
impl Bench {
    /// Runs a file of byte records, operation by operation, without notices; the answers stand at the front of the slice, in order. A refused operation changes
    /// nothing, and the run goes on. Answers how many operations there were.
    ///
    /// ```
    /// use dual_ledger::{records, runs, Bench};
    ///
    /// # fn main() -> Result<(), dual_ledger::Refusal> {
    /// let file = records::to_bytes("D 0 3\nG 0 5\nE 0 1\nK 0\n")?;
    /// let (mut bench, mut answers) = (Bench::default(), [[0; 4]; 5]);
    /// assert_eq!(bench.run(&file, &mut answers)?, 4);
    /// assert_eq!(answers, [[0, 1, 1, 0], [0, 0, 1, 5], [10, 0, 1, 5], [0, 0, 1, 5], [0; 4]]);
    /// assert_eq!(runs::read(&answers[1]).sum, 5);
    /// # Ok(())
    /// # }
    /// ```
    ///
    /// # Errors
    /// [`File`](Refusal::File): the file is not whole. [`Small`](Refusal::Small): there is no room for an answer each. Then neither bench nor slice has changed.
    pub fn run(&mut self, file: &[u8], answers: &mut [Four]) -> Result<usize, Refusal> {
        let mut count = 0;
        settled(runs::run(&mut self.0, file, answers, &mut count), ())?;
        Ok(count)
    }
}

/// The same on words from anywhere, which are tested once.
///
/// # Errors
/// [`File`](Refusal::File), then [`Broken`](Refusal::Broken), then [`Small`](Refusal::Small): neither words nor slice have changed.
pub fn run_lent(words: &mut Words, file: &[u8], answers: &mut [Four]) -> Result<usize, Refusal> {
    let mut count = 0;
    settled(runs::run_any(words, file, answers, &mut count), ())?;
    Ok(count)
}
