//! A text record moved to byte records and back, beside the run of the same text: megabytes of text a second, and nanoseconds a line. Processor time of the thread
//! that does it, system calls counted; all but the row of pipes is in memory.
use dual_ledger::records::{get_into, to_bytes, to_bytes_into, to_text_into, Records};
use dual_ledger::Session;
use oracle::timing::{keep, processor};
use std::fs::File;
use std::io::{Read, Write};
use std::os::fd::FromRawFd;

const PASSES: usize = 5;
/// Bytes that program `ledger` reads at a time (crates/text_console).
const PIECE: usize = 4096;

/// The two ends of a pipe.
fn pipe() -> (File, File) {
    let mut ends = [0; 2];
    assert_eq!(unsafe { libc::pipe(ends.as_mut_ptr()) }, 0, "no pipe");
    // SAFETY: both were just made, and nothing else has them
    unsafe { (File::from_raw_fd(ends[0]), File::from_raw_fd(ends[1])) }
}

/// What program `ledger` does, by the same engine: a text from a pipe piece by piece, and each piece's answers into another. The far ends are other threads',
/// whose time is not counted.
fn through_pipes(text: &[u8]) {
    let ((mut input, mut source), (mut drain, mut output)) = (pipe(), pipe());
    std::thread::scope(|scope| {
        scope.spawn(move || source.write_all(text).expect("the pipe takes it"));
        scope.spawn(move || keep(std::io::copy(&mut drain, &mut std::io::sink()).expect("the pipe gives it")));
        let (mut session, mut piece, mut answers) = (Session::new(), [0; PIECE], vec![]);
        loop {
            let got = input.read(&mut piece).expect("the pipe gives it");
            if got == 0 {
                break;
            }
            session.feed(&piece[..got], &mut answers);
            output.write_all(&answers).expect("the pipe takes it");
            answers.clear();
        }
        drop(output);
    });
}

/// The best of several passes, in nanoseconds of the processor.
fn best(mut pass: impl FnMut()) -> f64 {
    let timed = |pass: &mut dyn FnMut()| {
        let begin = processor();
        pass();
        processor() - begin
    };
    (0..PASSES).map(|_| timed(&mut pass)).fold(f64::MAX, f64::min)
}

/// A table over a text whose lines are of the grammar.
pub fn table(text: &[u8]) -> Result<String, String> {
    let lines = text.iter().filter(|byte| **byte == b'\n').count();
    let file = to_bytes(text).map_err(|why| format!("the list does not move: {why}"))?;
    let (mut bytes, mut back) = (vec![0; file.len()], vec![0; text.len()]);
    to_bytes_into(text, &mut bytes).and_then(|_| to_text_into(&file, &mut back)).map_err(|why| why.to_string())?;
    if bytes != file || back != text {
        return Err("moved there and back, the list is another".to_string());
    }
    let (mut answers, mut words) = (Vec::with_capacity(57 * lines), [0; 1533]);
    let rows = [
        (
            "run as text",
            best(|| {
                answers.clear();
                Session::new().feed(text, &mut answers);
                keep(answers.len());
            }),
        ),
        ("run through pipes", best(|| through_pipes(text))),
        ("text to bytes", best(|| keep(to_bytes_into(text, &mut bytes).unwrap_or(0)))),
        ("bytes to text", best(|| keep(to_text_into(&file, &mut back).unwrap_or(0)))),
        ("bytes tested", best(|| keep(Records::new(&file).map_or(0, |records| records.len())))),
        ("records by number", best(|| keep((0..lines).map(|at| get_into(&file, at, &mut words).unwrap_or(0)).sum::<usize>()))),
    ];
    let mut out = format!("{lines} lines, {} bytes of text, {} of byte records, there and back the same\n", text.len(), file.len());
    for (what, time) in rows {
        out += &format!("{what:20} {:>9.0} MB/s of text {:>9.1} ns a line\n", 1000.0 * text.len() as f64 / time, time / lines as f64);
    }
    Ok(out)
}
