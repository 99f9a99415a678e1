//! The run over a file of byte records beside the same list by the original's bare calls and by single trusted calls, in one process; and a file of one operation.
use crate::bench::{once, Linked};
use dual_ledger::records::to_bytes;
use dual_ledger::runs::{run_lent, Four};
use dual_ledger::{lent, Bench};
use oracle::line::Line;
use oracle::timing::{keep, processor, whole, Original};

const PASSES: usize = 7;

pub fn table(text: &[u8], lines: &[Line]) -> Result<String, String> {
    let n = lines.len();
    let file = to_bytes(text).map_err(|why| format!("the list does not move: {why}"))?;
    let mut answers: Vec<Four> = vec![[0; 4]; n];
    let mut best = [f64::MAX; 4];
    for _ in 0..PASSES {
        let begin = processor();
        keep(Bench::default().run(&file, &mut answers).map_err(|why| why.to_string())?);
        let run = (processor() - begin) / n as f64;
        let mut words = Box::new(*Bench::default().words());
        let begin = processor();
        keep(run_lent(&mut words, &file, &mut answers).map_err(|why| why.to_string())?);
        let lent = (processor() - begin) / n as f64;
        let times = [whole(lines, Original::new(n, false, false)), whole(lines, Linked::new(n, false)), run, lent];
        best.iter_mut().zip(times).for_each(|(best, time)| *best = best.min(time));
    }
    let [original, single, run, any] = best;
    let one = to_bytes("G 0 0\n").map_err(|why| why.to_string())?;
    let mut words = Box::new(*Bench::default().words());
    let sound = once(|_| keep(lent::is_sound(&words)));
    let alone = once(|_| keep(run_lent(&mut words, &one, &mut answers).is_ok()));
    Ok(format!(
        "run of the list, ns an operation: original {original:.1}, single trusted calls {single:.1}, the run {run:.1}, on any words {any:.1}; {:.2} of the original's time\n\
         a file of one operation on any words: {alone:.1} ns, of which the sound test {sound:.1}\n",
        run / original
    ))
}
