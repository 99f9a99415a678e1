//! `dual-ledger run`: a file of byte records run by the proved functions, its answers as `ledger` prints them.
use crate::args::Args;
use crate::input::Progress;
use crate::output::Answers;
use crate::pack::{bar, named, read, write, LARGE};
use crate::whole;
use dual_ledger::records::Records;
use dual_ledger::{runs::Four, Bench, Refusal};
use std::io::Write;
use std::path::Path;

/// So many answers are written between two looks at the clock.
const PIECE: usize = 1 << 15;

fn refused(name: &str, refusal: Refusal, why: &str) -> String {
    format!("{name}: {} {}: {why}", refusal.number(), refusal.name())
}

/// The bench that a file's words hold, 8 bytes each, low byte first.
fn bench_in(path: &Path) -> Result<Bench, String> {
    let name = named(path, "standard input");
    let bytes = read(path, &name)?;
    let words: Vec<u64> = bytes.chunks_exact(8).map(|word| u64::from_le_bytes(word.try_into().unwrap_or_default())).collect();
    let words = (bytes.len() % 8 == 0).then_some(words).and_then(|words| words.try_into().ok());
    let words: Box<dual_ledger::Words> = words.ok_or_else(|| refused(&name, Refusal::Broken, "it has not the bytes of a bench's words"))?;
    Bench::from_words(&words).map_err(|refusal| refused(&name, refusal, "its words hold no sound bench"))
}

fn print(answers: &[Four], out: &mut Answers) -> Result<(), String> {
    let mut progress = Progress::new(answers.len() >= LARGE / 16);
    let mut text = Vec::new();
    for (at, piece) in answers.chunks(PIECE).enumerate() {
        text.clear();
        for [number, serial, speed, sum] in piece {
            writeln!(text, "{number} {serial} {speed} {sum}").map_err(|trouble| trouble.to_string())?;
        }
        out.write(&text)?;
        progress.at(|| bar("answers", at * PIECE + piece.len(), Some(answers.len())));
    }
    progress.clear();
    Ok(())
}

pub fn run(args: &Args) -> Result<bool, String> {
    let name = named(&args.files[0], "standard input");
    let file = read(&args.files[0], &name)?;
    let mut bench = args.bench.as_deref().map_or_else(|| Ok(Bench::default()), bench_in)?;
    let records = Records::new(&file).map_err(|refusal| refused(&name, refusal, &whole::why(&file, refusal)))?;
    let mut answers: Vec<Four> = vec![[0; 4]; records.len()];
    bench.run(&file, &mut answers).map_err(|refusal| refused(&name, refusal, refusal.about()))?;
    let mut out = Answers::open(Path::new("-"))?;
    if let Err(why) = print(&answers, &mut out) {
        out.abandon();
        return Err(why);
    }
    out.finish()?;
    let Some(save) = &args.save else { return Ok(true) };
    write(save, &bench.words().iter().flat_map(|word| word.to_le_bytes()).collect::<Vec<u8>>())
}
