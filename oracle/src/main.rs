//! The commands.
use oracle::coverage::Coverage;
use oracle::generator::plans::{ALL, MIXED, TEXT};
use oracle::generator::Player;
use oracle::line::numbers;
use oracle::{ages, bare, recording, recordings, shots, text, timing};
use std::io::{stdin, stdout, Read, Write};
use std::process::exit;

const HELP: &str = "\
install       installs what is needed (apt-get); every other command says so where something is missing, and installs it only where CI is set
build         builds
test          the same, then all tests
record        makes recordings/ again, byte for byte, and prints what they cover
cover FILE    what a recording covers
compare FILE  the answers of the original and of the model to each call, and of the recording if it has them
bare FILE     each call by the original alone, refused or not: answers, panics, hangs
list          the fixed list of a million operations in shots, as text lines
time FILE     nanoseconds by kind of the operations in such a list (release build)
linked        the linked ledger beside the original and the model: `linked small`, `linked scale`, `linked play FILE`
bench         times of the original and the linked ledger in one run; makes docs/benchmark.svg
ages [COUNT]  `dual-ledger ages` beside the model, on so many generated records (1,000)
raw           text lines on standard input, answered by the original alone
text          text lines on standard input, answered as `ledger` is to answer them
lines PLAN COUNT SEED   lines of a plan: text and mixed are lines of the text program, the others of recordings";

fn input() -> Vec<u8> {
    let mut bytes = vec![];
    stdin().lock().read_to_end(&mut bytes).expect("standard input");
    bytes
}

fn print(out: &str) {
    stdout().lock().write_all(out.as_bytes()).expect("standard output");
}

fn fail(why: impl std::fmt::Display) -> ! {
    eprintln!("{why}");
    exit(1)
}

fn read(path: &str) -> String {
    std::fs::read_to_string(path).unwrap_or_else(|why| fail(format!("{path}: {why}")))
}

/// Prints each call whose answers differ (each call at all, with `all`), and how many were compared.
fn compare(path: &str, all: bool) {
    let (mut calls, mut refused, mut marked, mut differ) = (0, 0, 0, 0);
    let result = recording::replay(&read(path), |at, line, turn, written| {
        calls += 1;
        refused += !turn.is_accepted() as usize;
        marked += turn.mark.is_some() as usize;
        let answer = numbers(&turn.answer);
        let same = turn.agrees() && written.map_or(true, |w| w == answer);
        differ += !same as usize;
        if all || !same {
            let original = match &turn.original {
                None => "not asked".to_string(),
                Some(Ok(found)) => numbers(found),
                Some(Err(trouble)) => trouble.to_string(),
            };
            println!("{at}: {line}\n  original  {original}\n  model     {answer}");
            written.filter(|w| *w != answer).into_iter().for_each(|w| println!("  recorded  {w}"));
            turn.mark.into_iter().for_each(|mark| println!("  {mark}"));
        }
    });
    result.unwrap_or_else(|wrong| fail(format!("{path}: {wrong}")));
    println!("{calls} calls, {refused} refused, {marked} by the manual against the original, {differ} differ");
    exit((differ > 0) as i32)
}

fn bare(path: &str) {
    let file = read(path);
    let lines: Vec<(usize, &str)> = file.lines().enumerate().filter(|(_, line)| !line.is_empty() && !line.starts_with(['#', '='])).collect();
    let call = |(at, line): &(usize, &str)| oracle::line::read(line).unwrap_or_else(|why| fail(format!("{path}: line {}: {why}", at + 1)));
    for ((_, line), outcome) in lines.iter().zip(bare::run(lines.iter().map(call).collect())) {
        println!("{line}\n= {outcome}");
    }
}

fn record() {
    let here = std::path::Path::new(env!("CARGO_MANIFEST_DIR"));
    let scenes = |name: &str| read(&here.join("scenes").join(name).display().to_string());
    print!("{}", recordings::write(&here.join("recordings"), &scenes("edges.txt"), &scenes("marks.txt")).unwrap_or_else(|why| fail(why)));
}

fn cover(path: &str) {
    let mut coverage = Coverage::default();
    recordings::cover(&read(path), &mut coverage).unwrap_or_else(|why| fail(why));
    print!("{coverage}");
}

/// Lines of a plan; those of `text` are all accepted.
fn lines(name: &str, count: &str, seed: &str) {
    let number = |text: &str| text.parse::<u64>().unwrap_or_else(|_| fail(format!("`{text}` is no number")));
    let plan = ALL.into_iter().chain([TEXT, MIXED]).find(|plan| plan.name == name).unwrap_or_else(|| fail(format!("no plan `{name}`")));
    let mut player = Player::new(plan, number(seed));
    let mut out = std::io::BufWriter::new(stdout().lock());
    for _ in 0..number(count) {
        let line = if name == "text" { player.accepted() } else { player.line() };
        writeln!(out, "{line}").expect("standard output");
    }
}

fn main() {
    let arguments: Vec<String> = std::env::args().skip(1).collect();
    let words: Vec<&str> = arguments.iter().map(String::as_str).collect();
    match words[..] {
        ["compare", path] => compare(path, false),
        ["compare", "-a", path] => compare(path, true),
        ["record"] => record(),
        ["cover", path] => cover(path),
        ["lines", plan, count, seed] => lines(plan, count, seed),
        ["bare", path] => bare(path),
        ["list"] => print(&shots::list(1_000_000, 1)),
        ["time", path] => print(&timing::report(&read(path)).unwrap_or_else(|why| fail(why))),
        ["ages", command, count] => {
            let count = count.parse().unwrap_or_else(|_| fail(format!("`{count}` is no number")));
            print(&ages::compare(command, count).unwrap_or_else(|why| fail(why)))
        }
        ["raw"] => print(&text::raw(input()).into_iter().map(|answer| answer + "\n").collect::<String>()),
        ["text"] => print(&text::run(&input()).unwrap_or_else(|why| fail(why))),
        _ => fail(HELP),
    }
}
