//! The linked ledger beside the original and the plain model: comparison at scale, and the benchmark.
mod bench;
mod bench_groups;
mod bench_marks;
mod bench_present;
mod bench_recorded;
mod bench_records;
mod bench_runs;
mod bend;
mod damage;
mod damage_groups;
mod file_runs;
mod filling;
mod group_words;
mod groups;
mod iterative;
mod ledger;
mod nests;
mod openings;
mod patches;
mod pictures;
mod reads;
mod recorded;
mod records;
mod runs;
mod sparing;
mod table;
mod words;

use oracle::generator::plans::{ALL, MARKS, MIXED, TEXT};
use oracle::generator::Plan;
use runs::Run;
use std::process::exit;
use std::time::Instant;
use table::Table;

const HELP: &str = "\
linked small                              a part of a few seconds
linked scale [ACCEPTED REFUSED DAMAGED [SEED]]   until so many of each were compared; by default 10000000 1000000 1000000 1
linked pictures [COUNT [SEED]]            pictures beside the original's, until so many benches with check 0; by default 30000 1
linked records [COUNT [SEED]]             files of byte records, whole and spoiled, beside the model's reader, until so many; by default 1000000 1
linked runs [COUNT [SEED]]                files of byte records run whole, beside single calls and the original, until so many operations; by default 10000000 1
linked recordings [FOLDER..]              recordings as files of byte records, run whole beside what is recorded and the original
linked iterative [COUNT [SEED]]           growing against recordings of groups, beside the model and the original, so many; by default 1000000 1
linked patches [COUNT [SEED]]             two patches on one bench, so many pairs of runs; by default 2000 1
linked play FILE                          lines of a file by all three: the first difference, if there is one
linked steps                              times of growing against a recording, a step
linked moves LIST                         times of moving such a list to byte records and back, beside its run
linked times LIST                         times of its run as byte records, beside single calls and the original
bench LIST NUMBERS                        times of both sides in one run, over such a list; the same as numbers into a file";

fn fail(why: impl std::fmt::Display) -> ! {
    eprintln!("{why}");
    exit(1)
}

/// Plans in turn, eleven with `marks` twice, so that each meets all sixteen ways to begin: every other run short, with everything read after each line.
fn nth(at: u64, seed: u64) -> Run {
    let plans: Vec<Plan> = ALL.into_iter().chain([TEXT, MIXED, MARKS, MARKS]).collect();
    let each = at % 2 == 0;
    let seed = seed * 1_000_000_007 + at;
    let lines = if each { 12 + seed as usize % 37 } else { 150 + seed as usize % 451 };
    Run { plan: plans[(at / 2) as usize % plans.len()], seed, lines, each }
}

/// Shrinks a difference and stops.
fn differ(run: &Run, lines: Vec<String>, why: String) -> ! {
    println!("plan {}, seed {}: {why}", run.plan.name, run.seed);
    let least = if runs::difference(&lines, false).is_some() { runs::smallest(lines) } else { lines };
    println!("smallest input: {}", runs::difference(&least, false).unwrap_or(why));
    least.iter().for_each(|line| println!("  {line}"));
    exit(1)
}

/// Edges that runs of chance seldom meet: the whole case, P1 to P9, corners.
const EDGES: &str = include_str!("../../scenes/edges.txt");
/// The same of interfaces with modes.
const MARKED: &str = include_str!("../../scenes/marks.txt");

/// Compares the edges and the deepest nests, then runs until there are so many accepted, refused and damaged.
fn scale(accepted: usize, refused: usize, damaged: usize, seed: u64) {
    played(EDGES);
    played(MARKED);
    let asked = nests::compare().unwrap_or_else(|why| fail(why));
    println!("nests of {} links by calls and of {} by hand: {asked} reads", nests::BY_CALLS, nests::BY_HAND);
    println!("{}", filling::compare(seed).unwrap_or_else(|why| fail(why)));
    let (mut table, began, mut said) = (Table::default(), Instant::now(), 0);
    let mut at = 0;
    while table.accepted() < accepted || table.refused() < refused {
        let run = nth(at, seed);
        run.play(&mut table).unwrap_or_else(|(lines, why)| differ(&run, lines, why));
        at += 1;
        if began.elapsed().as_secs() / 60 > said {
            said = began.elapsed().as_secs() / 60;
            eprintln!("{said} min: {} accepted, {} refused", table.accepted(), table.refused());
        }
    }
    while table.damages() < damaged {
        let plan = *[MARKS].iter().chain(&ALL).nth(at as usize % (1 + ALL.len())).expect("one of the plans");
        damage::run(plan, seed + at, 400.min(damaged - table.damages()), &mut table).unwrap_or_else(|why| fail(why));
        at += 1;
    }
    while table.groups.values().sum::<usize>() < damaged / 4 {
        damage_groups::run(seed + at, 400, &mut table).unwrap_or_else(|why| fail(why));
        at += 1;
    }
    while table.drained.iter().sum::<usize>() < damaged / 4 {
        sparing::run(seed + at, 400, &mut table).unwrap_or_else(|why| fail(why));
        at += 1;
    }
    let grown = iterative::compare(damaged / 4, seed, nth).unwrap_or_else(|why| fail(why));
    print!("{table}{grown}no difference; {} s\n", began.elapsed().as_secs());
}

/// The lines of a text by all three, comments and recorded answers left out; how many.
fn played(text: &str) -> usize {
    let lines: Vec<&str> = text.lines().filter(|line| !line.is_empty() && !line.starts_with(['#', '='])).collect();
    runs::difference(&lines, true).into_iter().for_each(|why| fail(why));
    lines.len()
}

fn pictured(least: usize, seed: u64) {
    print!("{}no difference\n", pictures::compare(least, seed, nth).unwrap_or_else(|why| fail(why)));
}

fn recorded(least: usize, seed: u64) {
    print!("{}no difference\n", records::compare(least, seed).unwrap_or_else(|why| fail(why)));
}

fn ran(least: usize, seed: u64) {
    print!("{}no difference\n", file_runs::compare(least, seed, nth).unwrap_or_else(|why| fail(why)));
}

/// Where the recordings are, in which the scenes are too.
const RECORDINGS: &str = concat!(env!("CARGO_MANIFEST_DIR"), "/../recordings");

/// The texts of folders, but for benches written by hand, which no calls make.
fn replayed(folders: &[&str]) {
    let mut texts = vec![];
    for folder in folders {
        for entry in std::fs::read_dir(folder).unwrap_or_else(|why| fail(format!("{folder}: {why}"))).flatten() {
            let path = entry.path();
            if path.extension().is_some_and(|end| end == "txt") && !path.ends_with("damage.txt") {
                let text = std::fs::read_to_string(&path).unwrap_or_else(|why| fail(format!("{}: {why}", path.display())));
                texts.push((path.display().to_string(), text));
            }
        }
    }
    texts.sort();
    print!("{}no difference\n", recorded::compare(&texts).unwrap_or_else(|why| fail(why)));
}

fn iterated(least: usize, seed: u64) {
    print!("{}no difference\n", iterative::compare(least, seed, nth).unwrap_or_else(|why| fail(why)));
}

fn moved(path: &str) -> String {
    let text = std::fs::read(path).unwrap_or_else(|why| fail(format!("{path}: {why}")));
    bench_records::table(&text).unwrap_or_else(|why| fail(why))
}

fn patched(count: usize, seed: u64) {
    print!("{}no difference\n", patches::compare(count, seed).unwrap_or_else(|why| fail(why)));
}

fn timed(path: &str) -> String {
    let text = std::fs::read_to_string(path).unwrap_or_else(|why| fail(format!("{path}: {why}")));
    oracle::timing::read(&text).and_then(|lines| bench_runs::table(text.as_bytes(), &lines)).unwrap_or_else(|why| fail(why))
}

fn play(path: &str) {
    let text = std::fs::read_to_string(path).unwrap_or_else(|why| fail(format!("{path}: {why}")));
    println!("{} lines, no difference", played(&text));
}

fn main() {
    let arguments: Vec<String> = std::env::args().skip(1).collect();
    let words: Vec<&str> = arguments.iter().map(String::as_str).collect();
    let count = |text: &str| text.parse::<u64>().unwrap_or_else(|_| fail(format!("`{text}` is no number")));
    match words[..] {
        ["small"] => {
            scale(60_000, 6_000, 10_000, 1);
            pictured(2_000, 1);
            recorded(20_000, 1);
            ran(100_000, 1);
            replayed(&[RECORDINGS]);
            patched(60, 1)
        }
        ["scale"] => scale(10_000_000, 1_000_000, 1_000_000, 1),
        ["scale", accepted, refused, damaged] => scale(count(accepted) as usize, count(refused) as usize, count(damaged) as usize, 1),
        ["scale", accepted, refused, damaged, seed] => scale(count(accepted) as usize, count(refused) as usize, count(damaged) as usize, count(seed)),
        ["pictures"] => pictured(30_000, 1),
        ["pictures", least] => pictured(count(least) as usize, 1),
        ["pictures", least, seed] => pictured(count(least) as usize, count(seed)),
        ["records"] => recorded(1_000_000, 1),
        ["records", least] => recorded(count(least) as usize, 1),
        ["records", least, seed] => recorded(count(least) as usize, count(seed)),
        ["runs"] => ran(10_000_000, 1),
        ["runs", least] => ran(count(least) as usize, 1),
        ["runs", least, seed] => ran(count(least) as usize, count(seed)),
        ["recordings"] => replayed(&[RECORDINGS]),
        ["recordings", ref folders @ ..] => replayed(folders),
        ["iterative"] => iterated(1_000_000, 1),
        ["iterative", least] => iterated(count(least) as usize, 1),
        ["iterative", least, seed] => iterated(count(least) as usize, count(seed)),
        ["patches"] => patched(2_000, 1),
        ["patches", pairs] => patched(count(pairs) as usize, 1),
        ["patches", pairs, seed] => patched(count(pairs) as usize, count(seed)),
        ["play", path] => play(path),
        ["times", list] => print!("{}", timed(list)),
        ["steps"] => print!("{}", bench::table(&bench_recorded::rows())),
        ["moves", list] => print!("{}", moved(list)),
        ["bench", list, numbers] => bench::run(list, numbers).unwrap_or_else(|why| fail(why)),
        _ => fail(HELP),
    }
}
