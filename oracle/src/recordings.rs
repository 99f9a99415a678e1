//! The recordings of the repository: one for each plan, the edges, the limits, and the text program's input and output. All seeded.
use crate::coverage::Coverage;
use crate::generator::plans::{self, ALL};
use crate::generator::{Plan, Player};
use crate::line::read;
use crate::recording::record;
use crate::replay::Replay;
use crate::{pairs, scenes, text};
use std::path::Path;

/// How many answers of each plan, and how long a run is.
const SIZES: [(&str, usize, usize); 7] = [
    ("calls", 3_600, 120),
    ("trees", 4_200, 140),
    ("nests", 2_700, 100),
    ("groups", 5_200, 150),
    ("refusals", 4_200, 160),
    ("reads", 6_500, 180),
    ("verdicts", 6_000, 160),
];

/// The calls of a plan: runs from set-up, each from a seed of its own.
pub fn calls(plan: Plan, answers: usize, longest: usize, seed: u64) -> String {
    let mut out = String::new();
    let mut left = answers;
    for run in 0.. {
        if left == 0 {
            break;
        }
        let mut player = Player::new(plan, seed + run);
        let length = (longest / 3 + player.rng.below(longest)).min(left.saturating_sub(1));
        let lines: Vec<String> = (0..length).map(|_| player.line()).collect();
        out.push_str("N 1\n");
        lines.iter().for_each(|line| out.push_str(&format!("{line}\n")));
        left -= length + 1;
    }
    out
}

fn head(name: &str, about: &str) -> String {
    format!("# {name}: {about}\n# made by `oracle record`; the lines are described in oracle/README.md\n")
}

/// Each recording's name and its calls with comments.
pub fn all(edges: &str, marks: &str) -> Vec<(&'static str, String)> {
    let mut found = vec![("edges", head("edges", "the whole case of the manual, P1 to P9, and corners") + edges)];
    for (at, plan) in ALL.iter().enumerate() {
        let (_, answers, longest) = SIZES.iter().find(|(name, ..)| *name == plan.name).expect("each plan has a size");
        found.push((plan.name, head(plan.name, plan.about) + &calls(*plan, *answers, *longest, 1_000 * (at as u64 + 1))));
    }
    found.push(("pairs", head("pairs", "every number a call can be refused by, alone and beside each other that can apply") + &pairs::lines()));
    found.push(("limits", head("limits", "straight to the limits") + &scenes::limits()));
    found.push(("marks", head("marks", plans::MARKS.about) + marks + &calls(plans::MARKS, 1_800, 180, 90_000)));
    found
}

/// The text program's input: lines accepted and refused, lines that are none, overlong ones, and a last one without newline.
pub fn text_input(count: usize, seed: u64) -> Vec<u8> {
    let mut player = Player::new(plans::MIXED, seed);
    let mut out = vec![];
    for _ in 0..count {
        let line = player.line();
        if player.rng.chance(12) {
            out.extend(scenes::spoiled(&line, &mut player.rng));
            out.push(b'\n');
        }
        out.extend(line.bytes().chain([b'\n']));
    }
    for length in [1023, 1024, 2048] {
        out.extend(vec![b'x'; length]);
        out.push(b'\n');
    }
    out.extend([vec![b'y'; 1024], b"D 0 5\n".to_vec(), b"K 0\nD 0 5".to_vec()].concat());
    out
}

/// Writes them all; the coverage of what was written.
pub fn write(folder: &Path, edges: &str, marks: &str) -> Result<Coverage, String> {
    let put = |path: &str, bytes: &[u8]| std::fs::write(folder.join(path), bytes).map_err(|why| format!("{path}: {why}"));
    let mut coverage = Coverage::default();
    for (name, lines) in all(edges, marks) {
        put(&format!("{name}.txt"), record(&lines).map_err(|wrong| format!("{name}: {wrong}"))?.as_bytes())?;
        cover(&lines, &mut coverage)?;
    }
    std::fs::create_dir_all(folder.join("text")).map_err(|why| why.to_string())?;
    let input = text_input(2_000, 77);
    put("text/in.txt", &input)?;
    put("text/out.txt", text::run(&input)?.as_bytes())?;
    Ok(coverage)
}

/// Counts what lines cover.
pub fn cover(lines: &str, coverage: &mut Coverage) -> Result<(), String> {
    let mut both = Replay::default();
    for line in lines.lines().filter(|line| !line.is_empty() && !line.starts_with('#') && !line.starts_with('=')) {
        let call = read(line)?;
        let before = both.model.clone();
        let turn = both.turn(&call);
        coverage.see(line, &call, &before, &both.model, &turn);
    }
    Ok(())
}
