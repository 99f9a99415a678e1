//! How runs begin: most from a new bench; some with few serials left, with a full interface, with many free nodes, or in the largest tree; some with full groups;
//! some with interfaces that fill emptied slots, some with floored ones.
use oracle::generator::rng::Rng;
use oracle::generator::Plan;

/// The lines before those of the plan. The largest tree is for plans over all interfaces, and for runs that are compared at their end.
pub fn lines(plan: &Plan, seed: u64, each: bool) -> Vec<String> {
    let mut rng = Rng::new(seed);
    let marked = match rng.below(5) {
        0 => marks(rng.next(), 1),
        1 => floors(&mut rng),
        _ => vec![],
    };
    [marked, unmarked(plan, seed, each)].concat()
}

/// Interfaces by the bits of a number. (A set-up among the lines after them ends the marks, and so do clears.)
fn marks(bits: u64, mode: u8) -> Vec<String> {
    (0..8).filter(|unit| bits >> unit & 1 == 1).map(|unit| format!("P {unit} {mode}")).collect()
}

/// All interfaces floored in every other run, so that they can be fused; else some, where fuses are refused. Some of both fill emptied slots.
fn floors(rng: &mut Rng) -> Vec<String> {
    let floored = if rng.chance(50) { u64::MAX } else { rng.next() };
    let filling = if rng.chance(50) { 0 } else { rng.next() };
    [marks(floored, 2), marks(filling, 1)].concat()
}

fn unmarked(plan: &Plan, seed: u64, each: bool) -> Vec<String> {
    match seed / 2 % 16 {
        3 => vec![format!("N {}", u32::MAX - (seed / 32 % 24) as u32)],
        4 => vec![format!("N {}", [0u32, 1, 2, 1 << 31, 77][seed as usize / 32 % 5])],
        6 => [defects(0, 64), ["D 0 9999", "B 0 1 2", "B 0 3", "E 0 65"].map(String::from).to_vec()].concat(),
        7 if !each => [defects(0, 40), defects(1, 40), vec!["F 2 0 1".to_string(), numbered("B 2", 1..65)]].concat(),
        8 if !each && plan.units == 8 => largest(),
        9 if !each && plan.name == "groups" => full_groups(),
        _ => vec![],
    }
}

/// A line and the numbers after it.
fn numbered(line: &str, numbers: std::ops::Range<u32>) -> String {
    numbers.fold(line.to_string(), |line, number| format!("{line} {number}"))
}

/// A group of as many stops as there can be, one of as long a list, and both past that.
fn full_groups() -> Vec<String> {
    let stops = (1..131).map(|serial| format!("q 0 {serial}"));
    let list = (0..130).map(|at| format!("x 1 {}", 1 + at % 9));
    let joined = ["j 2 0", "j 2 1", "j 0 1", "j 1 0", "r 0 7 8 9", "r 0 7 9 9", "z 0", "z 1"].map(String::from);
    [defects(0, 64), defects(1, 64), defects(2, 6)].concat().into_iter().chain(stops).chain(list).chain(joined).collect()
}

fn defects(unit: u32, count: u32) -> Vec<String> {
    (0..count).map(|at| format!("D {unit} {}", 1000 * unit + at)).collect()
}

/// Seven interfaces in one tree, each with 60 nodes.
fn largest() -> Vec<String> {
    let mut lines: Vec<String> = (0..4).flat_map(|unit| defects(unit, 60)).collect();
    for (parent, left, right) in [(4, 0, 1), (5, 2, 3), (6, 4, 5)] {
        lines.push(format!("F {parent} {left} {right}"));
        lines.extend(defects(parent, 60));
    }
    lines
}
