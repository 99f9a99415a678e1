//! Files of byte records run whole, beside the same operations as single calls: of a bench, and of the original, the plain model and all forms of the linked
//! ledger. Every answer is compared, every word of the bench after a file, and what a refused run leaves.
use crate::ledger::{number, state};
use crate::runs::{Run, Sides};
use dual_ledger::runs::{run_lent, Four};
use dual_ledger::{Bench, Handle, Refusal};
use oracle::generator::Player;
use oracle::line::{read, Line};
use oracle::model::records as model;
use std::collections::HashMap;

#[derive(Default)]
pub struct Seen {
    pub operations: usize,
    files: usize,
    largest: usize,
    numbers: [usize; 29],
    pairs: usize,
}

impl std::fmt::Display for Seen {
    fn fmt(&self, f: &mut std::fmt::Formatter) -> std::fmt::Result {
        let refused: usize = self.numbers[1..].iter().sum();
        writeln!(f, "{} operations in {} files of up to {}, {} blossoms touching by others", self.operations, self.files, self.largest, self.pairs)?;
        let each: Vec<String> = self.numbers.iter().enumerate().skip(1).filter(|(_, n)| **n > 0).map(|(at, n)| format!("{at}: {n}")).collect();
        writeln!(f, "{refused} refused ({})", each.join(", "))
    }
}

/// Single calls of a bench, answered as a run answers.
struct Single {
    bench: Bench,
    nodes: HashMap<u32, Handle>,
}

impl Single {
    fn node(&self, serial: u32) -> Handle {
        self.nodes.get(&serial).copied().unwrap_or(Handle::from_word(u64::MAX))
    }

    fn four(&self, unit: u32, done: Result<u32, Refusal>) -> Four {
        let unit = unit as u8;
        let shown = |read: Result<i64, Refusal>| if number(&done) == 3 { 0 } else { read.unwrap_or(0) };
        let (speed, sum) = (shown(self.bench.sum_grow_speed(unit)), shown(self.bench.sum_dual_variables(unit)));
        [number(&done), done.unwrap_or(0) as i64, speed, sum]
    }

    fn made(&mut self, done: Result<Handle, Refusal>) -> Result<u32, Refusal> {
        done.map(|node| {
            self.nodes.insert(node.serial(), node);
            node.serial()
        })
    }

    fn answer(&mut self, line: &Line) -> Four {
        let (unit, done) = match line {
            Line::Defect(u, vertex) => {
                let made = self.bench.create_defect_node(*u as u8, *vertex);
                (*u, self.made(made))
            }
            Line::Blossom(u, members, pairs) => {
                let circle: Vec<Handle> = members.iter().map(|serial| self.node(*serial)).collect();
                let touching: Vec<[Handle; 2]> = pairs.iter().map(|(a, b)| [self.node(*a), self.node(*b)]).collect();
                let made = self.bench.create_blossom(*u as u8, &circle, &touching);
                (*u, self.made(made))
            }
            Line::Expand(u, serial) => (*u, self.bench.expand_blossom(*u as u8, self.node(*serial)).map(|()| *serial)),
            Line::SetState(u, serial, rate) => (*u, self.bench.set_grow_state(*u as u8, self.node(*serial), state(*rate)).map(|()| *serial)),
            Line::Grow(u, length) => (*u, self.bench.grow(*u as u8, *length).map(|()| 0)),
            Line::Fuse(p, l, r) => (*p, self.bench.fuse(*p as u8, *l as u8, *r as u8).map(|()| 0)),
            Line::Clear(u) => (*u, self.bench.clear(*u as u8).map(|()| 0)),
            Line::Check(u) => (*u, self.bench.sanity_check(*u as u8).map(|verdict| verdict.number() as u32)),
            other => unreachable!("{other:?} has no record"),
        };
        self.four(unit, done)
    }
}

/// The operation of a line, if it has a record.
pub fn operation(line: &Line) -> Option<Line> {
    let in_byte = |units: &[u32]| units.iter().all(|unit| *unit < 256);
    let fits = match line {
        Line::Defect(u, _) | Line::Grow(u, _) | Line::Clear(u) | Line::Check(u) => in_byte(&[*u]),
        Line::Blossom(u, members, pairs) => {
            let serials = members.iter().all(|serial| *serial > 0) && pairs.iter().all(|(a, b)| *a > 0 && *b > 0);
            in_byte(&[*u]) && serials && !members.is_empty() && (pairs.is_empty() || pairs.len() == members.len())
        }
        Line::Expand(u, serial) | Line::SetState(u, serial, _) => in_byte(&[*u]) && *serial > 0,
        Line::Fuse(p, l, r) => in_byte(&[*p, *l, *r]),
        _ => false,
    };
    (fits && model::spelled(line).len() < 1024).then(|| line.clone())
}

/// A file's operations, run whole from the bench before them.
fn whole(seen: &mut Seen, before: &Bench, lines: &[Line], wanted: &[Four], after: &Bench) -> Result<(), String> {
    let file = model::write(lines);
    let (mut bench, mut words) = (before.clone(), Box::new(*before.words()));
    let mut answers = vec![[77; 4]; lines.len() + 1];
    let mut lent = answers.clone();
    let counts = (bench.run(&file, &mut answers), run_lent(&mut words, &file, &mut lent));
    if counts != (Ok(lines.len()), Ok(lines.len())) {
        return Err(format!("a file of {} was answered {counts:?}", lines.len()));
    }
    if let Some(at) = (0..lines.len()).find(|at| answers[*at] != wanted[*at]) {
        return Err(format!("operation {at}, {:?}: run {:?}, single {:?}", lines[at], answers[at], wanted[at]));
    }
    if answers != lent || answers[lines.len()] != [77; 4] || bench != *after || *words != *after.words() {
        return Err("the run leaves another bench or slice".to_string());
    }
    if !lines.is_empty() {
        let (mut small, mut broken) = (vec![[5; 4]; lines.len() - 1], Box::new(*before.words()));
        if bench.run(&file, &mut small) != Err(Refusal::Small) || small.iter().any(|four| *four != [5; 4]) || bench != *after {
            return Err("a slice that is too short is not refused, or is written to".to_string());
        }
        broken[0] = 0;
        let refused = run_lent(&mut broken, &file, &mut small);
        let cut = run_lent(&mut broken, &file[1..], &mut small);
        if refused != Err(Refusal::Broken) || cut != Err(Refusal::File) || small.iter().any(|four| *four != [5; 4]) {
            return Err(format!("broken words are answered {refused:?}, and {cut:?} where the file is cut"));
        }
    }
    seen.files += 1;
    seen.operations += lines.len();
    seen.largest = seen.largest.max(lines.len());
    wanted.iter().for_each(|four| seen.numbers[four[0] as usize] += 1);
    seen.pairs += lines.iter().filter(|line| matches!(line, Line::Blossom(_, m, p) if p.iter().zip(m).any(|(p, m)| *p != (*m, *m)))).count();
    Ok(())
}

/// A run of the generator, cut into files of sizes by chance.
fn play(run: &Run, seen: &mut Seen) -> Result<(), String> {
    let mut player = Player::new(run.plan, run.seed);
    let (mut sides, mut single) = (Sides::default(), Single { bench: Bench::default(), nodes: HashMap::new() });
    let (mut before, mut lines, mut wanted) = (single.bench.clone(), vec![], vec![]);
    let mut size = run.seed as usize % 40;
    for _ in 0..run.lines {
        let line = read(&player.line()).expect("the generator makes lines of the language");
        if let Line::SetUp(first) = line {
            whole(seen, &before, &lines, &wanted, &single.bench)?;
            sides.turn(&line)?;
            single = Single { bench: Bench::new(first).unwrap_or_default(), nodes: HashMap::new() };
            (before, lines, wanted) = (single.bench.clone(), vec![], vec![]);
            continue;
        }
        let Some(line) = operation(&line) else { continue };
        let turn = sides.turn(&line).map_err(|why| format!("{line:?}: {why}"))?;
        let four = single.answer(&line);
        if turn.answer[0] != four[0] || single.bench.words() != &*sides.ledger.lent {
            return Err(format!("{line:?}: single calls differ"));
        }
        lines.push(line);
        wanted.push(four);
        if lines.len() > size {
            whole(seen, &before, &lines, &wanted, &single.bench)?;
            size = (size * 7 + 13) % [40, 400, 3][seen.files % 3];
            (before, lines, wanted) = (single.bench.clone(), vec![], vec![]);
        }
    }
    whole(seen, &before, &lines, &wanted, &single.bench)
}

/// Until there are so many operations.
pub fn compare(least: usize, seed: u64, nth: impl Fn(u64, u64) -> Run) -> Result<Seen, String> {
    let mut seen = Seen::default();
    let mut at = 0;
    while seen.operations < least {
        let run = nth(at, seed);
        play(&run, &mut seen).map_err(|why| format!("plan {}, seed {}: {why}", run.plan.name, run.seed))?;
        at += 1;
    }
    Ok(seen)
}
