//! Runs of generated lines by the original, the plain model and the linked ledger, compared in everything; a difference is shrunk to its smallest input.
use crate::ledger::Ledger;
use crate::openings;
use crate::table::Table;
use crate::words::encode;
use oracle::generator::{Plan, Player};
use oracle::line::{numbers, read, Line, Mode};
use oracle::model::Model;
use oracle::replay::{Replay, Turn};
use std::time::Instant;

/// The three of them, line by line.
pub struct Sides {
    pub replay: Replay,
    pub ledger: Ledger,
}

/// Whether a line may change the bench.
pub fn changes(line: &Line) -> bool {
    use Line::*;
    matches!(line, SetUp(_) | Defect(..) | Blossom(..) | Expand(..) | SetState(..) | Grow(..) | Fuse(..) | Clear(_) | Mark(..))
}

impl Default for Sides {
    fn default() -> Self {
        Sides { replay: Replay::default(), ledger: Ledger::new(1) }
    }
}

impl Sides {
    /// The linked ledger in an engine; each set-up changes it.
    pub fn in_engine(plain: bool) -> Self {
        let mut sides = Sides::default();
        if plain {
            sides.ledger = Ledger::plain(1);
            sides.replay.model.bench.plain = true;
        }
        sides
    }

    /// One line by all; an error says how they differ.
    pub fn turn(&mut self, line: &Line) -> Result<Turn, String> {
        let turn = self.replay.turn(line);
        if !turn.agrees() {
            return Err(format!("original {:?}, model {}", turn.original, numbers(&turn.answer)));
        }
        let answer = self.ledger.answer(line)?;
        self.replay.model.bench.plain = self.ledger.plain;
        if answer != turn.answer {
            return Err(format!("linked {}, the manual {}", numbers(&answer), numbers(&turn.answer)));
        }
        if changes(line) && encode(&self.replay.model.bench) != self.ledger.lent {
            return Err("the words are not those of the plain ledger's bench".to_string());
        }
        Ok(turn)
    }

    /// Every read of everything: each interface, each index, each present node, each group.
    pub fn everything(&mut self) -> Result<usize, String> {
        let lines = reads(&self.replay.model, self.ledger.groups.len());
        let ask = |line: &Line| self.turn(line).map(|_| ()).map_err(|why| format!("{line:?}: {why}"));
        lines.iter().try_for_each(ask)?;
        Ok(lines.len())
    }
}

/// The lines that read everything of a bench and of so many groups.
pub fn reads(model: &Model, groups: usize) -> Vec<Line> {
    let bench = &model.bench;
    let mut lines = vec![];
    for unit in (0..8).filter(|unit| model.is_top(*unit)) {
        let u = unit as u32;
        lines.extend([Line::Sum(u), Line::Speed(u), Line::Count(u), Line::Dump(u), Line::Check(u), Line::Strict(u)]);
        lines.extend([Line::Marked(u, Mode::Filling), Line::Marked(u, Mode::Floored)]);
        lines.extend((0..bench.slots(unit).len() as u32).map(|index| Line::HandleAt(u, index)));
        for h in bench.present(unit) {
            let s = h.serial;
            lines.extend([Line::Value(s), Line::Outer(s), Line::First(s), Line::Belongs(u, s), Line::Belongs(7, s)]);
            lines.push(Line::Vertices(s, bench.at(h).size as u32 + 1));
            lines.extend(bench.at(h).parent.map(|_| Line::Under(s)));
        }
    }
    lines.extend((0..groups).flat_map(|g| [Line::Asked(g), Line::Content(g)]));
    lines
}

/// A run: which plan, from which seed, how many lines, and whether everything is read after each.
#[derive(Clone, Copy)]
pub struct Run {
    pub plan: Plan,
    pub seed: u64,
    pub lines: usize,
    pub each: bool,
}

impl Run {
    /// Plays the run; a difference comes back with the lines up to it.
    pub fn play(&self, table: &mut Table) -> Result<(), (Vec<String>, String)> {
        let mut player = Player::new(self.plan, self.seed);
        let mut sides = Sides::in_engine(self.seed % 2 == 1);
        let mut said = vec![];
        let opening = openings::lines(&self.plan, self.seed, self.each);
        let lines = opening.len() + self.lines;
        table.runs[self.each as usize] += 1;
        for at in 0..lines {
            let line = opening.get(at).cloned().unwrap_or_else(|| player.line());
            if at < opening.len() {
                player.play(&line);
            }
            let call = read(&line).expect("the generator makes lines of the language");
            said.push(line);
            let before = table.wants_shapes(self.seed).then(|| sides.replay.model.clone());
            let turn = sides.turn(&call).map_err(|why| (said.clone(), why))?;
            table.see(&said[at], &call, before.as_ref(), &sides.replay.model, &turn);
            if self.each && at >= opening.len() || at + 1 == lines {
                table.reads += sides.everything().map_err(|why| (said.clone(), why))?;
            }
        }
        Ok(())
    }
}

/// These lines by all three, everything being read after the last: the model as they leave it, and how many reads.
pub fn agree<S: AsRef<str>>(lines: &[S]) -> Result<(Model, usize), String> {
    let mut sides = Sides::default();
    for line in lines {
        sides.turn(&read(line.as_ref())?).map_err(|why| format!("{}: {why}", line.as_ref()))?;
    }
    let asked = sides.everything()?;
    Ok((sides.replay.model, asked))
}

/// The first difference over these lines, everything being read after each, or after the last alone; from either engine.
pub fn difference<S: AsRef<str>>(lines: &[S], each: bool) -> Option<String> {
    [false, true].into_iter().find_map(|plain| difference_in(plain, lines, each))
}

fn difference_in<S: AsRef<str>>(plain: bool, lines: &[S], each: bool) -> Option<String> {
    let mut sides = Sides::in_engine(plain);
    let step = |(at, line): (usize, &S)| {
        let call = read(line.as_ref())?;
        let looks = each || at + 1 == lines.len();
        let seen = sides.turn(&call).and_then(|_| if looks { sides.everything() } else { Ok(0) });
        seen.map_err(|why| format!("{}: {why}", line.as_ref()))
    };
    lines.iter().enumerate().map(step).find_map(Result::err)
}

/// Fewer lines that still differ: parts are left out, halves first, single lines last, while they do. The fewest, unless it takes longer than half a minute.
pub fn smallest(mut lines: Vec<String>) -> Vec<String> {
    let began = Instant::now();
    let mut part = lines.len().div_ceil(2);
    while part > 0 {
        let mut at = 0;
        let was = lines.len();
        while at < lines.len() && began.elapsed().as_secs() < 30 {
            let without: Vec<String> = lines.iter().enumerate().filter(|(i, _)| *i < at || *i >= at + part).map(|(_, line)| line.clone()).collect();
            if difference(&without, false).is_some() {
                lines = without;
            } else {
                at += part;
            }
        }
        part = if part == 1 && lines.len() < was { 1 } else { part / 2 };
    }
    lines
}
