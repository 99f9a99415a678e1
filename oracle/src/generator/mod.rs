//! The generator: a player that looks at the model and makes lines, by a plan that says which moves how often. Seeded.
mod groups;
pub mod moves;
pub mod plans;
mod reads;
pub mod rng;
mod wrong;

use crate::line::{read, Line};
use crate::model::bench::Handle;
use crate::model::Model;
use rng::Rng;

/// A way to make a line; none if it cannot be made as things are.
pub type Move = fn(&mut Player) -> Option<String>;

/// How a run is played.
#[derive(Clone, Copy)]
pub struct Plan {
    pub name: &'static str,
    pub about: &'static str,
    /// the interfaces used
    pub units: usize,
    /// vertices lie below this
    pub vertices: usize,
    /// the most members a circle gets as a rule
    pub circle: usize,
    /// how many touching pairs in a hundred may be of any nodes of the tree
    pub odd: usize,
    pub moves: &'static [(usize, Move)],
}

pub struct Player {
    pub rng: Rng,
    pub model: Model,
    pub plan: Plan,
    /// serials that were present once
    pub past: Vec<u32>,
}

impl Player {
    pub fn new(plan: Plan, seed: u64) -> Self {
        Player { rng: Rng::new(seed), model: Model::new(1), plan, past: vec![] }
    }

    /// The next line, and it is played.
    pub fn line(&mut self) -> String {
        loop {
            let made = self.choose()(self);
            if let Some(line) = made {
                self.play(&line);
                return line;
            }
        }
    }

    /// The next line that is accepted; refused ones are left out, and have changed nothing.
    pub fn accepted(&mut self) -> String {
        loop {
            let made = self.choose()(self);
            if let Some(line) = made {
                if self.play(&line) {
                    return line;
                }
            }
        }
    }

    fn choose(&mut self) -> Move {
        let total = self.plan.moves.iter().map(|(weight, _)| weight).sum();
        let mut at = self.rng.below(total);
        for (weight, choice) in self.plan.moves {
            if at < *weight {
                return *choice;
            }
            at -= weight;
        }
        unreachable!("below the total")
    }

    /// Answers the line by the model; whether it is accepted.
    pub fn play(&mut self, line: &str) -> bool {
        let call = read(line).unwrap_or_else(|why| panic!("{line}: {why}"));
        let next = self.model.bench.next;
        let number = self.model.answer(&call)[0];
        match call {
            Line::SetUp(_) => self.past.clear(),
            _ => self.past.extend((next..self.model.bench.next).map(|serial| serial as u32)),
        }
        number == 0
    }

    // ---- what there is

    pub fn tops(&self) -> Vec<usize> {
        (0..self.plan.units).filter(|unit| self.model.is_top(*unit)).collect()
    }

    /// An interface without a parent: mostly one whose tree has nodes.
    pub fn top(&mut self) -> usize {
        let tops = self.tops();
        let busy: Vec<usize> = tops.iter().copied().filter(|unit| !self.model.bench.present(*unit).is_empty()).collect();
        let from = if self.rng.chance(85) && !busy.is_empty() { busy } else { tops };
        self.rng.pick(&from).expect("there is always a top")
    }

    /// A tree's nodes without a parent.
    pub fn free(&self, unit: usize) -> Vec<Handle> {
        self.model.bench.present(unit).into_iter().filter(|h| self.model.bench.at(*h).parent.is_none()).collect()
    }

    pub fn has_room(&self, unit: usize) -> bool {
        !self.model.bench.faces[unit].is_full()
    }

    /// Any present node of the bench.
    pub fn node(&mut self) -> Option<u32> {
        let all: Vec<Handle> = (0..8).flat_map(|unit| self.model.bench.slots_of(unit)).collect();
        self.rng.pick(&all).map(|h| h.serial)
    }
}
