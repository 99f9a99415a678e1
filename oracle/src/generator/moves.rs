//! Moves that change the bench, made to be accepted.
use super::Player;
use crate::model::bench::{Bench, Handle, PROGRESS};

impl Bench {
    /// An interface's own present nodes.
    pub fn slots_of(&self, unit: usize) -> Vec<Handle> {
        let handle = |(slot, serial): (usize, u32)| Handle { unit: unit as u32, slot: slot as u32, serial };
        let nodes = self.faces[unit].slots.iter().enumerate().filter_map(|(slot, node)| Some((slot, node.as_ref()?.serial)));
        nodes.map(handle).collect()
    }
}

pub fn serials(nodes: &[Handle]) -> String {
    nodes.iter().map(|h| format!(" {}", h.serial)).collect()
}

impl Player {
    pub fn defect(&mut self) -> Option<String> {
        let unit = if self.rng.chance(70) { self.top() } else { self.rng.pick(&self.tops())? };
        let vertex = self.rng.below(self.plan.vertices);
        Some(format!("D {unit} {vertex}")).filter(|_| self.has_room(unit))
    }

    /// A circle of nodes without parent, touching lists left empty or under the members.
    pub fn blossom(&mut self) -> Option<String> {
        let unit = self.top();
        let free = self.free(unit);
        if free.is_empty() || !self.has_room(unit) {
            return None;
        }
        let members = self.circle(&free);
        if self.rng.chance(50) && self.plan.odd == 0 || self.rng.chance(20) {
            return Some(format!("B {unit}{}", serials(&members)));
        }
        let triples: Vec<String> = members.iter().map(|m| format!(" {}{}", m.serial, self.touching(unit, *m))).collect();
        Some(format!("b {unit}{}", triples.concat()))
    }

    /// A few nodes, now and then as many as there are.
    fn circle(&mut self, free: &[Handle]) -> Vec<Handle> {
        let most = if self.rng.chance(2) { 64 } else { self.plan.circle };
        let count = 1 + self.rng.below(most);
        self.rng.some(free, count)
    }

    /// A circle of nodes without parent that a text line can say.
    pub fn plain_blossom(&mut self) -> Option<String> {
        let unit = self.top();
        let free = self.free(unit);
        let members = self.circle(&free);
        Some(format!("B {unit}{}", serials(&members))).filter(|line| !members.is_empty() && self.has_room(unit) && line.len() < 1024)
    }

    /// All nodes without parent that a circle can take.
    pub fn wide_blossom(&mut self) -> Option<String> {
        let unit = self.top();
        let free = self.free(unit);
        let members = self.rng.some(&free, 64);
        Some(format!("B {unit}{}", serials(&members))).filter(|line| members.len() > 8 && self.has_room(unit) && line.len() < 1024)
    }

    /// Two touching nodes of a member: itself, one under it, or now and then any of the tree, a blossom that may go sooner than others.
    fn touching(&mut self, unit: usize, member: Handle) -> String {
        let odd = self.rng.chance(if self.model.bench.at(member).is_defect() { self.plan.odd / 8 } else { self.plan.odd });
        let from = match odd {
            false => self.below(member),
            true if self.rng.chance(50) => self.free(unit).into_iter().filter(|h| !self.model.bench.at(*h).is_defect()).collect(),
            true => self.model.bench.present(unit),
        };
        let picked = [self.rng.pick(&from), self.rng.pick(&from)];
        serials(&picked.map(|h| h.unwrap_or(member)))
    }

    /// A node and all in its circles; of a defect itself.
    fn below(&self, h: Handle) -> Vec<Handle> {
        let inner = self.model.bench.at(h).circle().iter().flat_map(|member| self.below(member.node));
        std::iter::once(h).chain(inner).collect()
    }

    pub fn expand(&mut self) -> Option<String> {
        let unit = self.top();
        let blossoms: Vec<Handle> = self.free(unit).into_iter().filter(|h| !self.model.bench.at(*h).is_defect()).collect();
        Some(format!("E {unit} {}", self.rng.pick(&blossoms)?.serial))
    }

    /// Expands a blossom that is a touching node of another's member.
    pub fn bereave(&mut self) -> Option<String> {
        let unit = self.top();
        let bench = &self.model.bench;
        let touched = |h: &Handle| bench.present(unit).iter().flat_map(|b| bench.at(*b).circle()).any(|m| m.touch.contains(h) && m.node != *h);
        let blossoms: Vec<Handle> = self.free(unit).into_iter().filter(|h| !bench.at(*h).is_defect() && touched(h)).collect();
        Some(format!("E {unit} {}", self.rng.pick(&blossoms)?.serial))
    }

    pub fn state(&mut self) -> Option<String> {
        let unit = self.top();
        let free = self.free(unit);
        Some(format!("S {unit} {} {}", self.rng.pick(&free)?.serial, self.rng.between(-1, 1)))
    }

    pub fn grow(&mut self) -> Option<String> {
        let unit = self.top();
        let left = PROGRESS - self.model.bench.faces[unit].progress;
        let length = match self.rng.below(100) {
            0..=4 => 0,
            5..=79 => self.rng.between(1, 10),
            80..=96 => self.rng.between(11, 1000),
            97 => self.rng.between(0, left),
            98 => left,
            _ => self.rng.between(1000, 1_000_000),
        };
        Some(format!("G {unit} {}", self.floored(unit, length.min(left))))
    }

    /// In a floored tree mostly as far as its shrinking nodes allow, or one past it.
    fn floored(&mut self, unit: usize, length: i64) -> i64 {
        match self.model.bench.least_shrinking(unit).filter(|_| self.model.bench.faces[unit].floored) {
            Some(least) if self.rng.chance(80) => length.min(least + self.rng.chance(20) as i64),
            _ => length,
        }
    }

    /// Two trees under an interface above both that nothing was done in.
    pub fn fuse(&mut self) -> Option<String> {
        let tops = self.tops();
        let is_new = |unit: &usize| {
            let face = &self.model.bench.faces[*unit];
            face.slots.is_empty() && face.progress == 0 && face.children.is_none()
        };
        let parents: Vec<usize> = tops.iter().copied().filter(is_new).collect();
        let parent = self.rng.pick(&parents)?;
        let halves: Vec<usize> = tops.into_iter().filter(|unit| *unit < parent).collect();
        match self.rng.some(&halves, 2)[..] {
            [left, right] => Some(format!("F {parent} {left} {right}")),
            _ => None,
        }
    }

    /// An interface that can still be given a mode, mostly one that has it not.
    pub fn mark(&mut self) -> Option<String> {
        let is_new = |unit: &usize| self.model.bench.mode_number(*unit as u32) == 0;
        let all: Vec<usize> = self.tops().into_iter().filter(is_new).collect();
        let mode = 1 + self.rng.below(2);
        let has_it = |unit: &usize| [self.model.bench.faces[*unit].fills, self.model.bench.faces[*unit].floored][mode - 1];
        let unmarked: Vec<usize> = all.iter().copied().filter(|unit| !has_it(unit)).collect();
        let from = if self.rng.chance(90) { unmarked } else { all };
        Some(format!("P {} {mode}", self.rng.pick(&from)?))
    }

    pub fn clear(&mut self) -> Option<String> {
        Some(format!("C {}", self.top()))
    }

    /// Clears a tree where an interface is nearly full, else nothing.
    pub fn make_room(&mut self) -> Option<String> {
        let unit = self.top();
        let full = self.model.bench.tree(unit).into_iter().any(|below| self.model.bench.faces[below].free_slot() > 60);
        Some(format!("C {unit}")).filter(|_| full)
    }
}
