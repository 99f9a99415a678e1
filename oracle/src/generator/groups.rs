//! Moves on obstacle groups.
use super::Player;
use crate::line::GROUPS;
use crate::model::groups::Group;

impl Player {
    fn group(&mut self) -> usize {
        self.rng.below(GROUPS)
    }

    /// Now and then one that is a growth, if there is one; else any.
    fn growing(&mut self, percent: usize) -> usize {
        let growths: Vec<usize> = (0..GROUPS).filter(|g| matches!(self.model.groups[*g], Group::Growth(..))).collect();
        let picked = self.rng.pick(&growths);
        let any = self.group();
        picked.filter(|_| self.rng.chance(percent)).unwrap_or(any)
    }

    pub fn new_group(&mut self) -> Option<String> {
        Some(format!("e {}", self.group()))
    }

    pub fn add_growth(&mut self) -> Option<String> {
        let length = match self.rng.below(20) {
            0 | 1 => i64::MAX,
            2 => self.rng.between(-9, 0),
            3 => self.rng.pick(&[i64::MIN, i64::MAX - 1, -1])?,
            _ => self.rng.between(1, 12),
        };
        Some(format!("g {} {length} {}", self.growing(60), self.rng.below(2)))
    }

    pub fn add_conflict(&mut self) -> Option<String> {
        let nodes = [self.node()?, self.node()?, self.node()?, self.node()?];
        Some(match self.rng.below(3) {
            0 => format!("c {} {} {} {} {}", self.group(), nodes[0], nodes[1], nodes[2], nodes[3]),
            1 => format!("w {} {} {} {} {}", self.group(), nodes[0], nodes[1], self.rng.below(self.plan.vertices), self.rng.below(2)),
            _ => format!("x {} {}", self.group(), nodes[0]),
        })
    }

    pub fn add_stop(&mut self) -> Option<String> {
        let nodes = [self.node()?, self.node()?, self.node()?];
        Some(if self.rng.chance(30) {
            format!("q {} {}", self.group(), nodes[0])
        } else {
            format!("r {} {} {} {}", self.group(), nodes[0], nodes[1], nodes[2])
        })
    }

    pub fn extend(&mut self) -> Option<String> {
        let percent = self.rng.pick(&[0, 90])?;
        Some(format!("j {} {}", self.growing(percent), self.growing(percent)))
    }

    pub fn take(&mut self) -> Option<String> {
        let letter = self.rng.pick(&["z", "z", "l"])?;
        Some(format!("{letter} {}", self.group()))
    }

    pub fn of_group(&mut self) -> Option<String> {
        let letter = self.rng.pick(&["y", "m"])?;
        Some(format!("{letter} {}", self.growing(40)))
    }
}
