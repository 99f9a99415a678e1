//! The original and the model side by side: the model says what is accepted, the original answers it, and both must agree but for the
//! differences that the manual names. Refused lines are the model's alone: the original cannot say their numbers.
use crate::driver::{Answer, Driver};
use crate::line::{Line, GROUPS};
use crate::model::groups::Group;
use crate::model::Model;

/// Why an answer is the manual's and not the original's.
#[derive(Clone, Copy, Debug, PartialEq, Eq)]
pub enum Mark {
    /// a group holds a node of before a clear: the original uses its object for the next node
    ClearedInGroup,
    /// a group holds an expanded node: the original's check finds it and says 3 in place of 4
    GoneInGroup,
    /// an interface of the tree fills emptied slots: the original, which never does, has its nodes at other indices
    Filling,
}

impl std::fmt::Display for Mark {
    fn fmt(&self, f: &mut std::fmt::Formatter) -> std::fmt::Result {
        f.write_str(match self {
            Mark::ClearedInGroup => "the manual's answer: cleared node in a group",
            Mark::GoneInGroup => "the manual's answer: a group holds the gone node",
            Mark::Filling => "the manual's answer: emptied slots are filled",
        })
    }
}

/// One line answered.
pub struct Turn {
    /// the manual's answer
    pub answer: Vec<i64>,
    /// the original's, where the line is accepted
    pub original: Option<Answer>,
    pub mark: Option<Mark>,
}

impl Turn {
    pub fn is_accepted(&self) -> bool {
        self.answer[0] == 0
    }

    /// Both agree, or differ in a way that the manual names.
    pub fn agrees(&self) -> bool {
        self.mark.is_some() || self.original.as_ref().map_or(true, |original| original.as_ref() == Ok(&self.answer))
    }
}

pub struct Replay {
    pub model: Model,
    driver: Driver,
    /// groups that a clear reached, until they are made new
    cleared: [bool; GROUPS],
}

impl Default for Replay {
    fn default() -> Self {
        Replay { model: Model::new(1), driver: Driver::new(1, false), cleared: [false; GROUPS] }
    }
}

impl Replay {
    pub fn turn(&mut self, line: &Line) -> Turn {
        self.note(line);
        let answer = self.model.answer(line);
        if answer[0] != 0 {
            return self.refused(line, answer);
        }
        if let Line::Mark(..) | Line::Marked(..) = line {
            return Turn { answer, original: None, mark: None };
        }
        let original = self.driver.answer(line);
        let mark = if original.as_ref() == Ok(&answer) { None } else { self.excuse(line, &answer, &original) };
        Turn { answer, original: Some(original), mark }
    }

    /// Growing against a recording, by the model; accepted, by the original's `grow_iterative` over the groups that were taken and those past them, which it does
    /// not reach. Number and lengths, on which both agree.
    pub fn grow_recorded(&mut self, unit: u32, length: i64, groups: &[Option<Group>], room: usize) -> Result<(i64, Vec<i64>), String> {
        let (number, steps) = self.model.bench.grow_recorded(unit, length, groups, room);
        if number == 0 {
            let growth = |group: &Option<Group>| if let Some(Group::Growth(length, flag)) = group { Some((*length, *flag)) } else { None };
            let growths: Vec<Option<(i64, bool)>> = groups.iter().map(growth).collect();
            let original = self.driver.grow_iterative(unit, length, &growths);
            if original.as_ref() != Ok(&steps) {
                return Err(format!("original {original:?}, model {steps:?}"));
            }
        }
        Ok((number, steps))
    }

    /// The original's picture of an interface.
    pub fn snapshot(&self, unit: u32, abbrev: bool) -> Result<String, String> {
        self.driver.snapshot(unit, abbrev).map_err(|trouble| trouble.to_string())
    }

    /// The original's serials by index in a tree, 0 for an emptied slot.
    pub fn serials(&self, unit: u32) -> Vec<u32> {
        let slots = self.model.bench.tree(unit as usize).into_iter().flat_map(|below| self.driver.own(below));
        slots.map(|slot| slot.get(1).map_or(0, |serial| *serial as u32)).collect()
    }

    /// A refused set-up still hands out a bench, as from serial 1.
    fn refused(&mut self, line: &Line, answer: Vec<i64>) -> Turn {
        if let Line::SetUp(_) = line {
            self.driver = Driver::new(1, false);
        }
        Turn { answer, original: None, mark: None }
    }

    /// Which groups the line leaves with nodes of before a clear, or with what such nodes led to.
    fn note(&mut self, line: &Line) {
        match line {
            Line::SetUp(_) => self.cleared = [false; GROUPS],
            Line::NewGroup(g) => self.cleared[*g] = false,
            Line::Extend(g, other) => self.cleared[*g] |= self.cleared[*other],
            Line::Clear(unit) if self.model.is_top(*unit as usize) => {
                let tree = self.model.bench.tree(*unit as usize);
                for (group, cleared) in self.model.groups.iter().zip(&mut self.cleared) {
                    *cleared |= group.handles().iter().any(|h| tree.contains(&(h.unit as usize)));
                }
            }
            _ => {}
        }
    }

    fn excuse(&self, line: &Line, answer: &[i64], original: &Answer) -> Option<Mark> {
        match line {
            Line::Count(u) | Line::HandleAt(u, _) | Line::Dump(u) => Some(Mark::Filling).filter(|_| self.is_filled(*u) && self.same_places(*u)),
            Line::Check(u) if self.is_filled(*u) => self.same_findings(answer, original, 1, 2..4),
            Line::Strict(u) if self.is_filled(*u) => self.same_findings(answer, original, 1, 0..0),
            Line::Add(g, _) | Line::Extend(g, _) | Line::Asked(g) | Line::Pop(g) | Line::Peek(g) | Line::Content(g) => {
                Some(Mark::ClearedInGroup).filter(|_| self.cleared[*g])
            }
            Line::Check(_) => self.held(answer, original, 1, 4),
            Line::Strict(_) => self.held(answer, original, 1, 2),
            _ => None,
        }
    }

    fn is_filled(&self, unit: u32) -> bool {
        self.model.bench.has_filling(unit as usize)
    }

    /// Interfaces that fill no slots have the original's, one by one; the others the same present nodes.
    fn same_places(&self, unit: u32) -> bool {
        let present = |slots: Vec<Vec<i64>>| {
            let mut nodes: Vec<_> = slots.into_iter().filter(|slot| slot[0] != 0).collect();
            nodes.sort();
            nodes
        };
        self.model.bench.tree(unit as usize).into_iter().all(|below| {
            let (ours, theirs) = (self.model.own(below), self.driver.own(below));
            if self.model.bench.faces[below].fills {
                present(ours) == present(theirs)
            } else {
                ours == theirs
            }
        })
    }

    /// Both checks find something or neither does, and both the sum alone or neither: only which finding comes first goes by the index.
    fn same_findings(&self, answer: &[i64], original: &Answer, verdict: usize, also: std::ops::Range<usize>) -> Option<Mark> {
        let original = original.as_ref().ok()?;
        let kind = |of: &[i64]| if (1..=4).contains(&of[verdict]) { 1 } else { of[verdict] };
        Some(Mark::Filling).filter(|_| kind(answer) == kind(original) && answer[also.clone()] == original[also])
    }

    /// 4 by the manual and 3 by the original, same index, and a group that can hold a gone node.
    fn held(&self, answer: &[i64], original: &Answer, verdict: usize, index: usize) -> Option<Mark> {
        let original = original.as_ref().ok()?;
        let holds = |group: &crate::model::groups::Group| group.handles().iter().any(|h| self.model.bench.node(*h).is_none());
        let can_hold = self.cleared.contains(&true) || self.model.groups.iter().any(holds);
        let is_it = answer[verdict] == 4 && original[verdict] == 3 && answer[index] == original[index] && can_hold;
        Some(Mark::GoneInGroup).filter(|_| is_it)
    }
}
