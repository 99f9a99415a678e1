//! Obstacle groups of the original: four of them, added to, extended, popped and shown.
use super::{Answer, Driver, Trouble};
use crate::line::{Line, Obstacle};
use crate::panics::caught;
use crate::show::{self, Group};
use original::dual_module::{DualNodePtr, GroupMaxUpdateLength, MaxUpdateLength};

/// The original's obstacle of one over its nodes.
fn told(o: Obstacle<DualNodePtr>) -> MaxUpdateLength {
    match o {
        Obstacle::Growth(length, flag) => MaxUpdateLength::NonZeroGrow((length as isize, flag)),
        Obstacle::Conflicting(p, q) => MaxUpdateLength::Conflicting(p, q),
        Obstacle::Virtual(p, vertex, mirror) => MaxUpdateLength::TouchingVirtual(p, (vertex as usize, mirror)),
        Obstacle::NeedExpand(node) => MaxUpdateLength::BlossomNeedExpand(node),
        Obstacle::Stop(node, pair) => MaxUpdateLength::VertexShrinkStop((node, pair)),
    }
}

/// And back.
fn heard(o: &MaxUpdateLength) -> Obstacle<DualNodePtr> {
    match o.clone() {
        MaxUpdateLength::NonZeroGrow((length, flag)) => Obstacle::Growth(length as i64, flag),
        MaxUpdateLength::Conflicting(p, q) => Obstacle::Conflicting(p, q),
        MaxUpdateLength::TouchingVirtual(p, (vertex, mirror)) => Obstacle::Virtual(p, vertex as u32, mirror),
        MaxUpdateLength::BlossomNeedExpand(node) => Obstacle::NeedExpand(node),
        MaxUpdateLength::VertexShrinkStop((node, pair)) => Obstacle::Stop(node, pair),
    }
}

impl Driver {
    pub(super) fn group_turn(&mut self, line: &Line) -> Answer {
        match line {
            Line::NewGroup(g) => self.groups[*g] = GroupMaxUpdateLength::new(),
            Line::Add(g, o) => {
                if let Some(gone) = o.nodes().into_iter().find(|s| self.node(**s).is_err()) {
                    return Err(Trouble::Gone(*gone));
                }
                let obstacle = o.named(|s| self.node(*s).ok()).map(told);
                self.groups[*g].add(obstacle.expect("each node was found"));
            }
            Line::Extend(g, other) => {
                let other = self.groups[*other].clone();
                other.update();
                self.groups[*g].extend(other);
            }
            Line::Asked(g) => return Ok(self.asked(&self.groups[*g])),
            Line::Pop(g) => {
                let popped = self.groups[*g].pop();
                return Ok([vec![0], show::taken(popped.map(|o| self.shown(&o)).as_ref())].concat());
            }
            Line::Peek(g) => {
                let top = self.groups[*g].peek().map(|o| self.shown(o));
                return Ok([vec![0], show::taken(top.as_ref())].concat());
            }
            Line::Content(g) => return Ok([vec![0], show::group(&self.content(*g))].concat()),
            _ => unreachable!("{line:?} is no group's"),
        }
        Ok(vec![0])
    }

    fn shown(&self, o: &MaxUpdateLength) -> Obstacle<u32> {
        heard(o).named(|node| Some(self.nodes.serial_of(node))).expect("each node has a name")
    }

    /// Whether it is empty, whether active, and its growth: a panic there stands for NOTHING, unless the driver is bare.
    fn asked(&self, group: &GroupMaxUpdateLength) -> Vec<i64> {
        let ask = || group.get_none_zero_growth();
        let growth = match if self.bare { Ok(ask()) } else { caught(ask) } {
            Err(_) => [21, 0, 0],
            Ok(None) => [0, 0, 0],
            Ok(Some(length)) => [0, 1, length as i64],
        };
        [vec![0, group.is_empty() as i64, group.is_active() as i64], growth.to_vec()].concat()
    }

    fn content(&self, g: usize) -> Group {
        match &self.groups[g] {
            GroupMaxUpdateLength::NonZeroGrow((length, flag)) => Group::Growth(*length as i64, *flag),
            GroupMaxUpdateLength::Conflicts((list, stops)) => {
                let list = list.iter().map(|o| self.shown(o)).collect();
                Group::Conflicts(list, stops.iter().map(|(vertex, o)| (*vertex as i64, self.shown(o))).collect())
            }
        }
    }
}
