//! The groups of the linked ledger, as numbers. A refused call must leave every word of the group as it was.
use crate::ledger::{number, Answer, Ledger};
use dual_ledger::{Group, Handle, Obstacle};
use oracle::line::{self, Line};
use oracle::show;

fn told(o: line::Obstacle<Handle>) -> Obstacle {
    match o {
        line::Obstacle::Growth(length, flag) => Obstacle::NonZeroGrow(length, flag),
        line::Obstacle::Conflicting(p, q) => Obstacle::Conflicting(p, q),
        line::Obstacle::Virtual(p, vertex, mirror) => Obstacle::TouchingVirtual(p, (vertex, mirror)),
        line::Obstacle::NeedExpand(node) => Obstacle::BlossomNeedExpand(node),
        line::Obstacle::Stop(node, pair) => Obstacle::VertexShrinkStop(node, pair),
    }
}

fn heard(o: Obstacle) -> line::Obstacle<u32> {
    let pair = |(a, b): (Handle, Handle)| (a.serial(), b.serial());
    match o {
        Obstacle::NonZeroGrow(length, flag) => line::Obstacle::Growth(length, flag),
        Obstacle::Conflicting(p, q) => line::Obstacle::Conflicting(pair(p), pair(q)),
        Obstacle::TouchingVirtual(p, (vertex, mirror)) => line::Obstacle::Virtual(pair(p), vertex, mirror),
        Obstacle::BlossomNeedExpand(node) => line::Obstacle::NeedExpand(node.serial()),
        Obstacle::VertexShrinkStop(node, with) => line::Obstacle::Stop(node.serial(), with.map(pair)),
    }
}

fn content(group: &Group) -> show::Group {
    match group.growth() {
        Some((length, flag)) => show::Group::Growth(length, flag),
        None => show::Group::Conflicts(group.list().map(heard).collect(), group.stops().map(|(vertex, o)| (vertex as i64, heard(o))).collect()),
    }
}

impl Ledger {
    pub fn regroup(&mut self, line: &Line) -> Answer {
        Ok(match line {
            Line::NewGroup(g) => {
                self.groups[*g] = Group::default();
                vec![0]
            }
            Line::Add(g, o) => {
                let obstacle = told(o.named(|s| Some(self.handle(*s))).expect("each serial has a handle"));
                let before = self.groups[*g].clone();
                let found = number(&self.groups[*g].add(&self.trusted, obstacle));
                self.kept(*g, &before, found)?
            }
            Line::Extend(g, other) => {
                let (before, other) = (self.groups[*g].clone(), self.groups[*other].clone());
                let found = number(&self.groups[*g].extend(&self.trusted, &other));
                self.kept(*g, &before, found)?
            }
            Line::Pop(g) => {
                let before = self.groups[*g].clone();
                let popped = self.groups[*g].pop();
                let found = self.kept(*g, &before, number(&popped))?;
                [found, show::taken(popped.ok().flatten().map(heard).as_ref())].concat()
            }
            Line::Peek(g) => {
                let top = self.groups[*g].peek();
                [vec![number(&top)], show::taken(top.ok().flatten().map(heard).as_ref())].concat()
            }
            Line::Asked(g) => {
                let group = &self.groups[*g];
                let growth = group.get_none_zero_growth();
                let length = growth.ok().flatten();
                vec![0, group.is_empty() as i64, group.is_active() as i64, number(&growth), length.is_some() as i64, length.unwrap_or(0)]
            }
            Line::Content(g) => [vec![0], show::group(&content(&self.groups[*g]))].concat(),
            _ => unreachable!("{line:?} is no group's"),
        })
    }

    /// The number of a call on a group that it leaves sound, and as it was where refused.
    fn kept(&self, g: usize, before: &Group, number: i64) -> Answer {
        if number != 0 && before.words() != self.groups[g].words() {
            return Err(format!("refused by {number}, but the group has changed"));
        }
        Group::from_words(self.groups[g].words()).map_err(|why| format!("the group after the call: {why}"))?;
        Ok(vec![number])
    }
}
