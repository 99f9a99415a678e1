//! What lines cover: calls by number, verdicts, shapes. Fed with each call and the model before and after it.
use crate::line::Line;
use crate::model::bench::{Bench, Handle, PROGRESS};
use crate::model::groups::{Group, MOST};
use crate::model::Model;
use crate::replay::Turn;
use std::collections::BTreeMap;

#[derive(Default)]
pub struct Coverage {
    pub lines: usize,
    pub marked: usize,
    /// letter, then number, then how often
    pub calls: BTreeMap<String, BTreeMap<i64, usize>>,
    pub verdicts: BTreeMap<(&'static str, i64), usize>,
    pub shapes: BTreeMap<&'static str, usize>,
    pub deepest: usize,
    /// trees cleared whose interfaces are used again, by unit
    cleared: [bool; 8],
}

impl Coverage {
    pub fn see(&mut self, text: &str, call: &Line, before: &Model, after: &Model, turn: &Turn) {
        self.lines += 1;
        self.marked += turn.mark.is_some() as usize;
        let letter = text.split(' ').next().unwrap_or("").to_string();
        *self.calls.entry(letter).or_default().entry(turn.answer[0]).or_default() += 1;
        if turn.is_accepted() {
            self.verdict(call, &turn.answer);
            self.shape(call, &before.bench, after, &turn.answer);
        }
    }

    fn verdict(&mut self, call: &Line, answer: &[i64]) {
        match call {
            Line::Check(_) => *self.verdicts.entry(("plain", answer[1])).or_default() += 1,
            Line::Strict(_) => *self.verdicts.entry(("strict", answer[1])).or_default() += 1,
            _ => {}
        }
    }

    fn count(&mut self, shape: &'static str, holds: bool) {
        *self.shapes.entry(shape).or_default() += holds as usize;
    }

    fn shape(&mut self, call: &Line, before: &Bench, after: &Model, answer: &[i64]) {
        match call {
            Line::SetUp(_) => self.cleared = [false; 8],
            Line::Blossom(unit, members, touching) => {
                self.blossom(*unit as usize, members, touching, &after.bench);
                self.filled(*unit as usize, before);
            }
            Line::Expand(unit, serial) => self.expansion(*unit as usize, before.named(*serial), before),
            Line::Fuse(parent, left, right) => {
                let fused = |half: u32| before.faces[half as usize].children.is_some();
                self.count("fuse of fused trees", fused(*left) || fused(*right));
                self.count("tree of seven interfaces", after.bench.tree(*parent as usize).len() == 7);
                self.count("left half of higher number", left > right);
            }
            Line::Clear(unit) => {
                self.count("clear of a tree", before.faces[*unit as usize].children.is_some());
                before.tree(*unit as usize).into_iter().for_each(|below| self.cleared[below] = true);
            }
            Line::Defect(unit, _) => {
                self.count("defect after a clear", self.cleared[*unit as usize]);
                self.count("own node of a fused parent", before.faces[*unit as usize].children.is_some());
                self.filled(*unit as usize, before);
            }
            Line::Grow(unit, _) => self.growth(&after.bench, *unit as usize),
            Line::HandleAt(..) => self.count("emptied slot read", answer[1] == 0),
            Line::Add(g, _) | Line::Extend(g, _) => self.group(&after.groups[*g]),
            _ => {}
        }
    }

    fn blossom(&mut self, unit: usize, members: &[u32], touching: &[(u32, u32)], after: &Bench) {
        let homes: Vec<u32> = members.iter().map(|s| after.named(*s).unit).collect();
        self.count("circle of 1", members.len() == 1);
        self.count("circle of 64", members.len() == 64);
        self.count("blossom across halves", homes.iter().any(|home| *home != homes[0]));
        let place = |h: Handle| after.index(after.top(unit), h);
        let made = place(after.at(after.named(members[0])).parent.expect("a member has its blossom"));
        self.count("blossom before a member", members.iter().any(|s| made < place(after.named(*s))));
        self.count("touching node not the member", members.iter().zip(touching).any(|(m, (a, b))| a != m || b != m));
        let depth = members.iter().map(|s| after.vertex_depth(after.named(*s))).max().unwrap_or(0) + 1;
        self.count("nest of 10 or more", depth >= 10);
        self.deepest = self.deepest.max(depth);
        self.count("blossom in a tree of three or more", after.tree(unit).len() >= 3);
    }

    /// A node was made where one had gone; and what stands in which tree.
    fn filled(&mut self, unit: usize, before: &Bench) {
        let fills = |below: usize| before.faces[below].fills;
        self.count("emptied slot filled", before.faces[unit].free_slot() < before.faces[unit].slots.len());
        self.count("node made in a tree that fills in part", before.has_filling(unit) && !before.tree(unit).into_iter().all(fills));
    }

    fn expansion(&mut self, unit: usize, h: Handle, before: &Bench) {
        match before.faces[unit].children {
            None => self.count("expansion without halves", true),
            Some((left, right)) => {
                self.count("expansion in the left half", before.tree(left).contains(&(h.unit as usize)));
                self.count("expansion in the right half", before.tree(right).contains(&(h.unit as usize)));
                self.count("expansion above the halves", h.unit as usize == unit);
            }
        }
        self.count("expansion of a value not 0", before.at(h).value != 0);
        self.count("expansion of a shrinking blossom", before.at(h).state == -1);
    }

    fn growth(&mut self, after: &Bench, unit: usize) {
        self.count("progress of 2^40", after.faces[unit].progress == PROGRESS);
        self.count("sum below 0", after.faces[unit].sum < 0);
        self.count("value below 0", after.present(unit).into_iter().any(|h| after.at(h).value < 0));
        self.count("growth of a fused tree", after.faces[unit].children.is_some());
        self.count("growth of a floored tree", after.faces[unit].floored);
        self.count("growth to the floor", after.faces[unit].floored && after.least_shrinking(unit) == Some(0));
    }

    fn group(&mut self, group: &Group) {
        if let Group::Conflicts { list, stops } = group {
            self.count("list of 128", list.len() == MOST);
            self.count("128 stops", stops.len() == MOST);
        }
    }
}

impl Bench {
    /// How many blossoms lie in one another below and with a node.
    fn vertex_depth(&self, h: Handle) -> usize {
        let inner = self.at(h).circle().iter().map(|member| self.vertex_depth(member.node)).max();
        inner.map_or(0, |depth| depth + 1)
    }
}

impl std::fmt::Display for Coverage {
    fn fmt(&self, f: &mut std::fmt::Formatter) -> std::fmt::Result {
        writeln!(f, "{} lines, {} by the manual against the original", self.lines, self.marked)?;
        writeln!(f, "calls by number (0: accepted):")?;
        for (letter, numbers) in &self.calls {
            let each: Vec<String> = numbers.iter().map(|(number, count)| format!("{number}: {count}")).collect();
            writeln!(f, "  {letter}  {}", each.join(", "))?;
        }
        writeln!(f, "verdicts:")?;
        for ((check, verdict), count) in &self.verdicts {
            writeln!(f, "  {check} {verdict}: {count}")?;
        }
        writeln!(f, "shapes:")?;
        for (shape, count) in &self.shapes {
            writeln!(f, "  {shape}: {count}")?;
        }
        writeln!(f, "  blossoms in one another: up to {}", self.deepest)
    }
}
