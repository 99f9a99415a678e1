//! A sound bench and a sound group, rule by rule; calls over anything else are BROKEN. Nothing the model makes breaks a rule.
use super::bench::{Bench, Class, Face, Handle, Node, FACES, MEMBERS, PROGRESS, SLOTS, WORN};
use super::groups::{Group, MOST};
use crate::line::Obstacle;
use std::collections::HashSet;

/// A rule's name, and whether it holds.
type Rule = (&'static str, bool);

fn first_broken(rules: impl IntoIterator<Item = Rule>) -> Option<&'static str> {
    rules.into_iter().find(|(_, holds)| !holds).map(|(name, _)| name)
}

impl Bench {
    pub fn is_sound(&self) -> bool {
        self.broken_rule().is_none()
    }

    /// The first rule that the bench breaks. Rules come in an order in which those before make it safe to ask those after.
    pub fn broken_rule(&self) -> Option<&'static str> {
        first_broken([("next serial", (1..=WORN).contains(&self.next)), ("eight interfaces", self.faces.len() == FACES)])
            .or_else(|| self.faces.iter().enumerate().find_map(|(unit, face)| self.broken_face(unit, face)))
            .or_else(|| first_broken([("serials", self.serials_differ())]))
            .or_else(|| (0..FACES).filter(|unit| self.faces[*unit].parent.is_none()).find_map(|unit| self.broken_top(unit)))
    }

    fn broken_face(&self, unit: usize, face: &Face) -> Option<&'static str> {
        let linked = |half: usize| half < unit && self.faces[half].parent == Some(unit);
        let is_half_of = |parent: usize| self.faces.get(parent).and_then(|p| p.children).map_or(false, |(l, r)| l == unit || r == unit);
        first_broken([
            ("used slots", face.slots.len() <= SLOTS),
            ("progress", (0..=PROGRESS).contains(&face.progress)),
            ("halves", face.children.map_or(true, |(left, right)| left != right && linked(left) && linked(right))),
            ("parent's halves", face.parent.map_or(true, is_half_of)),
            ("one floor in a tree", face.parent.and_then(|parent| self.faces.get(parent)).map_or(true, |top| top.floored == face.floored)),
        ])
    }

    fn serials_differ(&self) -> bool {
        let mut seen = HashSet::new();
        let nodes = self.faces.iter().flat_map(|face| face.slots.iter().flatten());
        nodes.into_iter().all(|node| node.serial >= 1 && (node.serial as u64) < self.next && seen.insert(node.serial))
    }

    /// Progress of an interface and of all below it.
    fn reach(&self, unit: usize) -> i64 {
        self.tree(unit).into_iter().map(|below| self.faces[below].progress).sum()
    }

    fn broken_top(&self, unit: usize) -> Option<&'static str> {
        let reach = self.reach(unit);
        let present = self.present(unit);
        let speed: i64 = present.iter().map(|h| self.at(*h).state).sum();
        first_broken([
            ("speed", self.faces[unit].speed == speed),
            ("sum", self.faces[unit].sum.unsigned_abs() <= 512 * reach as u64),
            ("values", present.iter().all(|h| self.at(*h).value.abs() <= reach)),
            ("values above the floor", !self.faces[unit].floored || present.iter().all(|h| self.at(*h).value >= 0)),
        ])
        .or_else(|| present.into_iter().find_map(|h| self.broken_node(unit, h)))
    }

    fn broken_node(&self, top: usize, h: Handle) -> Option<&'static str> {
        let node = self.at(h);
        let size_and_circle = match &node.class {
            Class::Defect(_) => first_broken([("a defect's size", node.size == 1)]),
            Class::Blossom(_) => self.broken_circle(top, h, node),
        };
        size_and_circle.or_else(|| self.broken_parent(top, h, node, node.parent?))
    }

    fn broken_parent(&self, top: usize, h: Handle, node: &Node, parent: Handle) -> Option<&'static str> {
        let found = self.node(parent).filter(|_| self.top(parent.unit as usize) == top);
        let links = found.map_or(0, |p| p.circle().iter().filter(|member| member.node == h).count());
        first_broken([
            ("a member stays", node.state == 0),
            ("a parent lists its member once", links == 1),
            ("a parent's serial", parent.serial > node.serial),
        ])
    }

    fn broken_circle(&self, top: usize, h: Handle, node: &Node) -> Option<&'static str> {
        let in_range = |t: &Handle| (t.unit as usize) < FACES && (t.slot as usize) < SLOTS && (t.serial as u64) < self.next;
        let links_back = |m: Handle| self.node(m).map_or(false, |found| found.parent == Some(h) && self.top(m.unit as usize) == top);
        let circle = node.circle();
        first_broken([
            ("1 to 64 members", (1..=MEMBERS).contains(&circle.len())),
            ("members link back", circle.iter().all(|member| links_back(member.node))),
            ("touching handles", circle.iter().all(|member| member.touch.iter().all(in_range))),
        ])
        .or_else(|| first_broken([("a blossom's size", node.size == circle.iter().map(|member| self.at(member.node).size).sum::<i64>())]))
    }
}

impl Group {
    /// Vertices rise strictly by the form of the map.
    pub fn is_sound(&self) -> bool {
        let listable = |o: &Obstacle<Handle>| !matches!(o, Obstacle::Growth(..) | Obstacle::Stop(..));
        match self {
            Group::Growth(..) => true,
            Group::Conflicts { list, stops } => {
                list.len() <= MOST && stops.len() <= MOST && list.iter().all(listable) && stops.values().all(|o| matches!(o, Obstacle::Stop(..)))
            }
        }
    }
}
