//! Obstacle groups (docs/MANUAL.md): a growth, or a list and pending stops by vertex, at most 128 of each.
use super::bench::{Bench, Handle};
use super::refusals::{given, KIND, NOTHING, ROOM, STALE};
use crate::line::Obstacle;
use std::collections::BTreeMap;

pub const MOST: usize = 128;

pub type Told = Obstacle<Handle>;

#[derive(Clone, Debug, PartialEq, Eq)]
pub enum Group {
    Growth(i64, bool),
    Conflicts { list: Vec<Told>, stops: BTreeMap<u32, Told> },
}

impl Default for Group {
    fn default() -> Self {
        Group::Growth(i64::MAX, false)
    }
}

impl Group {
    pub fn is_empty(&self) -> bool {
        matches!(self, Group::Growth(i64::MAX, _))
    }

    pub fn is_active(&self) -> bool {
        !matches!(self, Group::Growth(i64::MAX, false))
    }

    /// The growth asked: number, and the length if it is a growth.
    pub fn growth(&self) -> (i64, Option<i64>) {
        match self {
            Group::Growth(i64::MAX, _) => (NOTHING, None),
            Group::Growth(length, _) => (0, Some(*length)),
            Group::Conflicts { .. } => (0, None),
        }
    }

    pub fn pop(&mut self) -> (i64, Option<Told>) {
        match self {
            Group::Growth(..) => (KIND, None),
            Group::Conflicts { list, stops } => {
                let lowest = stops.keys().next().copied();
                let stop = lowest.and_then(|vertex| stops.remove(&vertex));
                (0, list.pop().or(stop))
            }
        }
    }

    /// A stop goes only where the list is empty; the original has no such call.
    pub fn pop_sparing_stops(&mut self) -> (i64, Option<Told>) {
        match self {
            Group::Growth(..) => (KIND, None),
            Group::Conflicts { list, stops } => (0, list.pop().or_else(|| stops.pop_first().map(|(_, stop)| stop))),
        }
    }

    pub fn peek(&self) -> (i64, Option<&Told>) {
        match self {
            Group::Growth(..) => (KIND, None),
            Group::Conflicts { list, stops } => (0, list.last().or_else(|| stops.values().next())),
        }
    }

    /// Every handle in the group.
    pub fn handles(&self) -> Vec<Handle> {
        match self {
            Group::Growth(..) => vec![],
            Group::Conflicts { list, stops } => list.iter().chain(stops.values()).flat_map(|o| o.nodes()).copied().collect(),
        }
    }

    pub fn add(&mut self, bench: &Bench, o: &Told) -> i64 {
        if o.nodes().into_iter().any(|h| bench.node(*h).is_none()) {
            return STALE;
        }
        match (&mut *self, o) {
            (Group::Growth(length, flag), Obstacle::Growth(other, joined)) => {
                *length = (*length).min(*other);
                *flag |= joined;
                0
            }
            (Group::Conflicts { .. }, Obstacle::Growth(..)) => 0,
            (Group::Growth(..), _) => {
                let mut conflicts = Group::Conflicts { list: vec![], stops: BTreeMap::new() };
                let number = conflicts.put(bench.stop_vertex(o), o);
                *self = conflicts;
                number
            }
            (Group::Conflicts { .. }, _) => self.changed(|group| group.put(bench.stop_vertex(o), o)),
        }
    }

    pub fn extend(&mut self, bench: &Bench, other: &Group) -> i64 {
        if other.handles().into_iter().any(|h| bench.node(h).is_none()) {
            return STALE;
        }
        if other.is_empty() {
            return 0;
        }
        match (&mut *self, other) {
            (Group::Growth(length, flag), Group::Growth(l, f)) => {
                let smaller = (*length, *flag).min((*l, *f));
                (*length, *flag) = smaller;
                0
            }
            (Group::Growth(..), Group::Conflicts { .. }) => {
                *self = other.clone();
                0
            }
            (Group::Conflicts { .. }, Group::Growth(..)) => 0,
            (Group::Conflicts { .. }, Group::Conflicts { list, stops }) => self.changed(|group| group.append(list, stops)),
        }
    }

    /// The list, then the stops by rising vertex, each under the vertex it was kept by.
    fn append(&mut self, others: &[Told], pending: &BTreeMap<u32, Told>) -> i64 {
        if let Group::Conflicts { list, .. } = self {
            list.extend_from_slice(others);
        }
        let number = self.room();
        pending.iter().fold(number, |number, (vertex, stop)| if number != 0 { number } else { self.put(Some(*vertex), stop) })
    }

    /// Into conflicts: a stop under its vertex, anything else at the end of the list.
    fn put(&mut self, vertex: Option<u32>, o: &Told) -> i64 {
        if let Group::Conflicts { list, stops } = self {
            match vertex {
                None => list.push(o.clone()),
                Some(vertex) => meet(list, stops, vertex, o),
            }
        }
        self.room()
    }

    fn room(&self) -> i64 {
        match self {
            Group::Growth(..) => 0,
            Group::Conflicts { list, stops } => given(list.len() > MOST || stops.len() > MOST, ROOM),
        }
    }

    /// Makes a change; it stays only if it is not refused.
    fn changed(&mut self, change: impl FnOnce(&mut Group) -> i64) -> i64 {
        let mut after = self.clone();
        let number = change(&mut after);
        if number == 0 {
            *self = after;
        }
        number
    }
}

/// A stop that comes to a vertex: the four cases of the manual, or the first there.
fn meet(list: &mut Vec<Told>, stops: &mut BTreeMap<u32, Told>, vertex: u32, new: &Told) {
    let pair = |o: &Told| if let Obstacle::Stop(_, pair) = o { *pair } else { None };
    match (stops.get(&vertex).map(|old| pair(old)), pair(new)) {
        (Some(_), None) => {}
        (Some(Some(old)), Some(new)) if old.0 == new.0 => {}
        (Some(Some(old)), Some(new)) => {
            stops.remove(&vertex);
            list.push(Obstacle::Conflicting(new, old));
        }
        _ => {
            stops.insert(vertex, new.clone());
        }
    }
}

impl Bench {
    /// The vertex that a stop is kept by; none for what goes to the list.
    fn stop_vertex(&self, o: &Told) -> Option<u32> {
        if let Obstacle::Stop(node, _) = o {
            Some(self.first_vertex(*node))
        } else {
            None
        }
    }
}
