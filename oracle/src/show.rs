//! The numbers of an answer: notices, obstacles, groups and nodes as both the driver and the model write them down.
use crate::line::Obstacle;

/// A notice of the trait's calls, nodes by serial.
#[derive(Clone, Debug, PartialEq, Eq)]
pub enum Notice {
    DefectAdded(u32),
    StateSet(u32, i64),
    ShrinkPrepared(Vec<u32>),
    BlossomAdded(u32),
    BlossomRemoved(u32),
    Grown(i64),
}

/// A slot of a dump.
pub struct Slot {
    pub serial: u32,
    pub state: i64,
    /// 0 for none
    pub parent: u32,
    pub size: i64,
    pub value: i64,
    pub class: Class,
}

pub enum Class {
    Defect(i64),
    /// member and its two touching nodes
    Blossom(Vec<[u32; 3]>),
}

pub enum Group {
    Growth(i64, bool),
    /// the list, and the pending stops by vertex
    Conflicts(Vec<Obstacle<u32>>, Vec<(i64, Obstacle<u32>)>),
}

pub fn notices(all: &[Notice]) -> Vec<i64> {
    let mut out = vec![all.len() as i64];
    for notice in all {
        match notice {
            Notice::DefectAdded(s) => out.extend([1, *s as i64]),
            Notice::StateSet(s, state) => out.extend([2, *s as i64, *state]),
            Notice::ShrinkPrepared(circle) => {
                out.extend([3, circle.len() as i64]);
                out.extend(circle.iter().map(|s| *s as i64));
            }
            Notice::BlossomAdded(s) => out.extend([4, *s as i64]),
            Notice::BlossomRemoved(s) => out.extend([5, *s as i64]),
            Notice::Grown(length) => out.extend([6, *length]),
        }
    }
    out
}

pub fn slots(all: &[Option<Slot>]) -> Vec<i64> {
    let mut out = vec![0, all.len() as i64];
    out.extend(all.iter().flat_map(|one| slot(one.as_ref())));
    out
}

/// One slot of a dump.
pub fn slot(of: Option<&Slot>) -> Vec<i64> {
    let Some(s) = of else { return vec![0] };
    let kind = if matches!(s.class, Class::Defect(_)) { 1 } else { 2 };
    let mut out = vec![kind, s.serial as i64, s.state, s.parent as i64, s.size, s.value];
    match &s.class {
        Class::Defect(vertex) => out.push(*vertex),
        Class::Blossom(circle) => {
            out.push(circle.len() as i64);
            out.extend(circle.iter().flatten().map(|s| *s as i64));
        }
    }
    out
}

pub fn obstacle(o: &Obstacle<u32>) -> Vec<i64> {
    let nodes = o.nodes().into_iter().map(|s| *s as i64);
    match o {
        Obstacle::Growth(length, flag) => vec![1, *length, *flag as i64],
        Obstacle::Conflicting(..) => [2].into_iter().chain(nodes).collect(),
        Obstacle::Virtual(_, vertex, mirror) => [3].into_iter().chain(nodes).chain([*vertex as i64, *mirror as i64]).collect(),
        Obstacle::NeedExpand(_) => [4].into_iter().chain(nodes).collect(),
        Obstacle::Stop(_, None) => [5].into_iter().chain(nodes).collect(),
        Obstacle::Stop(_, Some(_)) => [6].into_iter().chain(nodes).collect(),
    }
}

/// An obstacle, or 0 for none.
pub fn taken(o: Option<&Obstacle<u32>>) -> Vec<i64> {
    o.map_or(vec![0], obstacle)
}

pub fn group(g: &Group) -> Vec<i64> {
    match g {
        Group::Growth(length, flag) => vec![1, *length, *flag as i64],
        Group::Conflicts(list, stops) => {
            let mut out = vec![2, list.len() as i64];
            out.extend(list.iter().flat_map(obstacle));
            out.push(stops.len() as i64);
            for (vertex, stop) in stops {
                out.push(*vertex);
                out.extend(obstacle(stop));
            }
            out
        }
    }
}
