//! The bench of docs/MANUAL.md, Words as plain data, and how one finds one's way in it: trees, handles, indices, blossoms around a node.

pub const FACES: usize = 8;
pub const SLOTS: usize = 64;
pub const MEMBERS: usize = 64;
pub const PROGRESS: i64 = 1 << 40;
/// The next serial when none is left.
pub const WORN: u64 = 1 << 32;

#[derive(Clone, Copy, Debug, PartialEq, Eq)]
pub struct Handle {
    pub unit: u32,
    pub slot: u32,
    pub serial: u32,
}

/// Names no node.
pub const NOBODY: Handle = Handle { unit: FACES as u32, slot: 0, serial: 0 };

#[derive(Clone, Debug, PartialEq, Eq)]
pub struct Member {
    pub node: Handle,
    pub touch: [Handle; 2],
}

#[derive(Clone, Debug, PartialEq, Eq)]
pub enum Class {
    Defect(u32),
    Blossom(Vec<Member>),
}

#[derive(Clone, Debug, PartialEq, Eq)]
pub struct Node {
    pub serial: u32,
    pub class: Class,
    /// 1 grows, 0 stays, -1 shrinks
    pub state: i64,
    pub parent: Option<Handle>,
    pub value: i64,
    pub size: i64,
}

#[derive(Clone, Debug, Default, PartialEq, Eq)]
pub struct Face {
    /// used slots; none where emptied
    pub slots: Vec<Option<Node>>,
    pub progress: i64,
    pub sum: i64,
    pub speed: i64,
    pub parent: Option<usize>,
    pub children: Option<(usize, usize)>,
    /// a new node gets the lowest empty slot
    pub fills: bool,
    /// no value of the tree falls below zero
    pub floored: bool,
}

#[derive(Clone, Debug, PartialEq, Eq)]
pub struct Bench {
    pub faces: Vec<Face>,
    pub next: u64,
    /// which engine the words of this bench are of; nothing here looks at it
    pub plain: bool,
}

impl Node {
    pub fn circle(&self) -> &[Member] {
        match &self.class {
            Class::Blossom(circle) => circle,
            Class::Defect(_) => &[],
        }
    }

    pub fn is_defect(&self) -> bool {
        matches!(self.class, Class::Defect(_))
    }
}

impl Face {
    /// Where the next node goes: after the used slots, or into the lowest empty one where that is chosen. 64 where there is no room.
    pub fn free_slot(&self) -> usize {
        let empty = self.slots.iter().position(|slot| slot.is_none()).filter(|_| self.fills);
        empty.unwrap_or(self.slots.len())
    }

    pub fn is_full(&self) -> bool {
        self.free_slot() >= SLOTS
    }
}

impl Bench {
    pub fn new(first: u32) -> Self {
        Bench { faces: vec![Face::default(); FACES], next: first as u64, plain: false }
    }

    /// The node a handle names, if it is present.
    pub fn node(&self, h: Handle) -> Option<&Node> {
        let slot = self.faces.get(h.unit as usize)?.slots.get(h.slot as usize)?;
        slot.as_ref().filter(|node| node.serial == h.serial)
    }

    /// A node known to be present.
    pub fn at(&self, h: Handle) -> &Node {
        self.node(h).expect("present")
    }

    pub fn at_mut(&mut self, h: Handle) -> &mut Node {
        self.faces[h.unit as usize].slots[h.slot as usize].as_mut().expect("present")
    }

    /// The handle of the bench's present node with a serial.
    pub fn named(&self, serial: u32) -> Handle {
        for (unit, face) in self.faces.iter().enumerate() {
            let is_it = |slot: &Option<Node>| slot.as_ref().map_or(false, |node| node.serial == serial);
            if let Some(slot) = face.slots.iter().position(is_it) {
                return Handle { unit: unit as u32, slot: slot as u32, serial };
            }
        }
        NOBODY
    }

    /// The interface without a parent above a unit.
    pub fn top(&self, unit: usize) -> usize {
        self.faces[unit].parent.map_or(unit, |parent| self.top(parent))
    }

    /// The interfaces of a tree: left, right, then itself.
    pub fn tree(&self, unit: usize) -> Vec<usize> {
        let mut found = vec![];
        if let Some((left, right)) = self.faces[unit].children {
            found.extend(self.tree(left));
            found.extend(self.tree(right));
        }
        found.push(unit);
        found
    }

    /// Whether some interface of a tree fills emptied slots: indices of the tree are then not the original's.
    pub fn has_filling(&self, unit: usize) -> bool {
        self.tree(unit).into_iter().any(|below| self.faces[below].fills)
    }

    /// The least value of a shrinking node of a tree, if there is one.
    pub fn least_shrinking(&self, unit: usize) -> Option<i64> {
        self.present(unit).into_iter().map(|h| self.at(h)).filter(|node| node.state < 0).map(|node| node.value).min()
    }

    /// A tree's slots by index, each with its place.
    pub fn slots(&self, unit: usize) -> Vec<(Handle, Option<&Node>)> {
        let mut found = vec![];
        for unit in self.tree(unit) {
            for (slot, node) in self.faces[unit].slots.iter().enumerate() {
                let serial = node.as_ref().map_or(0, |node| node.serial);
                found.push((Handle { unit: unit as u32, slot: slot as u32, serial }, node.as_ref()));
            }
        }
        found
    }

    /// A tree's present nodes.
    pub fn present(&self, unit: usize) -> Vec<Handle> {
        self.slots(unit).into_iter().filter(|(_, node)| node.is_some()).map(|(h, _)| h).collect()
    }

    /// The index of a handle in the tree of an interface without a parent.
    pub fn index(&self, unit: usize, h: Handle) -> i64 {
        self.slots(unit).iter().position(|(place, _)| place.unit == h.unit && place.slot == h.slot).expect("in the tree") as i64
    }

    /// From a present node to its outermost blossom, both ends included.
    pub fn chain(&self, h: Handle) -> Vec<Handle> {
        let mut found = vec![h];
        while let Some(parent) = self.at(*found.last().unwrap()).parent {
            found.push(parent);
        }
        found
    }

    pub fn outermost(&self, h: Handle) -> Handle {
        *self.chain(h).last().unwrap()
    }

    /// All vertices of a present node, depth first in circle order.
    pub fn vertices(&self, h: Handle) -> Vec<u32> {
        match &self.at(h).class {
            Class::Defect(vertex) => vec![*vertex],
            Class::Blossom(circle) => circle.iter().flat_map(|member| self.vertices(member.node)).collect(),
        }
    }

    pub fn first_vertex(&self, h: Handle) -> u32 {
        match &self.at(h).class {
            Class::Defect(vertex) => *vertex,
            Class::Blossom(circle) => self.first_vertex(circle[0].node),
        }
    }
}
