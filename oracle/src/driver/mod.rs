//! The driver: eight interfaces of the original over the recording stub, each line of the language a call of theirs. It refuses nothing by itself:
//! what the original panics on comes back as trouble. It calls `update()` on every node a line names, holds weak pointers only between
//! lines, and clears each interface of a tree.
mod check;
mod groups;
mod nodes;
mod playback;
mod reads;

use crate::line::{Line, GROUPS};
use crate::panics::caught;
use crate::show::{self, Notice};
use crate::stub::{Noted, Stub};
use nodes::Nodes;
use original::dual_module::{DualModuleInterfacePtr, DualNodeGrowState, DualNodePtr, DualNodeWeak, GroupMaxUpdateLength};
use original::pointers::RwLockPtr;

/// Why there is no answer.
#[derive(Clone, Debug, PartialEq, Eq)]
pub enum Trouble {
    /// where and why the original panicked
    Panic(String),
    /// a serial with no object left to call with
    Gone(u32),
    /// the original has no such interface
    NoFace(u32),
    /// what the original's check says outside the manual's verdicts
    Says(String),
}

impl std::fmt::Display for Trouble {
    fn fmt(&self, f: &mut std::fmt::Formatter) -> std::fmt::Result {
        match self {
            Trouble::Panic(what) => write!(f, "panic {what}"),
            Trouble::Gone(serial) => write!(f, "no object left of {serial}"),
            Trouble::NoFace(unit) => write!(f, "no interface {unit}"),
            Trouble::Says(what) => write!(f, "says {what}"),
        }
    }
}

pub type Answer = Result<Vec<i64>, Trouble>;

pub struct Driver {
    faces: Vec<DualModuleInterfacePtr>,
    stub: Stub,
    nodes: Nodes,
    groups: Vec<GroupMaxUpdateLength>,
    bare: bool,
}

pub fn rate(state: DualNodeGrowState) -> i64 {
    match state {
        DualNodeGrowState::Grow => 1,
        DualNodeGrowState::Stay => 0,
        DualNodeGrowState::Shrink => -1,
    }
}

pub fn state_of(rate: i64) -> DualNodeGrowState {
    match rate {
        1 => DualNodeGrowState::Grow,
        0 => DualNodeGrowState::Stay,
        _ => DualNodeGrowState::Shrink,
    }
}

impl Driver {
    /// `bare`: nothing is read into what the original does. Its panic at a gone touching node is no verdict 4, that at an empty growth no NOTHING,
    /// and nodes of before a clear can still be named, by whatever object is left of them.
    pub fn new(first: u32, bare: bool) -> Self {
        let face = |unit| {
            let face = DualModuleInterfacePtr::new_empty();
            face.write().unit_index = unit;
            face
        };
        Driver {
            faces: (0..8).map(face).collect(),
            stub: Stub::default(),
            nodes: Nodes::new(first, bare),
            groups: vec![GroupMaxUpdateLength::new(); GROUPS],
            bare,
        }
    }

    /// The answer of a line, or why there is none.
    pub fn answer(&mut self, line: &Line) -> Answer {
        self.stub.noted.clear();
        caught(|| self.turn(line)).unwrap_or_else(|panic| Err(Trouble::Panic(panic)))
    }

    /// What was noted since the line began: also of a call that panicked.
    pub fn notices(&self) -> Vec<Notice> {
        let serial = |weak: &DualNodeWeak| self.nodes.serial_of_weak(weak);
        let shown = |noted: &Noted| match noted {
            Noted::DefectAdded(node) => Notice::DefectAdded(serial(node)),
            Noted::StateSet(node, state) => Notice::StateSet(serial(node), rate(*state)),
            Noted::ShrinkPrepared(circle) => Notice::ShrinkPrepared(circle.iter().map(serial).collect()),
            Noted::BlossomAdded(node) => Notice::BlossomAdded(serial(node)),
            Noted::BlossomRemoved(node) => Notice::BlossomRemoved(serial(node)),
            Noted::Grown(length) => Notice::Grown(*length as i64),
        };
        self.stub.noted.iter().map(shown).collect()
    }

    fn face(&self, unit: u32) -> Result<DualModuleInterfacePtr, Trouble> {
        self.faces.get(unit as usize).cloned().ok_or(Trouble::NoFace(unit))
    }

    /// The object of a serial, brought up to date.
    fn node(&self, serial: u32) -> Result<DualNodePtr, Trouble> {
        let node = self.nodes.find(serial).ok_or(Trouble::Gone(serial))?;
        node.update();
        Ok(node)
    }

    /// Number 0, a serial, speed and sum of an interface.
    fn four(&self, unit: u32, serial: u32) -> Result<Vec<i64>, Trouble> {
        let face = self.face(unit)?;
        let face = face.read_recursive();
        Ok(vec![0, serial as i64, face.sum_grow_speed as i64, face.sum_dual_variables as i64])
    }

    fn done(&self, unit: u32, serial: u32) -> Answer {
        Ok([self.four(unit, serial)?, show::notices(&self.notices())].concat())
    }

    fn turn(&mut self, line: &Line) -> Answer {
        match line {
            Line::SetUp(first) => {
                *self = Driver::new(*first, self.bare);
                Ok(vec![0])
            }
            Line::Defect(unit, vertex) => {
                let node = self.face(*unit)?.create_defect_node(*vertex as usize, &mut self.stub);
                let serial = self.nodes.made(&node);
                self.done(*unit, serial)
            }
            Line::Blossom(unit, members, touching) => self.blossom(*unit, members, touching),
            Line::Expand(unit, serial) => {
                let node = self.node(*serial)?;
                self.face(*unit)?.expand_blossom(node, &mut self.stub);
                self.nodes.gone(*serial);
                self.done(*unit, *serial)
            }
            Line::SetState(unit, serial, state) => {
                let node = self.node(*serial)?;
                self.face(*unit)?.set_grow_state(&node, state_of(*state), &mut self.stub);
                self.done(*unit, *serial)
            }
            Line::Grow(unit, length) => {
                self.face(*unit)?.grow(*length as isize, &mut self.stub);
                self.done(*unit, 0)
            }
            Line::Fuse(parent, left, right) => {
                self.face(*parent)?.fuse(&self.face(*left)?, &self.face(*right)?);
                self.done(*parent, 0)
            }
            Line::Clear(unit) => {
                self.clear(self.face(*unit)?);
                self.done(*unit, 0)
            }
            other => self.look(other),
        }
    }

    fn blossom(&mut self, unit: u32, members: &[u32], touching: &[(u32, u32)]) -> Answer {
        let circle = members.iter().map(|s| self.node(*s)).collect::<Result<Vec<_>, _>>()?;
        let weak = |serial| Ok(self.node(serial)?.downgrade());
        let pairs = touching.iter().map(|(a, b)| Ok((weak(*a)?, weak(*b)?))).collect::<Result<Vec<_>, _>>()?;
        let node = self.face(unit)?.create_blossom(circle, pairs, &mut self.stub);
        let serial = self.nodes.made(&node);
        self.done(unit, serial)
    }

    /// Clears an interface and each one below it.
    fn clear(&mut self, face: DualModuleInterfacePtr) {
        let children = face.read_recursive().children.clone();
        if let Some(((left, _), (right, _))) = children {
            self.clear(left.upgrade_force());
            self.clear(right.upgrade_force());
        }
        {
            let face = face.read_recursive();
            face.nodes[..face.nodes_length].iter().flatten().for_each(|node| self.nodes.cleared(node));
        }
        face.clear();
    }
}
