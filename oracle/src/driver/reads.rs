//! The reads: what the original says of its interfaces and nodes, as numbers.
use super::{rate, Answer, Driver, Trouble};
use crate::line::{Line, FILLER};
use crate::show::{self, Class, Slot};
use original::dual_module::{DualNodeClass, DualNodePtr, DualNodeWeak};
use original::pointers::RwLockPtr;

impl Driver {
    pub(super) fn look(&mut self, line: &Line) -> Answer {
        match line {
            Line::Check(unit) => {
                let (verdict, index) = self.check(*unit)?;
                Ok([self.four(*unit, verdict as u32)?, vec![index]].concat())
            }
            Line::Strict(unit) => self.strict(*unit).map(|(verdict, index)| vec![0, verdict, index]),
            Line::Sum(unit) => Ok(vec![0, self.face(*unit)?.sum_dual_variables() as i64]),
            Line::Speed(unit) => Ok(vec![0, self.face(*unit)?.read_recursive().sum_grow_speed as i64]),
            Line::Count(unit) => Ok(vec![0, self.face(*unit)?.read_recursive().nodes_count() as i64]),
            Line::HandleAt(unit, index) => {
                let node = self.face(*unit)?.read_recursive().get_node(*index as usize);
                Ok([vec![0], node.map_or([0, 0, 0], |node| self.handle(&node)).to_vec()].concat())
            }
            Line::Belongs(unit, serial) => {
                let face = self.face(*unit)?;
                Ok(vec![0, self.node(*serial).map_or(0, |node| face.check_ptr_belonging(&node) as i64)])
            }
            Line::Dump(unit) => self.dump(*unit),
            Line::Value(serial) => Ok(vec![0, self.value(&self.node(*serial)?)]),
            Line::Outer(serial) => {
                let node = self.node(*serial)?;
                Ok(vec![0, self.nodes.serial_of(&node.get_ancestor_blossom()) as i64, links(&node)])
            }
            Line::Under(serial) => Ok(vec![0, self.nodes.serial_of(&self.node(*serial)?.get_secondary_ancestor_blossom()) as i64]),
            Line::First(serial) => Ok(vec![0, self.node(*serial)?.get_representative_vertex() as i64]),
            Line::Vertices(serial, room) => {
                let found: Vec<i64> = self.node(*serial)?.get_all_vertices().into_iter().map(|v| v as i64).collect();
                let rest = vec![FILLER; (*room as usize).saturating_sub(found.len())];
                Ok([vec![0, found.len() as i64], found, rest].concat())
            }
            other => self.group_turn(other),
        }
    }

    /// Serial, interface and slot of a node that stands in an interface.
    fn handle(&self, node: &DualNodePtr) -> [i64; 3] {
        for (unit, face) in self.faces.iter().enumerate() {
            let face = face.read_recursive();
            let slot = face.nodes[..face.nodes_length].iter().position(|slot| slot.as_ref() == Some(node));
            if let Some(slot) = slot {
                return [self.nodes.serial_of(node) as i64, unit as i64, slot as i64];
            }
        }
        [self.nodes.serial_of(node) as i64, -1, -1]
    }

    /// The value of a node that is up to date.
    fn value(&self, node: &DualNodePtr) -> i64 {
        let face = node.read_recursive().belonging.upgrade_force();
        let value = node.read_recursive().get_dual_variable(&face.read_recursive());
        value as i64
    }

    fn dump(&self, unit: u32) -> Answer {
        let mut flat = vec![];
        self.face(unit)?.flatten_nodes(&mut flat);
        let mut slots = vec![];
        for (index, node) in flat.iter().enumerate() {
            let wrong = node.as_ref().map(|node| node.read_recursive().index).filter(|found| *found != index);
            if let Some(found) = wrong {
                return Err(Trouble::Says(format!("index {found} at {index}")));
            }
            slots.push(node.as_ref().map(|node| self.slot(node)));
        }
        Ok(show::slots(&slots))
    }

    /// An interface's own slots, each as a dump shows it.
    pub fn own(&self, unit: usize) -> Vec<Vec<i64>> {
        let face = self.faces[unit].read_recursive();
        let shown = |node: &Option<DualNodePtr>| {
            let up_to_date = node.as_ref().map(|node| self.slot(node.update()));
            show::slot(up_to_date.as_ref())
        };
        face.nodes[..face.nodes_length].iter().map(shown).collect()
    }

    fn slot(&self, node: &DualNodePtr) -> Slot {
        let read = node.read_recursive();
        let serial = |weak: &DualNodeWeak| self.nodes.serial_of_weak(weak);
        let class = match &read.class {
            DualNodeClass::DefectVertex { defect_index } => Class::Defect(*defect_index as i64),
            DualNodeClass::Blossom { nodes_circle, touching_children } => {
                Class::Blossom(nodes_circle.iter().zip(touching_children).map(|(m, (a, b))| [serial(m), serial(a), serial(b)]).collect())
            }
        };
        Slot {
            serial: self.nodes.serial_of(node),
            state: rate(read.grow_state),
            parent: read.parent_blossom.as_ref().map_or(0, serial),
            size: read.defect_size.get() as i64,
            value: self.value(node),
            class,
        }
    }
}

/// How many links lie between a node and its outermost blossom.
fn links(node: &DualNodePtr) -> i64 {
    let parent = node.read_recursive().parent_blossom.clone();
    parent.map_or(0, |parent| 1 + links(&parent.upgrade_force()))
}
