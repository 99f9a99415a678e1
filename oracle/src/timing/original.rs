//! The original as it is timed: its interfaces and the nodes that a caller would hold, over a dual module that only counts.
use super::{keep, Timed};
use crate::driver::state_of;
use crate::line::Line;
use original::dual_module::{
    DualModuleImpl, DualModuleInterfacePtr, DualModuleInterfaceWeak, DualNodeGrowState, DualNodePtr, GroupMaxUpdateLength, SyncRequest,
};
use original::pointers::RwLockPtr;
use original::util::{SolverInitializer, Weight};

/// Counts its calls, and answers a recording's groups one after the other where it has one.
#[derive(Default)]
pub(super) struct Counting {
    calls: usize,
    requests: Vec<SyncRequest>,
    groups: Vec<GroupMaxUpdateLength>,
    at: usize,
}

impl Counting {
    pub(super) fn playing(groups: Vec<GroupMaxUpdateLength>) -> Self {
        Counting { groups, ..Counting::default() }
    }

    /// From the recording's first group on.
    pub(super) fn begin(&mut self) {
        self.at = 0;
    }
}

impl DualModuleImpl for Counting {
    fn new_empty(_: &SolverInitializer) -> Self {
        Self::default()
    }
    fn clear(&mut self) {}
    fn add_dual_node(&mut self, _: &DualNodePtr) {
        self.calls += 1
    }
    fn remove_blossom(&mut self, _: DualNodePtr) {
        self.calls += 1
    }
    fn set_grow_state(&mut self, _: &DualNodePtr, _: DualNodeGrowState) {
        self.calls += 1
    }
    fn compute_maximum_update_length(&mut self) -> GroupMaxUpdateLength {
        self.at += 1;
        self.groups.get(self.at - 1).cloned().unwrap_or_else(GroupMaxUpdateLength::new)
    }
    fn grow(&mut self, _: Weight) {
        self.calls += 1
    }
    fn prepare_nodes_shrink(&mut self, _: &[DualNodePtr]) -> &mut Vec<SyncRequest> {
        self.calls += 1;
        &mut self.requests
    }
}

/// The interfaces and the nodes by serial.
pub struct Original {
    pub faces: Vec<DualModuleInterfacePtr>,
    pub nodes: Vec<Option<DualNodePtr>>,
    stub: Counting,
    /// `update()` on each node named, as the harness of the comparison does
    updates: bool,
    /// speed and sum read after each call
    numbers: bool,
}

impl Original {
    /// Room for so many serials, of which 0 names no node.
    pub fn new(serials: usize, updates: bool, numbers: bool) -> Self {
        let faces = (0..8).map(|_| DualModuleInterfacePtr::new_empty()).collect();
        let mut nodes = Vec::with_capacity(serials + 1);
        nodes.push(None);
        Original { faces, nodes, stub: Counting::default(), updates, numbers }
    }

    fn node(&self, serial: u32) -> DualNodePtr {
        let node = self.nodes[serial as usize].clone().expect("accepted lines name present nodes");
        if self.updates {
            node.update();
        }
        node
    }

    /// Calls on interfaces alone.
    fn whole_tree<'a>(&self, line: &'a Line) -> &'a u32 {
        match line {
            Line::Fuse(parent, left, right) => {
                self.faces[*parent as usize].fuse(&self.faces[*left as usize], &self.faces[*right as usize]);
                parent
            }
            Line::Clear(unit) => {
                clear(&self.faces[*unit as usize]);
                unit
            }
            Line::Check(unit) => {
                keep(self.faces[*unit as usize].sanity_check().is_ok());
                unit
            }
            _ => unreachable!("no text line"),
        }
    }

    fn read(&self, unit: u32) {
        if self.numbers {
            let face = self.faces[unit as usize].read_recursive();
            keep((face.sum_grow_speed, face.sum_dual_variables));
        }
    }
}

impl Timed for Original {
    fn call(&mut self, line: &Line) {
        let unit = match line {
            Line::Defect(unit, vertex) => {
                let node = self.faces[*unit as usize].create_defect_node(*vertex as usize, &mut self.stub);
                self.nodes.push(Some(node));
                unit
            }
            Line::Blossom(unit, members, _) => {
                let circle = members.iter().map(|serial| self.node(*serial)).collect();
                let node = self.faces[*unit as usize].create_blossom(circle, vec![], &mut self.stub);
                self.nodes.push(Some(node));
                unit
            }
            Line::Expand(unit, serial) => {
                let node = self.node(*serial);
                self.nodes[*serial as usize] = None;
                self.faces[*unit as usize].expand_blossom(node, &mut self.stub);
                unit
            }
            Line::SetState(unit, serial, state) => {
                let node = self.node(*serial);
                self.faces[*unit as usize].set_grow_state(&node, state_of(*state), &mut self.stub);
                unit
            }
            Line::Grow(unit, length) => {
                self.faces[*unit as usize].grow(*length as isize, &mut self.stub);
                unit
            }
            other => self.whole_tree(other),
        };
        self.read(*unit)
    }

    fn count(&self) -> usize {
        self.stub.calls
    }
}

/// Clears an interface and each one below it.
fn clear(face: &DualModuleInterfacePtr) {
    let children = face.read_recursive().children.clone();
    let below = |half: &DualModuleInterfaceWeak| clear(&half.upgrade_force());
    if let Some(((left, _), (right, _))) = &children {
        below(left);
        below(right);
    }
    face.clear();
}
