//! The recording stub: a dual module that does nothing but note its calls. It holds weak pointers only, so it keeps no node alive.
use original::dual_module::DualNodeClass;
use original::dual_module::{DualModuleImpl, DualNodeGrowState, DualNodePtr, DualNodeWeak, GroupMaxUpdateLength, SyncRequest};
use original::pointers::RwLockPtr;
use original::util::{SolverInitializer, Weight};

/// A call of the trait with its arguments.
pub enum Noted {
    DefectAdded(DualNodeWeak),
    StateSet(DualNodeWeak, DualNodeGrowState),
    ShrinkPrepared(Vec<DualNodeWeak>),
    BlossomAdded(DualNodeWeak),
    BlossomRemoved(DualNodeWeak),
    Grown(Weight),
}

#[derive(Default)]
pub struct Stub {
    pub noted: Vec<Noted>,
    requests: Vec<SyncRequest>,
}

impl DualModuleImpl for Stub {
    fn new_empty(_: &SolverInitializer) -> Self {
        Self::default()
    }

    fn clear(&mut self) {
        self.noted.clear()
    }

    fn add_dual_node(&mut self, node: &DualNodePtr) {
        let is_blossom = matches!(node.read_recursive().class, DualNodeClass::Blossom { .. });
        let note = if is_blossom { Noted::BlossomAdded } else { Noted::DefectAdded };
        self.noted.push(note(node.downgrade()))
    }

    fn remove_blossom(&mut self, node: DualNodePtr) {
        self.noted.push(Noted::BlossomRemoved(node.downgrade()))
    }

    fn set_grow_state(&mut self, node: &DualNodePtr, state: DualNodeGrowState) {
        self.noted.push(Noted::StateSet(node.downgrade(), state))
    }

    fn compute_maximum_update_length(&mut self) -> GroupMaxUpdateLength {
        GroupMaxUpdateLength::new()
    }

    fn grow(&mut self, length: Weight) {
        self.noted.push(Noted::Grown(length))
    }

    fn prepare_nodes_shrink(&mut self, circle: &[DualNodePtr]) -> &mut Vec<SyncRequest> {
        self.noted.push(Noted::ShrinkPrepared(circle.iter().map(|node| node.downgrade()).collect()));
        &mut self.requests
    }
}
