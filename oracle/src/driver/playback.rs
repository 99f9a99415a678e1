//! The original's `grow_iterative` over a dual module that plays a recording back.
use super::{Driver, Trouble};
use crate::panics::caught;
use crate::show::Notice;
use crate::stub::Stub;
use original::dual_module::{DualModuleImpl, DualNodeGrowState, DualNodePtr, GroupMaxUpdateLength, SyncRequest};
use original::util::{SolverInitializer, Weight};

/// Answers one group of the recording after the other, and notes its calls as the stub does.
struct Playback<'a> {
    stub: &'a mut Stub,
    groups: std::vec::IntoIter<GroupMaxUpdateLength>,
}

impl DualModuleImpl for Playback<'_> {
    fn new_empty(_: &SolverInitializer) -> Self {
        unreachable!("a recording is played on a stub")
    }

    fn clear(&mut self) {
        self.stub.clear()
    }

    fn add_dual_node(&mut self, node: &DualNodePtr) {
        self.stub.add_dual_node(node)
    }

    fn remove_blossom(&mut self, node: DualNodePtr) {
        self.stub.remove_blossom(node)
    }

    fn set_grow_state(&mut self, node: &DualNodePtr, state: DualNodeGrowState) {
        self.stub.set_grow_state(node, state)
    }

    fn compute_maximum_update_length(&mut self) -> GroupMaxUpdateLength {
        self.groups.next().expect("no group of the recording is left")
    }

    fn grow(&mut self, length: Weight) {
        self.stub.grow(length)
    }

    fn prepare_nodes_shrink(&mut self, circle: &[DualNodePtr]) -> &mut Vec<SyncRequest> {
        self.stub.prepare_nodes_shrink(circle)
    }
}

impl Driver {
    /// The lengths that the module was told, over growths alone: (length, flag), or none for conflicts, at which the original panics.
    pub fn grow_iterative(&mut self, unit: u32, length: i64, growths: &[Option<(i64, bool)>]) -> Result<Vec<i64>, Trouble> {
        self.stub.noted.clear();
        let group = |growth: &Option<(i64, bool)>| match growth {
            Some((length, flag)) => GroupMaxUpdateLength::NonZeroGrow((*length as Weight, *flag)),
            None => GroupMaxUpdateLength::Conflicts((vec![], Default::default())),
        };
        let groups: Vec<GroupMaxUpdateLength> = growths.iter().map(group).collect();
        let face = self.face(unit)?;
        let mut playback = Playback { stub: &mut self.stub, groups: groups.into_iter() };
        caught(|| face.grow_iterative(length as Weight, &mut playback)).map_err(Trouble::Panic)?;
        let told = |notice: &Notice| if let Notice::Grown(length) = notice { Ok(*length) } else { Err(Trouble::Says(format!("{notice:?}"))) };
        self.notices().iter().map(told).collect()
    }
}
