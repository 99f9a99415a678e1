//! The original's `grow_iterative` as it is timed: an interface over a dual module that plays a recording back, begun anew at each call, and counts.
use super::original::Counting;
use original::dual_module::{DualModuleInterfacePtr, GroupMaxUpdateLength};
use original::util::Weight;

/// An interface of one defect, and the recording.
pub struct Played {
    face: DualModuleInterfacePtr,
    module: Counting,
}

impl Played {
    /// So many growths of a length.
    pub fn new(length: i64, groups: usize) -> Self {
        let mut module = Counting::playing(vec![GroupMaxUpdateLength::NonZeroGrow((length as Weight, false)); groups]);
        let face = DualModuleInterfacePtr::new_empty();
        face.create_defect_node(1, &mut module);
        Played { face, module }
    }

    pub fn grow_iterative(&mut self, length: i64) {
        self.module.begin();
        self.face.grow_iterative(length as Weight, &mut self.module);
    }
}
