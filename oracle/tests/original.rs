//! The original itself, beyond the lines: what `clear` leaves, why nodes are brought up to date, that the stub keeps none alive, the state of
//! things at each notice's time.
use oracle::driver::Driver;
use oracle::line::read;
use oracle::panics::caught;
use oracle::stub::{Noted, Stub};
use original::dual_module::{DualModuleImpl, DualModuleInterfacePtr, DualNodeGrowState, DualNodePtr, GroupMaxUpdateLength};
use original::pointers::RwLockPtr;
use original::util::SolverInitializer;

fn face() -> DualModuleInterfacePtr {
    DualModuleInterfacePtr::new_empty()
}

/// docs/DIFFERENCES.md, the clear of a tree: the harness clears each interface.
#[test]
fn clear_empties_one_interface_only() {
    let (left, right, parent, mut stub) = (face(), face(), face(), Stub::default());
    left.create_defect_node(3, &mut stub);
    parent.fuse(&left, &right);
    parent.clear();
    assert!(left.read_recursive().parent.is_some());
    assert_eq!(left.read_recursive().nodes_length, 1);
    let panic = caught(|| parent.fuse(&left, &right)).unwrap_err();
    assert!(panic.contains("cannot fuse an interface twice"), "{panic}");
}

/// Cleared in any order, the two can be fused again.
#[test]
fn each_cleared_alone_is_a_tree_cleared() {
    let (left, right, parent, mut stub) = (face(), face(), face(), Stub::default());
    left.create_defect_node(3, &mut stub);
    parent.fuse(&left, &right);
    [&right, &parent, &left].into_iter().for_each(|face| face.clear());
    parent.fuse(&left, &right);
    assert_eq!(parent.read_recursive().nodes_count(), 0);
}

/// Without `update()` a node of the right half is looked for at its old index.
#[test]
fn nodes_need_to_be_brought_up_to_date() {
    let (left, right, parent, mut stub) = (face(), face(), face(), Stub::default());
    left.create_defect_node(1, &mut stub);
    let node = right.create_defect_node(2, &mut stub);
    parent.fuse(&left, &right);
    assert!(!parent.check_ptr_belonging(&node));
    assert!(caught(|| parent.create_blossom(vec![node.clone()], vec![], &mut stub)).is_err());
    node.update();
    assert!(parent.check_ptr_belonging(&node));
}

#[test]
fn the_stub_keeps_no_node_alive() {
    let (face, mut stub) = (face(), Stub::default());
    let defect = face.create_defect_node(3, &mut stub);
    let blossom = face.create_blossom(vec![defect], vec![], &mut stub);
    let weak = blossom.downgrade();
    face.expand_blossom(blossom, &mut stub);
    assert!(weak.upgrade().is_none());
    assert!(stub.noted.iter().any(|noted| matches!(noted, Noted::BlossomRemoved(node) if *node == weak)));
}

/// A stub that looks at the node and at its interface when a state is set.
struct Watching {
    face: DualModuleInterfacePtr,
    seen: Option<(DualNodeGrowState, isize)>,
}

impl DualModuleImpl for Watching {
    fn new_empty(_: &SolverInitializer) -> Self {
        Watching { face: face(), seen: None }
    }
    fn clear(&mut self) {}
    fn add_dual_node(&mut self, _: &DualNodePtr) {}
    fn remove_blossom(&mut self, _: DualNodePtr) {}
    fn set_grow_state(&mut self, node: &DualNodePtr, _: DualNodeGrowState) {
        self.seen = Some((node.read_recursive().grow_state, self.face.read_recursive().sum_grow_speed));
    }
    fn compute_maximum_update_length(&mut self) -> GroupMaxUpdateLength {
        GroupMaxUpdateLength::new()
    }
    fn grow(&mut self, _: isize) {}
}

/// A set state is told before the node has it, after the speed has moved.
#[test]
fn at_a_state_set_the_speed_has_moved_and_the_node_has_not() {
    let face = face();
    let mut stub = Watching { face: face.clone(), seen: None };
    let node = face.create_defect_node(3, &mut stub);
    face.set_grow_state(&node, DualNodeGrowState::Shrink, &mut stub);
    assert!(stub.seen == Some((DualNodeGrowState::Grow, -1)));
}

/// The debug assertions and the overflow checks are on in this build.
#[test]
fn the_build_asserts() {
    let mut driver = Driver::new(1, false);
    let panic = driver.answer(&read("h 0 0").unwrap()).unwrap_err().to_string();
    assert!(panic.starts_with("panic dual_module.rs:") && panic.ends_with("cannot find node in this interface"), "{panic}");
    driver.answer(&read("D 0 3").unwrap()).unwrap();
    driver.answer(&read("G 0 9223372036854775807").unwrap()).unwrap();
    let panic = driver.answer(&read("G 0 1").unwrap()).unwrap_err().to_string();
    assert!(panic.ends_with("attempt to add with overflow"), "{panic}");
}
