//! A small dual module, ported from the original's `DualModuleImpl` to [`DualModule`]: regions on a path of vertices with a virtual vertex at each end.
//! Above each method stands the original's line. What changed is marked with "Port:". docs/MIGRATING.md goes through it.
//!
//! Run it by `cargo run --example path_graph`.
use dual_ledger::{Bench, DualModule, Group, GrowState, Handle, Obstacle, Refusal};
use std::collections::BTreeMap;

/// What an outermost node covers of the path, from place to place.
#[derive(Clone, Copy, Debug, PartialEq, Eq)]
struct Region {
    left: i64,
    right: i64,
    state: GrowState,
}

/// Vertices at places on a line; the first and the last are virtual.
struct PathModule {
    places: Vec<i64>,
    /// Port: the original keeps a `Vec` of locked nodes with weak pointers back to the interface's. Here a handle is the key: it is `Copy`, has an order, and
    /// names nothing once its node has gone.
    regions: BTreeMap<Handle, Region>,
    /// The members of each blossom with what they covered. Port: the original reads `nodes_circle` out of the blossom's class; here the module keeps
    /// what it is told by `prepare_nodes_shrink`.
    members: BTreeMap<Handle, Vec<(Handle, Region)>>,
    circle: Vec<Handle>,
}

impl PathModule {
    // fn new_empty(initializer: &SolverInitializer) -> Self;
    fn new_empty(weights: &[i64]) -> Self {
        let places = std::iter::once(0).chain(weights.iter().scan(0, |place, weight| {
            *place += weight;
            Some(*place)
        }));
        PathModule { places: places.collect(), regions: BTreeMap::new(), members: BTreeMap::new(), circle: vec![] }
    }

    // fn clear(&mut self);
    // Port: it is not the interface's to call, here as there: whoever clears the bench clears its module.
    fn clear(&mut self) {
        (self.regions, self.members, self.circle) = (BTreeMap::new(), BTreeMap::new(), vec![]);
    }

    /// Outermost regions from left to right.
    fn in_order(&self) -> Vec<(Handle, Region)> {
        let mut all: Vec<_> = self.regions.iter().map(|(node, region)| (*node, *region)).collect();
        all.sort_by_key(|(_, region)| region.left);
        all
    }

    // fn compute_maximum_update_length(&mut self) -> GroupMaxUpdateLength;
    // Port: the group is told the bench, in which every node named must be present; `add` answers a refusal where the original would panic later.
    fn compute_maximum_update_length(&mut self, bench: &Bench) -> Result<Group, Refusal> {
        let mut group = Group::new();
        let order = self.in_order();
        for (node, region) in &order {
            if region.state == GrowState::Shrink {
                let value = bench.get_dual_variable(*node)?;
                let obstacle = match (value, self.members.contains_key(node)) {
                    (0, true) => Obstacle::BlossomNeedExpand(*node),
                    (0, false) => Obstacle::VertexShrinkStop(*node, None),
                    (value, _) => Obstacle::NonZeroGrow(value, false),
                };
                group.add(bench, obstacle)?;
            }
        }
        let (first, last) = (self.places[0], self.places[self.places.len() - 1]);
        for (at, (node, region)) in order.iter().enumerate() {
            let gap_before = if at == 0 { region.left - first } else { region.left - order[at - 1].1.right };
            let before = (at > 0).then(|| order[at - 1]);
            self.meet(bench, &mut group, (*node, *region), before, gap_before, 0)?;
            if at + 1 == order.len() {
                self.meet(bench, &mut group, (*node, *region), None, last - region.right, self.places.len() as u32 - 1)?;
            }
        }
        Ok(group)
    }

    /// A region and what stands beside it, a region or a virtual vertex, so far apart.
    fn meet(
        &self,
        bench: &Bench,
        group: &mut Group,
        own: (Handle, Region),
        other: Option<(Handle, Region)>,
        gap: i64,
        end: u32,
    ) -> Result<(), Refusal> {
        let rate = i64::from(own.1.state.rate()) + other.map_or(0, |(_, region)| i64::from(region.state.rate()));
        if rate <= 0 {
            return Ok(());
        }
        // what touches there: a vertex of the node, as the original's pair has it
        let touch = |node: Handle| self.members.get(&node).and_then(|members| members.first()).map_or(node, |(member, _)| *member);
        let pair = |node: Handle| (node, touch(node));
        let obstacle = match other {
            _ if gap > 0 => Obstacle::NonZeroGrow(gap / rate, false),
            Some((other, _)) => Obstacle::Conflicting(pair(own.0), pair(other)),
            None => Obstacle::TouchingVirtual(pair(own.0), (end, false)),
        };
        group.add(bench, obstacle)
    }
}

/// Port: every method is told after the ledger's work is done, and gets the bench to read from.
impl DualModule for PathModule {
    // fn add_defect_node(&mut self, dual_node_ptr: &DualNodePtr)
    fn add_defect_node(&mut self, bench: &Bench, node: Handle) {
        let vertex = bench.get_representative_vertex(node).expect("told of a present node");
        let place = self.places[vertex as usize];
        self.regions.insert(node, Region { left: place, right: place, state: GrowState::Grow });
    }

    // fn set_grow_state(&mut self, dual_node_ptr: &DualNodePtr, grow_state: DualNodeGrowState);
    fn set_grow_state(&mut self, _: &Bench, node: Handle, state: GrowState) {
        if let Some(region) = self.regions.get_mut(&node) {
            region.state = state;
        }
    }

    // fn prepare_nodes_shrink(&mut self, nodes_circle: &[DualNodePtr]) -> &mut Vec<SyncRequest>
    // Port: it answers nothing; the circle is kept for the blossom that is told next.
    fn prepare_nodes_shrink(&mut self, _: &Bench, circle: &[Handle]) {
        self.circle = circle.to_vec();
    }

    // fn add_blossom(&mut self, dual_node_ptr: &DualNodePtr)
    fn add_blossom(&mut self, _: &Bench, blossom: Handle) {
        let circle = std::mem::take(&mut self.circle);
        let members: Vec<_> = circle.into_iter().filter_map(|node| Some((node, self.regions.remove(&node)?))).collect();
        let left = members.iter().map(|(_, region)| region.left).min().unwrap_or(0);
        let right = members.iter().map(|(_, region)| region.right).max().unwrap_or(0);
        self.regions.insert(blossom, Region { left, right, state: GrowState::Grow });
        self.members.insert(blossom, members);
    }

    // fn remove_blossom(&mut self, dual_node_ptr: DualNodePtr);
    // Port: the original is told before, here the blossom is gone from the bench already, and its members' states are told next.
    fn remove_blossom(&mut self, bench: &Bench, blossom: Handle) {
        debug_assert_eq!(bench.get_dual_variable(blossom), Err(Refusal::Stale));
        self.regions.remove(&blossom);
        self.regions.extend(self.members.remove(&blossom).unwrap_or_default());
    }

    // fn grow(&mut self, length: Weight);
    fn grow(&mut self, _: &Bench, length: i64) {
        for region in self.regions.values_mut() {
            region.left -= length * i64::from(region.state.rate());
            region.right += length * i64::from(region.state.rate());
        }
    }
}

/// Grows until nothing grows: nodes that meet stay, as matched pairs do.
fn decode(bench: &mut Bench, module: &mut PathModule) -> Result<(), Refusal> {
    while bench.sum_grow_speed(0)? > 0 {
        let mut group = module.compute_maximum_update_length(bench)?;
        if let Some(length) = group.get_none_zero_growth()? {
            println!("grow by {length}");
            // interface_ptr.grow(length, &mut dual_module);
            bench.telling(module).grow(0, length)?;
            continue;
        }
        while let Some(obstacle) = group.pop()? {
            let met = match obstacle {
                Obstacle::Conflicting((a, _), (b, _)) => vec![a, b],
                Obstacle::TouchingVirtual((a, _), _) => vec![a],
                other => unreachable!("nothing shrinks here: {other:?}"),
            };
            for node in met {
                println!("{node} stays");
                // interface_ptr.set_grow_state(&node, DualNodeGrowState::Stay, &mut dual_module);
                bench.telling(module).set_grow_state(0, node, GrowState::Stay)?;
            }
        }
    }
    Ok(())
}

fn main() -> Result<(), Refusal> {
    // eight edges of weight 10: vertices 0 to 8, of which 0 and 8 are virtual
    let (mut bench, mut module) = (Bench::default(), PathModule::new_empty(&[10; 8]));

    // let interface_ptr = DualModuleInterfacePtr::new_load(&syndrome_pattern, &mut dual_module);
    for vertex in [1, 4, 5] {
        bench.telling(&mut module).create_defect_node(0, vertex)?;
    }
    decode(&mut bench, &mut module)?;
    println!("sum {}", bench.sum_dual_variables(0)?);
    assert_eq!(bench.sum_dual_variables(0)?, 20); // one edge to the virtual vertex, one between 4 and 5

    // a blossom, by a module that is not known before the program runs
    bench.clear(0)?;
    module.clear();
    let told: &mut dyn DualModule = &mut module;
    let mut ledger = bench.telling(told);
    let nodes = [ledger.create_defect_node(0, 3)?, ledger.create_defect_node(0, 4)?, ledger.create_defect_node(0, 5)?];
    ledger.grow(0, 5)?;
    let blossom = ledger.create_blossom(0, &nodes, &[])?;
    ledger.grow(0, 2)?;
    ledger.set_grow_state(0, blossom, GrowState::Shrink)?;
    ledger.grow(0, 2)?;
    let mut group = module.compute_maximum_update_length(&bench)?;
    assert_eq!(group.pop()?, Some(Obstacle::BlossomNeedExpand(blossom)));
    bench.telling(&mut module).expand_blossom(0, blossom)?;
    println!(
        "expanded: {}",
        module.in_order().iter().map(|(_, region)| format!("[{}, {}]", region.left, region.right)).collect::<Vec<_>>().join(" ")
    );
    assert_eq!(module.in_order().iter().map(|(_, region)| (region.left, region.right)).collect::<Vec<_>>(), [(25, 35), (35, 45), (45, 55)]);
    Ok(())
}

#[test]
fn it_runs() {
    main().unwrap();
}
