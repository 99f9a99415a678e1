//! Calls whose notices go to a dual module, as the original's interface calls its `DualModuleImpl`.
use crate::linked::{told, AnswerWords, Sound};
use crate::refusal::settled;
use crate::{Bench, GrowState, Handle, Notice, Refusal, Told};

/// A dual module: the part of the original's `DualModuleImpl` that its interface calls. Each is called after the ledger's own work is done, with the bench to
/// read from; a blossom that was removed is already gone from it. Nothing is asked for: a body left out does nothing.
pub trait DualModule {
    /// A defect's node was added: growing, with value 0.
    fn add_defect_node(&mut self, bench: &Bench, node: Handle) {
        let _ = (bench, node);
    }

    /// A blossom was added, after its members were set to stay and told as a circle.
    fn add_blossom(&mut self, bench: &Bench, blossom: Handle) {
        let _ = (bench, blossom);
    }

    /// A blossom was taken apart; its members are set to grow next.
    fn remove_blossom(&mut self, bench: &Bench, blossom: Handle) {
        let _ = (bench, blossom);
    }

    /// A node's state was set, be it to what it was.
    fn set_grow_state(&mut self, bench: &Bench, node: Handle, state: GrowState) {
        let _ = (bench, node, state);
    }

    /// The members of the circle that the next blossom is made of.
    fn prepare_nodes_shrink(&mut self, bench: &Bench, circle: &[Handle]) {
        let _ = (bench, circle);
    }

    /// The tree has grown by so much.
    fn grow(&mut self, bench: &Bench, length: i64) {
        let _ = (bench, length);
    }
}

/// A bench with the dual module that its calls are told to: [`Bench::telling`] makes one. The module may be a `&mut dyn DualModule`.
///
/// ```
/// use dual_ledger::{Bench, DualModule, GrowState, Handle, Refusal};
///
/// #[derive(Default)]
/// struct Log(Vec<String>);
///
/// impl DualModule for Log {
///     fn add_defect_node(&mut self, bench: &Bench, node: Handle) {
///         self.0.push(format!("vertex {}", bench.get_representative_vertex(node).unwrap()));
///     }
///     fn set_grow_state(&mut self, _: &Bench, node: Handle, state: GrowState) {
///         self.0.push(format!("{} {state:?}", node.serial()));
///     }
///     fn prepare_nodes_shrink(&mut self, _: &Bench, circle: &[Handle]) {
///         self.0.push(format!("circle of {}", circle.len()));
///     }
///     fn add_blossom(&mut self, _: &Bench, blossom: Handle) {
///         self.0.push(format!("blossom {}", blossom.serial()));
///     }
/// }
///
/// # fn main() -> Result<(), Refusal> {
/// let (mut bench, mut log) = (Bench::default(), Log::default());
/// let mut telling = bench.telling(&mut log);
/// let a = telling.create_defect_node(0, 30)?;
/// let b = telling.create_defect_node(0, 40)?;
/// telling.create_blossom(0, &[a, b], &[])?;
/// assert_eq!(log.0, ["vertex 30", "vertex 40", "1 Stay", "2 Stay", "circle of 2", "blossom 3"]);
/// # Ok(())
/// # }
/// ```
pub struct Telling<'a, M: ?Sized> {
    pub(crate) bench: &'a mut Bench,
    pub(crate) module: &'a mut M,
}

impl<M: DualModule + ?Sized> Telling<'_, M> {
    /// The bench, to read from.
    pub fn bench(&self) -> &Bench {
        self.bench
    }

    /// Adds the node of a vertex, as [`Bench::create_defect_node`] does.
    #[doc = errors!(create_defect_node)]
    pub fn create_defect_node(&mut self, interface: u8, vertex: u32) -> Result<Handle, Refusal> {
        self.told(|bench, answer| told::create_defect_node(bench, interface, vertex, answer))
    }

    /// Makes a blossom, as [`Bench::create_blossom`] does.
    #[doc = errors!(create_blossom)]
    pub fn create_blossom(&mut self, interface: u8, circle: &[Handle], touching: &[[Handle; 2]]) -> Result<Handle, Refusal> {
        self.told(|bench, answer| told::create_blossom(bench, interface, circle, touching, answer))
    }

    /// Takes a blossom apart, as [`Bench::expand_blossom`] does.
    #[doc = errors!(expand_blossom)]
    pub fn expand_blossom(&mut self, interface: u8, blossom: Handle) -> Result<(), Refusal> {
        self.told(|bench, answer| told::expand_blossom(bench, interface, blossom, answer)).map(|_| ())
    }

    /// Sets a state, as [`Bench::set_grow_state`] does.
    #[doc = errors!(set_grow_state)]
    pub fn set_grow_state(&mut self, interface: u8, node: Handle, state: GrowState) -> Result<(), Refusal> {
        self.told(|bench, answer| told::set_grow_state(bench, interface, node, state.rate(), answer)).map(|_| ())
    }

    /// Grows an interface, as [`Bench::grow`] does.
    #[doc = errors!(grow)]
    pub fn grow(&mut self, interface: u8, length: i64) -> Result<(), Refusal> {
        self.told(|bench, answer| told::grow(bench, interface, length, answer)).map(|_| ())
    }

    /// Fuses two interfaces, as [`Bench::fuse`] does; nothing is told.
    #[doc = errors!(fuse)]
    pub fn fuse(&mut self, parent: u8, left: u8, right: u8) -> Result<(), Refusal> {
        self.bench.fuse(parent, left, right)
    }

    /// Clears an interface, as [`Bench::clear`] does; nothing is told.
    #[doc = errors!(clear)]
    pub fn clear(&mut self, interface: u8) -> Result<(), Refusal> {
        self.bench.clear(interface)
    }

    /// Has an interface fill emptied slots, as [`Bench::mark_filling`] does; nothing is told.
    #[doc = errors!(mark_filling)]
    pub fn mark_filling(&mut self, interface: u8) -> Result<(), Refusal> {
        self.bench.mark_filling(interface)
    }

    /// Has an interface floored, as [`Bench::mark_floored`] does; nothing is told.
    #[doc = errors!(mark_floored)]
    pub fn mark_floored(&mut self, interface: u8) -> Result<(), Refusal> {
        self.bench.mark_floored(interface)
    }

    /// Makes the call, then tells its notices in their order; a refused call has none.
    fn told(&mut self, call: impl FnOnce(&mut Sound, &mut AnswerWords) -> u8) -> Result<Handle, Refusal> {
        let mut answer = Told::blank();
        settled(call(&mut self.bench.0, answer.words()), ())?;
        answer.notices().for_each(|notice| self.tell(notice));
        Ok(answer.words().node())
    }

    fn tell(&mut self, notice: Notice) {
        let bench: &Bench = self.bench;
        match notice {
            Notice::DefectAdded(node) => self.module.add_defect_node(bench, node),
            Notice::StateSet(node, state) => self.module.set_grow_state(bench, node, state),
            Notice::ShrinkPrepared(circle) => self.module.prepare_nodes_shrink(bench, circle),
            Notice::BlossomAdded(blossom) => self.module.add_blossom(bench, blossom),
            Notice::BlossomRemoved(blossom) => self.module.remove_blossom(bench, blossom),
            Notice::Grown(length) => self.module.grow(bench, length),
        }
    }
}
