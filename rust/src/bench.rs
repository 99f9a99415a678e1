//! The bench: eight interfaces with their nodes, always sound.
use crate::linked::{trusted, Sound, Words};
use crate::reads::sound as asked;
use crate::refusal::settled;
use crate::{GrowState, Handle, Refusal, Telling, Verdict};
use alloc::boxed::Box;
use alloc::string::String;
use alloc::vec::Vec;

/// Eight interfaces, numbers 0 to 7, with 64 slots each. What the original keeps in one `DualModuleInterfacePtr` stands in one interface here, and halves are fused
/// into a third by number.
///
/// A bench is always sound, so its calls test nothing about it and cost no more than their work. A refused call changes nothing.
///
/// ```
/// use dual_ledger::{Bench, GrowState, Refusal};
///
/// # fn main() -> Result<(), Refusal> {
/// let mut bench = Bench::default();
/// let left = bench.create_defect_node(0, 3)?;
/// let right = bench.create_defect_node(1, 7)?;
/// bench.grow(0, 4)?;
/// bench.grow(1, 6)?;
/// bench.fuse(2, 0, 1)?;
/// bench.grow(2, 5)?;
/// assert_eq!(bench.get_dual_variable(left)?, 9);
/// assert_eq!(bench.get_dual_variable(right)?, 11);
/// assert_eq!(bench.sum_dual_variables(2)?, 20);
///
/// bench.set_grow_state(2, left, GrowState::Shrink)?;
/// assert_eq!(bench.create_defect_node(0, 5), Err(Refusal::Child));
/// # Ok(())
/// # }
/// ```
#[derive(Clone, PartialEq, Eq)]
pub struct Bench(pub(crate) Box<Sound>);

impl Default for Bench {
    /// Empty, the first node's serial being 1.
    fn default() -> Self {
        Bench(Sound::set_up(1).0)
    }
}

impl Bench {
    /// An empty bench whose first node gets this serial.
    ///
    /// # Errors
    /// [`Refusal::Worn`] for 0.
    pub fn new(first_serial: u32) -> Result<Bench, Refusal> {
        let (bench, number) = Sound::set_up(first_serial);
        settled(number, Bench(bench))
    }

    /// The same in the plain engine: every growth adds to each value of the tree, so that the values can be seen in the words; every answer is as in the
    /// lazy engine of [`Bench::new`]. The engine is kept by every call, clears included.
    ///
    /// # Errors
    /// [`Refusal::Worn`] for 0.
    pub fn plain(first_serial: u32) -> Result<Bench, Refusal> {
        let (bench, number) = Sound::set_up_plain(first_serial);
        settled(number, Bench(bench))
    }

    /// Whether the bench is of the plain engine.
    pub fn is_plain(&self) -> bool {
        self.words()[9] & 4 != 0
    }

    /// The bench that words hold, tested once.
    ///
    /// # Errors
    /// [`Refusal::Broken`] where the words hold no sound bench.
    pub fn from_words(words: &Words) -> Result<Bench, Refusal> {
        Sound::tested(words).map(Bench).ok_or(Refusal::Broken)
    }

    /// The words, to be kept or sent; [`from_words`](Bench::from_words) takes them back.
    pub fn words(&self) -> &Words {
        self.0.words()
    }

    /// The same calls with their notices given to a dual module, which may be a `dyn DualModule`.
    pub fn telling<'a, M: ?Sized>(&'a mut self, module: &'a mut M) -> Telling<'a, M> {
        Telling { bench: self, module }
    }
}

/// # Calls
impl Bench {
    /// Adds the node of a vertex to an interface: growing, with value 0.
    #[doc = errors!(create_defect_node)]
    pub fn create_defect_node(&mut self, interface: u8, vertex: u32) -> Result<Handle, Refusal> {
        let mut node = Handle::NONE;
        settled(trusted::create_defect_node(&mut self.0, interface, vertex, &mut node), node)
    }

    /// Makes a blossom of the members, in circle order. `touching` has two handles for each member, or is empty: then each member touches by itself.
    #[doc = errors!(create_blossom)]
    pub fn create_blossom(&mut self, interface: u8, circle: &[Handle], touching: &[[Handle; 2]]) -> Result<Handle, Refusal> {
        let mut node = Handle::NONE;
        settled(trusted::create_blossom(&mut self.0, interface, circle, touching, &mut node), node)
    }

    /// Takes a blossom apart: its members are outermost again and grow, and its value stays in the sum.
    #[doc = errors!(expand_blossom)]
    pub fn expand_blossom(&mut self, interface: u8, blossom: Handle) -> Result<(), Refusal> {
        settled(trusted::expand_blossom(&mut self.0, interface, blossom), ())
    }

    /// Sets the state of an outermost node.
    #[doc = errors!(set_grow_state)]
    pub fn set_grow_state(&mut self, interface: u8, node: Handle, state: GrowState) -> Result<(), Refusal> {
        settled(trusted::set_grow_state(&mut self.0, interface, node, state.rate()), ())
    }

    /// Grows an interface, and what is fused into it.
    #[doc = errors!(grow)]
    pub fn grow(&mut self, interface: u8, length: i64) -> Result<(), Refusal> {
        settled(trusted::grow(&mut self.0, interface, length), ())
    }

    /// Makes two interfaces the halves of a third of higher number.
    #[doc = errors!(fuse)]
    pub fn fuse(&mut self, parent: u8, left: u8, right: u8) -> Result<(), Refusal> {
        settled(trusted::fuse(&mut self.0, parent, left, right), ())
    }

    /// Empties an interface and what is fused into it; serials go on.
    #[doc = errors!(clear)]
    pub fn clear(&mut self, interface: u8) -> Result<(), Refusal> {
        settled(trusted::clear(&mut self.0, interface), ())
    }

    /// Has an interface without halves or used slots fill emptied slots from now on: a new node gets the lowest empty slot, and [`Refusal::Full`] comes exactly
    /// when 64 of its nodes are present. Clearing the interface ends it. For long shots, which make and expand more blossoms than an interface has slots.
    ///
    /// Serials go on as ever, so that a handle never comes to mean another node. The order of the index is then no longer the order of making, and a blossom
    /// may stand before its members. Halves and parents are not touched by it: a tree may have both kinds. Marked twice is as once.
    ///
    /// ```
    /// # fn main() -> Result<(), dual_ledger::Refusal> {
    /// let mut bench = dual_ledger::Bench::default();
    /// bench.mark_filling(0)?;
    /// let node = bench.create_defect_node(0, 3)?;
    /// for _ in 0..1000 {
    ///     let blossom = bench.create_blossom(0, &[node], &[])?;
    ///     assert_eq!(blossom.slot(), 1);
    ///     bench.expand_blossom(0, blossom)?;
    /// }
    /// assert_eq!((bench.is_filling(0)?, bench.nodes_count(0)?), (true, 2));
    /// # Ok(())
    /// # }
    /// ```
    #[doc = errors!(mark_filling)]
    pub fn mark_filling(&mut self, interface: u8) -> Result<(), Refusal> {
        settled(trusted::mark_filling(&mut self.0, interface), ())
    }

    /// Has an interface without halves or used slots refuse every growth by which a value of its tree would fall below zero ([`Refusal::Below`]), until it is
    /// cleared. A wrong length is then found by the call that has it. Two halves are both floored or neither ([`Refusal::Mark`]), and their parent is as they
    /// are, whatever it was. Marked twice is as once.
    ///
    /// ```
    /// use dual_ledger::{Bench, GrowState, Refusal};
    ///
    /// # fn main() -> Result<(), Refusal> {
    /// let mut bench = Bench::default();
    /// bench.mark_floored(0)?;
    /// let node = bench.create_defect_node(0, 3)?;
    /// bench.grow(0, 5)?;
    /// bench.set_grow_state(0, node, GrowState::Shrink)?;
    /// assert_eq!(bench.grow(0, 6), Err(Refusal::Below));
    /// bench.grow(0, 5)?;
    /// assert_eq!((bench.get_dual_variable(node)?, bench.is_floored(0)?), (0, true));
    /// # Ok(())
    /// # }
    /// ```
    #[doc = errors!(mark_floored)]
    pub fn mark_floored(&mut self, interface: u8) -> Result<(), Refusal> {
        settled(trusted::mark_floored(&mut self.0, interface), ())
    }
}

/// # Reads and checks
impl Bench {
    /// The stored sum of an interface without a parent, its halves counted in.
    #[doc = errors!(sum_dual_variables)]
    pub fn sum_dual_variables(&self, interface: u8) -> Result<i64, Refusal> {
        asked::sum_dual_variables(&self.0, interface)
    }

    /// Its speed: growing nodes less shrinking ones.
    #[doc = errors!(sum_grow_speed)]
    pub fn sum_grow_speed(&self, interface: u8) -> Result<i64, Refusal> {
        asked::sum_grow_speed(&self.0, interface)
    }

    /// How many slots its tree has, used or emptied.
    #[doc = errors!(nodes_count)]
    pub fn nodes_count(&self, interface: u8) -> Result<u32, Refusal> {
        asked::nodes_count(&self.0, interface)
    }

    /// Whether an interface without a parent fills emptied slots ([`mark_filling`](Bench::mark_filling)).
    #[doc = errors!(is_filling)]
    pub fn is_filling(&self, interface: u8) -> Result<bool, Refusal> {
        asked::is_filling(&self.0, interface)
    }

    /// Whether an interface without a parent, and with it its tree, is floored ([`mark_floored`](Bench::mark_floored)).
    #[doc = errors!(is_floored)]
    pub fn is_floored(&self, interface: u8) -> Result<bool, Refusal> {
        asked::is_floored(&self.0, interface)
    }

    /// The node at an index of its tree: left half, right half, own. None for an emptied slot.
    #[doc = errors!(get_node)]
    pub fn get_node(&self, interface: u8, index: u32) -> Result<Option<Handle>, Refusal> {
        asked::get_node(&self.0, interface, index)
    }

    /// How many present nodes its tree has: emptied slots are not counted.
    #[doc = errors!(present_count)]
    pub fn present_count(&self, interface: u8) -> Result<u32, Refusal> {
        asked::present_count(&self.0, interface)
    }

    /// The next present node at or after an index of its tree, with its own index. None where every slot from there on was emptied.
    #[doc = errors!(next_present)]
    pub fn next_present(&self, interface: u8, index: u32) -> Result<Option<(u32, Handle)>, Refusal> {
        asked::next_present(&self.0, interface, index)
    }

    /// The present nodes of its tree with their indices, in the order of the index; emptied slots are passed over.
    #[doc = errors!(present_count)]
    pub fn present_nodes(&self, interface: u8) -> Result<PresentNodes<'_>, Refusal> {
        self.present_count(interface).map(|left| PresentNodes { bench: self, interface, index: 0, left })
    }

    /// Whether the node stands in the tree of an interface. A stale handle does not.
    #[doc = errors!(check_ptr_belonging)]
    pub fn check_ptr_belonging(&self, interface: u8, node: Handle) -> Result<bool, Refusal> {
        asked::check_ptr_belonging(&self.0, interface, node)
    }

    /// The node's value now.
    #[doc = errors!(get_dual_variable)]
    pub fn get_dual_variable(&self, node: Handle) -> Result<i64, Refusal> {
        asked::get_dual_variable(&self.0, node)
    }

    /// The outermost blossom around the node, itself if it is in none.
    #[doc = errors!(get_ancestor_blossom)]
    pub fn get_ancestor_blossom(&self, node: Handle) -> Result<Handle, Refusal> {
        asked::get_ancestor_blossom(&self.0, node)
    }

    /// The outermost blossom, and how many parent links lead to it.
    #[doc = errors!(get_ancestor_blossom)]
    pub fn ancestor_and_links(&self, node: Handle) -> Result<(Handle, u32), Refusal> {
        asked::ancestor_and_links(&self.0, node)
    }

    /// The node below the outermost blossom on the way there.
    #[doc = errors!(get_secondary_ancestor_blossom)]
    pub fn get_secondary_ancestor_blossom(&self, node: Handle) -> Result<Handle, Refusal> {
        asked::get_secondary_ancestor_blossom(&self.0, node)
    }

    /// The node's first vertex.
    #[doc = errors!(get_representative_vertex)]
    pub fn get_representative_vertex(&self, node: Handle) -> Result<u32, Refusal> {
        asked::get_representative_vertex(&self.0, node)
    }

    /// All the node's vertices, depth first in circle order.
    #[doc = errors!(get_all_vertices)]
    pub fn get_all_vertices(&self, node: Handle) -> Result<Vec<u32>, Refusal> {
        asked::get_all_vertices(&self.0, node)
    }

    /// All the node's vertices into the first entries of a slice, and how many; entries past them stay.
    #[doc = errors!(get_all_vertices_into)]
    pub fn get_all_vertices_into(&self, node: Handle, out: &mut [u32]) -> Result<usize, Refusal> {
        asked::get_all_vertices_into(&self.0, node, out)
    }

    /// The check of the original.
    #[doc = errors!(sanity_check)]
    pub fn sanity_check(&self, interface: u8) -> Result<Verdict, Refusal> {
        asked::sanity_check(&self.0, interface)
    }

    /// The strict check: as the other, and besides that touching nodes lie under their members.
    #[doc = errors!(strict_check)]
    pub fn strict_check(&self, interface: u8) -> Result<Verdict, Refusal> {
        asked::strict_check(&self.0, interface)
    }

    /// The picture of an interface's nodes for the viewer, as JSON: the values of the original's `snapshot`, with its abbreviated names or its full ones. As
    /// the original unwraps its check, it is written only where [`sanity_check`](Bench::sanity_check) finds nothing.
    ///
    /// ```
    /// let mut bench = dual_ledger::Bench::default();
    /// bench.create_defect_node(0, 3)?;
    /// bench.grow(0, 5)?;
    /// assert_eq!(
    ///     bench.snapshot(0, true)?,
    ///     r#"{"interface":{"s":1,"d":5},"dual_nodes":[{"o":null,"t":null,"s":3,"g":"grow","u":1,"p":null}]}"#
    /// );
    /// # Ok::<(), dual_ledger::Refusal>(())
    /// ```
    #[doc = errors!(snapshot)]
    pub fn snapshot(&self, interface: u8, abbrev: bool) -> Result<String, Refusal> {
        asked::snapshot(&self.0, interface, abbrev)
    }

    /// The same into the first bytes of a slice, and its length; bytes past it stay. Refused, the slice is as it was.
    #[doc = errors!(snapshot_into)]
    pub fn snapshot_into(&self, interface: u8, abbrev: bool, out: &mut [u8]) -> Result<usize, Refusal> {
        asked::snapshot_into(&self.0, interface, abbrev, out)
    }
}

impl core::fmt::Debug for Bench {
    fn fmt(&self, f: &mut core::fmt::Formatter) -> core::fmt::Result {
        f.debug_struct("Bench").field("next_serial", &self.words()[0]).finish_non_exhaustive()
    }
}

/// The present nodes of a tree, each with its index ([`Bench::present_nodes`]).
#[derive(Clone, Debug)]
pub struct PresentNodes<'a> {
    bench: &'a Bench,
    interface: u8,
    index: u32,
    left: u32,
}

impl Iterator for PresentNodes<'_> {
    type Item = (u32, Handle);

    fn next(&mut self) -> Option<(u32, Handle)> {
        self.left = self.left.checked_sub(1)?;
        let found = self.bench.next_present(self.interface, self.index).ok().flatten()?;
        self.index = found.0 + 1;
        Some(found)
    }

    fn size_hint(&self) -> (usize, Option<usize>) {
        (self.left as usize, Some(self.left as usize))
    }
}

impl ExactSizeIterator for PresentNodes<'_> {}
