//! The reads and checks with their numbers turned into results: once over any words (module `lent`), once over sound ones (`Bench`).

/// More vertices than a node can have: a tree has at most 448 slots.
pub(crate) const MOST_VERTICES: usize = 512;

/// At least the bytes of a picture, less those of its slots: full names, the longest numbers.
pub(crate) const PICTURE_FRAME: usize = 128;
/// At least the bytes of a slot in a picture: full names, the longest numbers, and its own entries in the lists of its blossom.
pub(crate) const PICTURE_SLOT: usize = 144;

macro_rules! reads {
    ($form:ident, $words:ty, $broken:literal) => {
        /// The stored sum of an interface without a parent, its halves counted in.
        #[doc = errors!(sum_dual_variables)]
        #[doc = $broken]
        pub fn sum_dual_variables(words: &$words, interface: u8) -> Result<i64, Refusal> {
            let mut sum = 0;
            settled($form::sum_dual_variables(words, interface, &mut sum), sum)
        }

        /// Its speed: growing nodes less shrinking ones.
        #[doc = errors!(sum_grow_speed)]
        #[doc = $broken]
        pub fn sum_grow_speed(words: &$words, interface: u8) -> Result<i64, Refusal> {
            let mut speed = 0;
            settled($form::sum_grow_speed(words, interface, &mut speed), speed)
        }

        /// How many slots its tree has, used or emptied.
        #[doc = errors!(nodes_count)]
        #[doc = $broken]
        pub fn nodes_count(words: &$words, interface: u8) -> Result<u32, Refusal> {
            let mut count = 0;
            settled($form::nodes_count(words, interface, &mut count), count as u32)
        }

        /// Whether the interface fills emptied slots ([`mark_filling`](crate::Bench::mark_filling)).
        #[doc = errors!(is_filling)]
        #[doc = $broken]
        pub fn is_filling(words: &$words, interface: u8) -> Result<bool, Refusal> {
            let mut yes = 0;
            settled($form::is_filling(words, interface, &mut yes), yes == 1)
        }

        /// Whether the interface, and with it its tree, is floored ([`mark_floored`](crate::Bench::mark_floored)).
        #[doc = errors!(is_floored)]
        #[doc = $broken]
        pub fn is_floored(words: &$words, interface: u8) -> Result<bool, Refusal> {
            let mut yes = 0;
            settled($form::is_floored(words, interface, &mut yes), yes == 1)
        }

        /// The node at an index of its tree: left half, right half, own. None for an emptied slot.
        #[doc = errors!(get_node)]
        #[doc = $broken]
        pub fn get_node(words: &$words, interface: u8, index: u32) -> Result<Option<Handle>, Refusal> {
            let mut node = Handle::NONE;
            settled($form::get_node(words, interface, index, &mut node), Some(node).filter(|node| *node != Handle::NONE))
        }

        /// How many present nodes its tree has: the ones of its interfaces' maps, added.
        #[doc = errors!(present_count)]
        #[doc = $broken]
        pub fn present_count(words: &$words, interface: u8) -> Result<u32, Refusal> {
            let mut count = 0;
            settled($form::present_count(words, interface, &mut count), count as u32)
        }

        /// The next present node at or after an index of its tree, with its own index. None where every slot from there on was emptied.
        #[doc = errors!(next_present)]
        #[doc = $broken]
        pub fn next_present(words: &$words, interface: u8, index: u32) -> Result<Option<(u32, Handle)>, Refusal> {
            let (mut next, mut node) = (0, Handle::NONE);
            let number = $form::next_present(words, interface, index, &mut next, &mut node);
            settled(number, Some((next, node)).filter(|(_, node)| *node != Handle::NONE))
        }

        /// Whether the node stands in the tree of an interface. A stale handle does not.
        #[doc = errors!(check_ptr_belonging)]
        #[doc = $broken]
        pub fn check_ptr_belonging(words: &$words, interface: u8, node: Handle) -> Result<bool, Refusal> {
            let mut inside = 0;
            settled($form::check_ptr_belonging(words, interface, node, &mut inside), inside == 1)
        }

        /// The node's value now.
        #[doc = errors!(get_dual_variable)]
        #[doc = $broken]
        pub fn get_dual_variable(words: &$words, node: Handle) -> Result<i64, Refusal> {
            let mut value = 0;
            settled($form::get_dual_variable(words, node, &mut value), value)
        }

        /// The outermost blossom around the node, itself if it is in none.
        #[doc = errors!(get_ancestor_blossom)]
        #[doc = $broken]
        pub fn get_ancestor_blossom(words: &$words, node: Handle) -> Result<Handle, Refusal> {
            ancestor_and_links(words, node).map(|(ancestor, _)| ancestor)
        }

        /// The outermost blossom, and how many parent links lead to it.
        #[doc = errors!(get_ancestor_blossom)]
        #[doc = $broken]
        pub fn ancestor_and_links(words: &$words, node: Handle) -> Result<(Handle, u32), Refusal> {
            let (mut ancestor, mut links) = (Handle::NONE, 0);
            settled($form::get_ancestor_blossom(words, node, &mut ancestor, &mut links), (ancestor, links as u32))
        }

        /// The node below the outermost blossom on the way there.
        #[doc = errors!(get_secondary_ancestor_blossom)]
        #[doc = $broken]
        pub fn get_secondary_ancestor_blossom(words: &$words, node: Handle) -> Result<Handle, Refusal> {
            let mut second = Handle::NONE;
            settled($form::get_secondary_ancestor_blossom(words, node, &mut second), second)
        }

        /// The node's first vertex.
        #[doc = errors!(get_representative_vertex)]
        #[doc = $broken]
        pub fn get_representative_vertex(words: &$words, node: Handle) -> Result<u32, Refusal> {
            let mut vertex = 0;
            settled($form::get_representative_vertex(words, node, &mut vertex), vertex)
        }

        /// All the node's vertices, depth first in circle order.
        #[doc = errors!(get_all_vertices)]
        #[doc = $broken]
        pub fn get_all_vertices(words: &$words, node: Handle) -> Result<Vec<u32>, Refusal> {
            let mut out = [0; MOST_VERTICES];
            let count = get_all_vertices_into(words, node, &mut out)?;
            Ok(out[..count].to_vec())
        }

        /// All the node's vertices into the first entries of a slice, and how many; entries past them stay.
        #[doc = errors!(get_all_vertices_into)]
        #[doc = $broken]
        pub fn get_all_vertices_into(words: &$words, node: Handle, out: &mut [u32]) -> Result<usize, Refusal> {
            let mut count = 0;
            settled($form::get_all_vertices(words, node, out, &mut count), count as usize)
        }

        /// The check of the original.
        #[doc = errors!(sanity_check)]
        #[doc = $broken]
        pub fn sanity_check(words: &$words, interface: u8) -> Result<Verdict, Refusal> {
            let (mut verdict, mut index) = (0, 0);
            let number = $form::sanity_check(words, interface, &mut verdict, &mut index);
            settled(number, Verdict::of(verdict, index))
        }

        /// The strict check: as the other, and besides that touching nodes lie under their members.
        #[doc = errors!(strict_check)]
        #[doc = $broken]
        pub fn strict_check(words: &$words, interface: u8) -> Result<Verdict, Refusal> {
            let (mut verdict, mut index) = (0, 0);
            let number = $form::strict_check(words, interface, &mut verdict, &mut index);
            settled(number, Verdict::of(verdict, index))
        }

        /// The picture of an interface's nodes for the viewer, as JSON: the values of the original's `snapshot`, with its abbreviated names or its full ones.
        #[doc = errors!(snapshot)]
        #[doc = $broken]
        pub fn snapshot(words: &$words, interface: u8, abbrev: bool) -> Result<String, Refusal> {
            let mut out = vec![0; PICTURE_FRAME + PICTURE_SLOT * nodes_count(words, interface)? as usize];
            let length = snapshot_into(words, interface, abbrev, &mut out)?;
            out.truncate(length);
            Ok(String::from_utf8(out).expect("a picture is ASCII"))
        }

        /// The same into the first bytes of a slice, and its length; bytes past it stay. Refused, the slice is as it was.
        #[doc = errors!(snapshot_into)]
        #[doc = $broken]
        pub fn snapshot_into(words: &$words, interface: u8, abbrev: bool, out: &mut [u8]) -> Result<usize, Refusal> {
            let mut length = 0;
            settled($form::snapshot(words, interface, abbrev.into(), out, &mut length), length as usize)
        }
    };
}
pub(crate) use reads;

/// On sound words.
pub(crate) mod sound {
    use super::{MOST_VERTICES, PICTURE_FRAME, PICTURE_SLOT};
    use crate::linked::{trusted, Sound};
    use crate::refusal::settled;
    use crate::{Handle, Refusal, Verdict};
    use alloc::string::String;
    use alloc::vec;
    use alloc::vec::Vec;
    reads!(trusted, Sound, "");
}
