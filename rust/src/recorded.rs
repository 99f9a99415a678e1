//! Growing against a recorded list of groups, as the original's `grow_iterative` grows against a dual module's answers: while length is left, the next group is
//! taken, and the tree grows by the smaller of its growth and what is left.
use crate::linked::{recorded, GroupWords};
use crate::refusal::settled;
use crate::{Bench, DualModule, Refusal, Telling};
use alloc::vec;
use alloc::vec::Vec;

/// # Recorded growth
impl Bench {
    /// Grows an interface by a length, a group of the recording a step: the groups' words ([`Group::words`](crate::Group::words)) one after the other, which are
    /// read and never changed. Answers the length of each step, so that there are as many as groups were taken; they add up to the length, and the bench is that
    /// of one [`grow`](Bench::grow) by it. Length 0 takes no group; what is left of the last one's growth is lost.
    ///
    /// Refused, nothing has changed: [`Broken`](Refusal::Broken) for a group that is not sound, [`Nothing`](Refusal::Nothing) for an empty one,
    /// [`Stuck`](Refusal::Stuck) for conflicts and for a growth of 0 or less, [`Length`](Refusal::Length) and [`Below`](Refusal::Below) for the step,
    /// [`Short`](Refusal::Short) where no group is left, whatever comes at the lowest position. Groups that are not reached are not looked at.
    ///
    /// ```
    /// use dual_ledger::{Bench, Group, Obstacle, Refusal};
    ///
    /// # fn main() -> Result<(), Refusal> {
    /// let mut bench = Bench::default();
    /// let node = bench.create_defect_node(0, 3)?;
    /// let mut recording = vec![];
    /// for length in [4, 3, 5] {
    ///     let mut group = Group::new();
    ///     group.add(&bench, Obstacle::NonZeroGrow(length, false))?;
    ///     recording.push(*group.words());
    /// }
    /// assert_eq!(bench.grow_recorded(0, 9, &recording)?, [4, 3, 2]);
    /// assert_eq!(bench.get_dual_variable(node)?, 9);
    /// assert_eq!(bench.grow_recorded(0, 13, &recording), Err(Refusal::Short));
    /// # Ok(())
    /// # }
    /// ```
    #[doc = errors!(grow_recorded)]
    pub fn grow_recorded(&mut self, interface: u8, length: i64, groups: &[GroupWords]) -> Result<Vec<u64>, Refusal> {
        let mut lengths = vec![0; groups.len()];
        let taken = self.grow_recorded_into(interface, length, groups, &mut lengths)?;
        lengths.truncate(taken);
        Ok(lengths)
    }

    /// The same with the lengths of the steps into the first entries of a slice, and how many; entries past them stay. The slice has an entry for each group.
    #[doc = errors!(grow_recorded_into)]
    pub fn grow_recorded_into(&mut self, interface: u8, length: i64, groups: &[GroupWords], lengths: &mut [u64]) -> Result<usize, Refusal> {
        let mut taken = 0;
        settled(recorded::grow(&mut self.0, interface, length, groups, lengths, &mut taken), ())?;
        Ok(taken)
    }
}

impl<M: DualModule + ?Sized> Telling<'_, M> {
    /// Grows against a recording, as [`Bench::grow_recorded`] does; the module is told of each step in turn, after all of them were made. Answers how many.
    #[doc = errors!(grow_recorded)]
    pub fn grow_recorded(&mut self, interface: u8, length: i64, groups: &[GroupWords]) -> Result<usize, Refusal> {
        let lengths = self.bench.grow_recorded(interface, length, groups)?;
        let bench: &Bench = self.bench;
        lengths.iter().for_each(|step| self.module.grow(bench, *step as i64));
        Ok(lengths.len())
    }
}
