//! Groups of obstacles: what stands in the way of growing, as the original's `GroupMaxUpdateLength`.
use crate::linked::{group, ObstacleWords, SoundGroup, GROUP_WORDS};
use crate::refusal::settled;
use crate::{Bench, Handle, Refusal};
use alloc::boxed::Box;
use alloc::vec::Vec;

/// What stands in the way, as the original's `MaxUpdateLength`. Pairs are a node and what touches there.
#[derive(Clone, Copy, Debug, PartialEq, Eq, Hash)]
pub enum Obstacle {
    /// Growing by this length is possible; whether some boundary node is empty.
    NonZeroGrow(i64, bool),
    /// Two nodes meet.
    Conflicting((Handle, Handle), (Handle, Handle)),
    /// A node meets a virtual vertex; whether that is a mirror.
    TouchingVirtual((Handle, Handle), (u32, bool)),
    /// A shrinking blossom is at 0.
    BlossomNeedExpand(Handle),
    /// A shrinking vertex is at 0, perhaps with the pair that it would conflict by.
    VertexShrinkStop(Handle, Option<(Handle, Handle)>),
}

impl Obstacle {
    /// Words that are no handle are all one, and written as the first of them.
    #[inline]
    fn words(self) -> ObstacleWords {
        let flag = u64::from;
        let hand = |node: Handle| node.min(Handle::NONE).word();
        match self {
            Obstacle::NonZeroGrow(length, empty) => [1, length as u64, flag(empty), 0, 0],
            Obstacle::Conflicting((a, b), (c, d)) => [2, hand(a), hand(b), hand(c), hand(d)],
            Obstacle::TouchingVirtual((a, b), (vertex, mirror)) => [3, hand(a), hand(b), u64::from(vertex), flag(mirror)],
            Obstacle::BlossomNeedExpand(a) => [4, hand(a), 0, 0, 0],
            Obstacle::VertexShrinkStop(a, None) => [5, hand(a), 0, 0, 0],
            Obstacle::VertexShrinkStop(a, Some((b, c))) => [6, hand(a), hand(b), hand(c), 0],
        }
    }

    /// None for the words of no obstacle.
    #[inline]
    fn from_words(words: &[u64]) -> Option<Obstacle> {
        let at = |place: usize| Handle::from_word(words[place]).min(Handle::NONE);
        match words[0] {
            1 => Some(Obstacle::NonZeroGrow(words[1] as i64, words[2] == 1)),
            2 => Some(Obstacle::Conflicting((at(1), at(2)), (at(3), at(4)))),
            3 => Some(Obstacle::TouchingVirtual((at(1), at(2)), (words[3] as u32, words[4] == 1))),
            4 => Some(Obstacle::BlossomNeedExpand(at(1))),
            5 => Some(Obstacle::VertexShrinkStop(at(1), None)),
            6 => Some(Obstacle::VertexShrinkStop(at(1), Some((at(2), at(3))))),
            _ => None,
        }
    }
}

/// A growth, or conflicts: a list of at most 128 obstacles and at most 128 pending stops by vertex. Always sound.
///
/// ```
/// use dual_ledger::{Bench, Group, Obstacle, Refusal};
///
/// # fn main() -> Result<(), Refusal> {
/// let mut bench = Bench::default();
/// let node = bench.create_defect_node(0, 3)?;
/// let mut group = Group::default();
/// group.add(&bench, Obstacle::NonZeroGrow(5, false))?;
/// assert_eq!(group.get_none_zero_growth()?, Some(5));
///
/// group.add(&bench, Obstacle::BlossomNeedExpand(node))?; // the growth is lost
/// assert_eq!(group.get_none_zero_growth()?, None);
/// assert_eq!(group.pop()?, Some(Obstacle::BlossomNeedExpand(node)));
/// assert_eq!(group.pop()?, None);
/// # Ok(())
/// # }
/// ```
///
/// Each call touches only what it is about; the words of a dropped group serve the next one of the thread, so that a new group costs next to nothing.
pub struct Group(Option<Box<SoundGroup>>);

impl Default for Group {
    /// The empty group: a growth of the largest weight.
    #[inline]
    fn default() -> Self {
        Group(Some(SoundGroup::empty()))
    }
}

impl Clone for Group {
    fn clone(&self) -> Self {
        Group(self.0.clone())
    }
}

impl Drop for Group {
    #[inline]
    fn drop(&mut self) {
        if let Some(words) = self.0.take() {
            SoundGroup::keep(words);
        }
    }
}

/// Two groups are equal where they are the same growth, or hold the same obstacles: what else stands in their words says nothing.
impl PartialEq for Group {
    fn eq(&self, other: &Group) -> bool {
        self.growth() == other.growth() && self.list().eq(other.list()) && self.stops().eq(other.stops())
    }
}

impl Eq for Group {}

impl Group {
    /// The empty group.
    #[inline]
    pub fn new() -> Group {
        Group::default()
    }

    /// The group that words hold, tested once.
    ///
    /// # Errors
    /// [`Refusal::Broken`] where the words hold no sound group.
    #[inline]
    pub fn from_words(words: &[u64; GROUP_WORDS]) -> Result<Group, Refusal> {
        SoundGroup::tested(words).map(|words| Group(Some(words))).ok_or(Refusal::Broken)
    }

    /// The words, to be kept or sent.
    #[inline]
    pub fn words(&self) -> &[u64; GROUP_WORDS] {
        self.held().words()
    }

    /// They are taken out only when the group is dropped.
    #[inline]
    fn held(&self) -> &SoundGroup {
        self.0.as_ref().expect("a group has words until it is dropped")
    }

    #[inline]
    fn held_mut(&mut self) -> &mut SoundGroup {
        self.0.as_mut().expect("a group has words until it is dropped")
    }

    /// Whether no obstacle stands in the way: a growth of the largest weight.
    #[inline]
    pub fn is_empty(&self) -> bool {
        let mut yes = 0;
        group::group_is_empty(self.held(), &mut yes);
        yes == 1
    }

    /// Whether it is anything but the empty group.
    #[inline]
    pub fn is_active(&self) -> bool {
        let mut yes = 0;
        group::group_is_active(self.held(), &mut yes);
        yes == 1
    }

    /// The length of a growth; none of conflicts.
    ///
    /// # Errors
    /// [`Refusal::Nothing`] for a growth of the largest weight.
    #[inline]
    pub fn get_none_zero_growth(&self) -> Result<Option<i64>, Refusal> {
        let (mut asked, mut length) = (0, 0);
        let number = group::group_get_none_zero_growth(self.held(), &mut asked, &mut length);
        settled(number, (asked == 1).then_some(length))
    }

    /// The obstacle that [`pop`](Group::pop) and [`pop_sparing_stops`](Group::pop_sparing_stops) would take, left where it is.
    ///
    /// # Errors
    /// [`Refusal::Kind`] for a growth.
    #[inline]
    pub fn peek(&self) -> Result<Option<Obstacle>, Refusal> {
        let mut words = [0; 5];
        settled(group::group_peek(self.held(), &mut words), Obstacle::from_words(&words))
    }

    /// Takes the last of the list, else the stop of the smallest vertex. That stop goes in either case, as in the original: to lose none, call
    /// [`pop_sparing_stops`](Group::pop_sparing_stops).
    ///
    /// # Errors
    /// [`Refusal::Kind`] for a growth.
    #[inline]
    pub fn pop(&mut self) -> Result<Option<Obstacle>, Refusal> {
        let mut words = [0; 5];
        settled(group::group_pop(self.held_mut(), &mut words), Obstacle::from_words(&words))
    }

    /// Takes the last of the list, else the stop of the smallest vertex: a stop only where the list is empty, so that none is lost. The original has no such
    /// call.
    ///
    /// ```
    /// use dual_ledger::{Bench, Group, Obstacle, Refusal};
    ///
    /// # fn main() -> Result<(), Refusal> {
    /// let mut bench = Bench::default();
    /// let node = bench.create_defect_node(0, 3)?;
    /// let (listed, stop) = (Obstacle::BlossomNeedExpand(node), Obstacle::VertexShrinkStop(node, None));
    /// let mut group = Group::new();
    /// group.add(&bench, stop)?;
    /// group.add(&bench, listed)?;
    /// assert_eq!(group.pop_sparing_stops()?, Some(listed));
    /// assert_eq!(group.pop_sparing_stops()?, Some(stop)); // `pop` would have thrown it away
    /// assert_eq!(group.pop_sparing_stops()?, None);
    /// # Ok(())
    /// # }
    /// ```
    ///
    /// # Errors
    /// [`Refusal::Kind`] for a growth.
    #[inline]
    pub fn pop_sparing_stops(&mut self) -> Result<Option<Obstacle>, Refusal> {
        let mut words = [0; 5];
        settled(group::group_pop_sparing_stops(self.held_mut(), &mut words), Obstacle::from_words(&words))
    }

    /// Every entry, taken one after another by [`pop_sparing_stops`](Group::pop_sparing_stops): the list from its end, then the stops by rising vertex, each
    /// once. What is not asked for stays in the group. Nothing comes of a growth.
    ///
    /// ```
    /// # use dual_ledger::{Bench, Group, Obstacle, Refusal};
    /// # fn main() -> Result<(), Refusal> {
    /// # let mut bench = Bench::default();
    /// # let node = bench.create_defect_node(0, 3)?;
    /// # let mut group = Group::new();
    /// # group.add(&bench, Obstacle::VertexShrinkStop(node, None))?;
    /// # group.add(&bench, Obstacle::BlossomNeedExpand(node))?;
    /// for obstacle in group.drain_sparing_stops() {
    ///     println!("{obstacle:?}");
    /// }
    /// assert_eq!(group.list().count() + group.stops().count(), 0);
    /// # Ok(())
    /// # }
    /// ```
    pub fn drain_sparing_stops(&mut self) -> impl Iterator<Item = Obstacle> + '_ {
        core::iter::from_fn(move || self.pop_sparing_stops().ok().flatten())
    }

    /// Adds an obstacle; every node that it names must be present in the bench.
    #[doc = errors!(add)]
    #[inline]
    pub fn add(&mut self, bench: &Bench, obstacle: Obstacle) -> Result<(), Refusal> {
        settled(group::group_add(&bench.0, self.held_mut(), &obstacle.words()), ())
    }

    /// Adds what another group holds; every node that it names must be present in the bench.
    #[doc = errors!(extend)]
    #[inline]
    pub fn extend(&mut self, bench: &Bench, other: &Group) -> Result<(), Refusal> {
        settled(group::group_extend(&bench.0, self.held_mut(), other.held()), ())
    }

    /// Length and flag of a growth, of the largest weight too; none of conflicts.
    #[inline]
    pub fn growth(&self) -> Option<(i64, bool)> {
        (self.words()[0] == 1).then_some((self.words()[1] as i64, self.words()[2] == 1))
    }

    /// The obstacles listed, in the order of the list; none of a growth.
    pub fn list(&self) -> impl Iterator<Item = Obstacle> + '_ {
        self.words()[5..].chunks(5).take(self.count(3)).filter_map(Obstacle::from_words)
    }

    /// The pending stops by rising vertex; none of a growth.
    pub fn stops(&self) -> impl Iterator<Item = (u32, Obstacle)> + '_ {
        self.words()[645..].chunks(6).take(self.count(4)).filter_map(|stop| Some((stop[0] as u32, Obstacle::from_words(&stop[1..])?)))
    }

    /// A growth says nothing by its counts.
    #[inline]
    fn count(&self, word: usize) -> usize {
        if self.words()[0] == 2 {
            self.words()[word] as usize
        } else {
            0
        }
    }
}

impl core::fmt::Debug for Group {
    fn fmt(&self, f: &mut core::fmt::Formatter) -> core::fmt::Result {
        match self.growth() {
            Some((length, flag)) => f.debug_struct("Group").field("length", &length).field("flag", &flag).finish(),
            None => {
                f.debug_struct("Group").field("list", &self.list().collect::<Vec<_>>()).field("stops", &self.stops().collect::<Vec<_>>()).finish()
            }
        }
    }
}
