//! What a call tells a dual module: the list of notices, proved to be the calls that the original makes, in its order.
use crate::linked::AnswerWords;
use crate::{GrowState, Handle};

/// One thing that a dual module is told.
#[derive(Clone, Copy, Debug, PartialEq, Eq, Hash)]
pub enum Notice<'a> {
    /// A defect's node was added.
    DefectAdded(Handle),
    /// A node's state was set.
    StateSet(Handle, GrowState),
    /// The members of a circle that is to become a blossom.
    ShrinkPrepared(&'a [Handle]),
    /// A blossom was added.
    BlossomAdded(Handle),
    /// A blossom was taken apart.
    BlossomRemoved(Handle),
    /// The tree has grown by so much.
    Grown(i64),
}

/// The answer of an accepted call that tells its notices.
#[derive(Clone)]
pub struct Told(AnswerWords);

impl Told {
    #[inline]
    pub(crate) fn blank() -> Told {
        Told(AnswerWords::blank())
    }

    #[inline]
    pub(crate) fn words(&mut self) -> &mut AnswerWords {
        &mut self.0
    }

    /// The node made or named; of a growth there is none.
    pub fn node(&self) -> Option<Handle> {
        let is_grown = matches!(self.notices().next(), Some(Notice::Grown(_)));
        (!is_grown).then_some(self.0.node())
    }

    /// The notices in order, at most 66.
    #[inline]
    pub fn notices(&self) -> impl ExactSizeIterator<Item = Notice<'_>> {
        self.0.notices().iter().map(|[kind, of]| self.notice(*kind, *of))
    }

    #[inline]
    fn notice(&self, kind: u64, of: u64) -> Notice<'_> {
        let node = Handle::from_word(of);
        match kind {
            1 => Notice::DefectAdded(node),
            2 => Notice::StateSet(node, GrowState::Stay),
            3 => Notice::StateSet(node, GrowState::Grow),
            4 => Notice::StateSet(node, GrowState::Shrink),
            5 => Notice::ShrinkPrepared(self.0.circle()),
            6 => Notice::BlossomAdded(node),
            7 => Notice::BlossomRemoved(node),
            8 => Notice::Grown(of as i64),
            other => unreachable!("no notice is of kind {other}"),
        }
    }
}

impl core::fmt::Debug for Told {
    fn fmt(&self, f: &mut core::fmt::Formatter) -> core::fmt::Result {
        f.debug_list().entries(self.notices()).finish()
    }
}
