//! What the checks find.
use core::fmt;

/// The first finding of a check, with the index of the node it is about. The numbers are the manual's (docs/MANUAL.md, The check).
#[derive(Clone, Copy, Debug, PartialEq, Eq, Hash)]
pub enum Verdict {
    /// 0: nothing was found.
    Sound,
    /// 1: a vertex was seen before; the index of the later.
    VertexTwice(u32),
    /// 2: a touching handle of a defect member is not the member itself; the member's index.
    DefectTouch(u32),
    /// 3: a touching node of a blossom member has another outermost blossom than the member; the member's index.
    OtherOutermost(u32),
    /// 4: a touching node of a blossom member is gone; the member's index.
    TouchGone(u32),
    /// 5: the sum differs from the total of the values. So it is after an expansion at a value other than 0.
    SumDiffers,
    /// 6, the strict check's alone: a touching node of a blossom member is not under it; the member's index.
    NotUnder(u32),
}

impl Verdict {
    pub(crate) fn of(number: u64, index: u64) -> Verdict {
        let at = index as u32;
        match number {
            0 => Verdict::Sound,
            1 => Verdict::VertexTwice(at),
            2 => Verdict::DefectTouch(at),
            3 => Verdict::OtherOutermost(at),
            4 => Verdict::TouchGone(at),
            5 => Verdict::SumDiffers,
            6 => Verdict::NotUnder(at),
            other => unreachable!("no verdict is {other}"),
        }
    }

    /// The manual's number, 0 to 6.
    pub fn number(self) -> u8 {
        match self {
            Verdict::Sound => 0,
            Verdict::VertexTwice(_) => 1,
            Verdict::DefectTouch(_) => 2,
            Verdict::OtherOutermost(_) => 3,
            Verdict::TouchGone(_) => 4,
            Verdict::SumDiffers => 5,
            Verdict::NotUnder(_) => 6,
        }
    }

    /// The index of the node it is about; 0 where it is about none.
    pub fn index(self) -> u32 {
        match self {
            Verdict::Sound | Verdict::SumDiffers => 0,
            Verdict::VertexTwice(at) | Verdict::DefectTouch(at) | Verdict::OtherOutermost(at) | Verdict::TouchGone(at) | Verdict::NotUnder(at) => at,
        }
    }
}

/// The number, and what was found.
///
/// ```
/// use dual_ledger::Verdict;
/// assert_eq!(Verdict::Sound.to_string(), "0: sound");
/// assert_eq!(Verdict::VertexTwice(4).to_string(), "1: the vertex at index 4 was seen before");
/// ```
impl fmt::Display for Verdict {
    fn fmt(&self, f: &mut fmt::Formatter) -> fmt::Result {
        let (number, at) = (self.number(), self.index());
        match self {
            Verdict::Sound => write!(f, "{number}: sound"),
            Verdict::VertexTwice(_) => write!(f, "{number}: the vertex at index {at} was seen before"),
            Verdict::DefectTouch(_) => write!(f, "{number}: the defect at index {at} touches by another node"),
            Verdict::OtherOutermost(_) => write!(f, "{number}: the blossom at index {at} touches by a node of another outermost blossom"),
            Verdict::TouchGone(_) => write!(f, "{number}: a node that the blossom at index {at} touches by is gone"),
            Verdict::SumDiffers => write!(f, "{number}: the sum is not the total of the values"),
            Verdict::NotUnder(_) => write!(f, "{number}: the blossom at index {at} touches by a node that is not under it"),
        }
    }
}
