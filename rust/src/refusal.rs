//! The numbers that a call can be refused by.
use core::fmt;

macro_rules! refusals {
    ($($name:ident = $number:literal, $words:literal, $about:literal;)*) => {
        /// Why a call was refused. The names and numbers are the manual's (docs/MANUAL.md, Refusals); where several apply, the lowest is given (of a picture
        /// SMALL after UNSOUND, since only a picture that may be written has a length; of a move FILE, then SELF, then SMALL; of a recorded growth
        /// what comes at the lowest position, then SMALL). More may come.
        #[derive(Clone, Copy, Debug, PartialEq, Eq, PartialOrd, Ord, Hash)]
        #[repr(u8)]
        #[non_exhaustive]
        pub enum Refusal {
            $(#[doc = $about] $name = $number,)*
        }

        impl Refusal {
            /// All of them, in rising order.
            pub const ALL: [Refusal; 28] = [$(Refusal::$name),*];

            /// The name in the manual's table.
            pub fn name(self) -> &'static str {
                match self {
                    $(Refusal::$name => $words,)*
                }
            }

            /// When it is given, in a few words.
            pub fn about(self) -> &'static str {
                match self {
                    $(Refusal::$name => $about,)*
                }
            }
        }
    };
}

refusals! {
    Line = 1, "LINE", "a line that is not of the text program's grammar";
    Broken = 2, "BROKEN", "the words hold no sound bench or group";
    Unit = 3, "UNIT", "an interface above 7";
    Child = 4, "CHILD", "the interface has a parent";
    Length = 5, "LENGTH", "the growth is negative, or the progress would pass 2^40";
    Circle = 6, "CIRCLE", "a circle of no members, or of more than 64";
    Touch = 7, "TOUCH", "the touching list is neither empty nor as long as the circle";
    Stale = 8, "STALE", "a handle names no present node";
    Foreign = 9, "FOREIGN", "a node of another tree than the interface's";
    Kind = 10, "KIND", "expansion of a defect, or a pop or peek of a growth";
    Inside = 11, "INSIDE", "the node has a parent";
    Top = 12, "TOP", "the node has no parent";
    Twice = 13, "TWICE", "a member twice";
    Full = 14, "FULL", "all 64 slots of the interface are used; of one that fills emptied slots, 64 nodes are present";
    Worn = 15, "WORN", "no serial is left, or set-up from serial 0";
    Pair = 16, "PAIR", "the halves are one interface, or the parent's number is not above both";
    Used = 17, "USED", "the parent has slots used, progress or halves";
    Range = 18, "RANGE", "the index is at or past the count";
    Small = 19, "SMALL", "the slice is shorter than the node's vertices, than the picture, than what is moved, or than the recording has groups";
    Room = 20, "ROOM", "the list or the stops would pass 128";
    Nothing = 21, "NOTHING", "the group holds no growth to ask for";
    SelfPair = 22, "SELF", "a record's pair is not the member itself, which a line of text cannot say";
    File = 23, "FILE", "a trailer, list or record that does not fit, or a text with a bad line";
    Unsound = 24, "UNSOUND", "the check of the interface finds something";
    Below = 25, "BELOW", "a shrinking node of a floored tree would fall below zero";
    Mark = 26, "MARK", "the interface is marked too late: it has slots used, or halves; or one half of a fuse is floored and the other is not";
    Stuck = 27, "STUCK", "a group of the recording holds conflicts, or a growth of 0 or less";
    Short = 28, "SHORT", "no group of the recording is left, and length is";
}

impl Refusal {
    /// The manual's number.
    pub fn number(self) -> u8 {
        self as u8
    }

    /// The refusal of a number; none for 0, which is accepted, and for numbers that nothing is refused by.
    pub fn from_number(number: u8) -> Option<Refusal> {
        Refusal::ALL.into_iter().find(|refusal| refusal.number() == number)
    }
}

impl fmt::Display for Refusal {
    fn fmt(&self, f: &mut fmt::Formatter) -> fmt::Result {
        write!(f, "{} ({}): {}", self.name(), self.number(), self.about())
    }
}

#[cfg(feature = "std")]
impl std::error::Error for Refusal {}

/// What a number means for the value beside it.
#[inline]
pub(crate) fn settled<T>(number: u8, value: T) -> Result<T, Refusal> {
    match number {
        0 => Ok(value),
        other => Err(Refusal::from_number(other).expect("no function answers a number that has no name")),
    }
}
