//! What a node is named by, and the states it can have.
use core::fmt;

/// A node's name: interface, slot and serial. No serial is used twice in a bench, so a handle of a node that went names nothing from then on, and calls
/// answer [`Refusal::Stale`](crate::Refusal::Stale). A handle belongs to the bench that gave it out.
#[derive(Clone, Copy, PartialEq, Eq, PartialOrd, Ord, Hash)]
#[repr(transparent)]
pub struct Handle(u64);

/// From here on a word is no handle.
const LIMIT: u64 = 1 << 41;

impl Handle {
    /// What the library answers for an emptied slot.
    pub(crate) const NONE: Handle = Handle(LIMIT);

    /// A handle of its parts. Any may be given: an interface above 7 or a slot above 63 names no node.
    ///
    /// ```
    /// use dual_ledger::Handle;
    /// let handle = Handle::new(2, 5, 17);
    /// assert_eq!((handle.interface(), handle.slot(), handle.serial()), (2, 5, 17));
    /// ```
    pub fn new(interface: u8, slot: u8, serial: u32) -> Handle {
        if interface > 7 || slot > 63 {
            return Handle::NONE;
        }
        Handle((u64::from(serial) * 64 + u64::from(slot)) * 8 + u64::from(interface))
    }

    /// A handle from its word, as [`word`](Handle::word) gives it. A word of 2^41 or more names no node.
    pub fn from_word(word: u64) -> Handle {
        Handle(word)
    }

    /// The handle as one word: (serial * 64 + slot) * 8 + interface.
    pub fn word(self) -> u64 {
        self.0
    }

    /// The interface whose slot the node holds, 0 to 7; 8 for a word that is no handle.
    pub fn interface(self) -> u8 {
        if self.0 < LIMIT {
            (self.0 % 8) as u8
        } else {
            8
        }
    }

    /// The slot, 0 to 63.
    pub fn slot(self) -> u8 {
        (self.0 / 8 % 64) as u8
    }

    /// The serial.
    pub fn serial(self) -> u32 {
        (self.0 / 512) as u32
    }
}

impl fmt::Debug for Handle {
    fn fmt(&self, f: &mut fmt::Formatter) -> fmt::Result {
        write!(f, "Handle({}, {}, {})", self.interface(), self.slot(), self.serial())
    }
}

/// As the serial that a record names it by; `no node` for a word that is no handle.
///
/// ```
/// use dual_ledger::Handle;
/// assert_eq!(Handle::new(2, 5, 17).to_string(), "serial 17 (interface 2, slot 5)");
/// assert_eq!(Handle::new(9, 5, 17).to_string(), "no node");
/// ```
impl fmt::Display for Handle {
    fn fmt(&self, f: &mut fmt::Formatter) -> fmt::Result {
        if self.0 >= LIMIT {
            return f.write_str("no node");
        }
        write!(f, "serial {} (interface {}, slot {})", self.serial(), self.interface(), self.slot())
    }
}

/// Whether a node's value rises, stays or falls as its tree grows.
#[derive(Clone, Copy, Debug, PartialEq, Eq, Hash)]
pub enum GrowState {
    /// The value rises with each growth.
    Grow,
    /// The value stays.
    Stay,
    /// The value falls.
    Shrink,
}

impl GrowState {
    /// Whether two regions that meet, with these states, cannot both go on so.
    pub fn is_against(self, other: GrowState) -> bool {
        use GrowState::{Grow, Stay};
        matches!((self, other), (Grow, Grow | Stay) | (Stay, Grow))
    }

    /// What one unit of growth adds to the value.
    pub fn rate(self) -> i8 {
        match self {
            GrowState::Grow => 1,
            GrowState::Stay => 0,
            GrowState::Shrink => -1,
        }
    }
}
