//! What one record says, and its bytes.
use crate::GrowState;
use alloc::vec::Vec;

/// The most bytes of a line, its newline left out.
const LINE: usize = 1023;

/// A member of a blossom, and the serials that touch at its two ends of the circle.
#[derive(Clone, Copy, Debug, PartialEq, Eq, Hash)]
pub struct Member {
    /// The member's serial.
    pub serial: u32,
    /// What touches there, towards the member before it.
    pub first: u32,
    /// And towards the member after it.
    pub second: u32,
}

impl Member {
    /// A member that touches by itself, as every member of a text line does.
    pub fn itself(serial: u32) -> Member {
        Member { serial, first: serial, second: serial }
    }
}

/// What a record says: a line's call, with a pair of serials beside each member.
#[derive(Clone, Debug, PartialEq, Eq, Hash)]
pub enum Operation {
    /// `D`: the node of a vertex.
    Defect {
        /// The interface.
        unit: u8,
        /// The vertex.
        vertex: u32,
    },
    /// `B`: a blossom of the members, in circle order.
    Blossom {
        /// The interface.
        unit: u8,
        /// At least one.
        members: Vec<Member>,
    },
    /// `E`: the blossom is taken apart.
    Expand {
        /// The interface.
        unit: u8,
        /// The blossom.
        serial: u32,
    },
    /// `S`: the node's state.
    SetState {
        /// The interface.
        unit: u8,
        /// The node.
        serial: u32,
        /// Its state from now on.
        state: GrowState,
    },
    /// `G`: the interface grows.
    Grow {
        /// The interface.
        unit: u8,
        /// By so much.
        length: i64,
    },
    /// `F`: two interfaces become the halves of a third.
    Fuse {
        /// The third.
        parent: u8,
        /// A half.
        left: u8,
        /// The other half.
        right: u8,
    },
    /// `C`: the interface is emptied.
    Clear {
        /// The interface.
        unit: u8,
    },
    /// `K`: the interface is checked.
    Check {
        /// The interface.
        unit: u8,
    },
}

fn digits(number: u32) -> usize {
    number.checked_ilog10().unwrap_or(0) as usize + 1
}

impl Operation {
    /// From the words of a record: letter, fields.
    pub(super) fn of_words(words: &[u64]) -> Operation {
        let (unit, four, byte) = (words[1] as u8, |at: usize| words[at] as u32, |at: usize| words[at] as u8);
        match words[0] as u8 {
            b'D' => Operation::Defect { unit, vertex: four(2) },
            b'B' => {
                let members = words[3..].chunks_exact(3).map(|w| Member { serial: w[0] as u32, first: w[1] as u32, second: w[2] as u32 });
                Operation::Blossom { unit, members: members.collect() }
            }
            b'E' => Operation::Expand { unit, serial: four(2) },
            b'S' => {
                let state = match words[3] as i64 {
                    0 => GrowState::Stay,
                    1 => GrowState::Grow,
                    _ => GrowState::Shrink,
                };
                Operation::SetState { unit, serial: four(2), state }
            }
            b'G' => Operation::Grow { unit, length: words[2] as i64 },
            b'F' => Operation::Fuse { parent: unit, left: byte(2), right: byte(3) },
            b'C' => Operation::Clear { unit },
            _ => Operation::Check { unit },
        }
    }

    /// Whether it has a record: serials are from 1, a blossom has members, and its line has at most 1,024 bytes with the newline.
    pub(super) fn is_writable(&self) -> bool {
        match self {
            Operation::Blossom { unit, members } => {
                let serials = members.iter().all(|member| member.serial > 0 && member.first > 0 && member.second > 0);
                let line = 2 + digits(u32::from(*unit)) + members.iter().map(|member| 1 + digits(member.serial)).sum::<usize>();
                !members.is_empty() && serials && line <= LINE
            }
            Operation::Expand { serial, .. } | Operation::SetState { serial, .. } => *serial > 0,
            _ => true,
        }
    }

    /// The bytes of its record.
    pub(super) fn put(&self, out: &mut Vec<u8>) {
        match self {
            Operation::Defect { unit, vertex } => {
                out.extend([b'D', *unit]);
                out.extend(vertex.to_le_bytes());
            }
            Operation::Blossom { unit, members } => {
                out.extend([b'B', *unit]);
                out.extend((members.len() as u16).to_le_bytes());
                for member in members {
                    for serial in [member.serial, member.first, member.second] {
                        out.extend(serial.to_le_bytes());
                    }
                }
            }
            Operation::Expand { unit, serial } => {
                out.extend([b'E', *unit]);
                out.extend(serial.to_le_bytes());
            }
            Operation::SetState { unit, serial, state } => {
                out.extend([b'S', *unit]);
                out.extend(serial.to_le_bytes());
                out.push(state.rate() as u8);
            }
            Operation::Grow { unit, length } => {
                out.extend([b'G', *unit]);
                out.extend(length.to_le_bytes());
            }
            Operation::Fuse { parent, left, right } => out.extend([b'F', *parent, *left, *right]),
            Operation::Clear { unit } => out.extend([b'C', *unit]),
            Operation::Check { unit } => out.extend([b'K', *unit]),
        }
    }
}
