//! A file of byte records, made call by call.
use super::{Member, Operation, Records, LARGEST, MARK, TRAILER};
use crate::{GrowState, Handle, Refusal};
use alloc::vec::Vec;

/// A file of byte records as it is made: call by call, with what touches where. [`finish`](Writer::finish) closes it.
#[derive(Clone, Debug, Default, PartialEq, Eq)]
pub struct Writer {
    records: Vec<u8>,
    starts: Vec<u32>,
}

impl Writer {
    /// A file of no records yet.
    pub fn new() -> Writer {
        Writer::default()
    }

    /// How many records were appended.
    pub fn len(&self) -> usize {
        self.starts.len()
    }

    /// Whether none was.
    pub fn is_empty(&self) -> bool {
        self.starts.is_empty()
    }

    /// Appends an operation, whatever a run of it would answer.
    ///
    /// # Errors
    /// [`File`](Refusal::File): it has no record (a serial 0, no members, a line of more than 1,024 bytes), or the file would pass 4,294,967,295 bytes. Then nothing
    /// is appended.
    pub fn push(&mut self, operation: &Operation) -> Result<(), Refusal> {
        if !operation.is_writable() {
            return Err(Refusal::File);
        }
        let start = self.records.len();
        operation.put(&mut self.records);
        if self.records.len() + 4 * (self.starts.len() + 1) + TRAILER > LARGEST {
            self.records.truncate(start);
            return Err(Refusal::File);
        }
        self.starts.push(start as u32);
        Ok(())
    }

    /// Appends [`Bench::create_defect_node`](crate::Bench::create_defect_node).
    ///
    /// # Errors
    /// As [`push`](Writer::push), here and below.
    pub fn create_defect_node(&mut self, unit: u8, vertex: u32) -> Result<(), Refusal> {
        self.push(&Operation::Defect { unit, vertex })
    }

    /// Appends [`Bench::create_blossom`](crate::Bench::create_blossom), with what touches at each member; an empty list says that each touches by itself.
    ///
    /// # Errors
    /// [`Touch`](Refusal::Touch) besides: the touching list is neither empty nor as long as the circle.
    pub fn create_blossom(&mut self, unit: u8, circle: &[Handle], touching: &[[Handle; 2]]) -> Result<(), Refusal> {
        if !touching.is_empty() && touching.len() != circle.len() {
            return Err(Refusal::Touch);
        }
        let member = |(at, node): (usize, &Handle)| match touching.get(at) {
            Some([first, second]) => Member { serial: node.serial(), first: first.serial(), second: second.serial() },
            None => Member::itself(node.serial()),
        };
        self.push(&Operation::Blossom { unit, members: circle.iter().enumerate().map(member).collect() })
    }

    /// Appends [`Bench::expand_blossom`](crate::Bench::expand_blossom).
    pub fn expand_blossom(&mut self, unit: u8, node: Handle) -> Result<(), Refusal> {
        self.push(&Operation::Expand { unit, serial: node.serial() })
    }

    /// Appends [`Bench::set_grow_state`](crate::Bench::set_grow_state).
    pub fn set_grow_state(&mut self, unit: u8, node: Handle, state: GrowState) -> Result<(), Refusal> {
        self.push(&Operation::SetState { unit, serial: node.serial(), state })
    }

    /// Appends [`Bench::grow`](crate::Bench::grow).
    pub fn grow(&mut self, unit: u8, length: i64) -> Result<(), Refusal> {
        self.push(&Operation::Grow { unit, length })
    }

    /// Appends [`Bench::fuse`](crate::Bench::fuse).
    pub fn fuse(&mut self, parent: u8, left: u8, right: u8) -> Result<(), Refusal> {
        self.push(&Operation::Fuse { parent, left, right })
    }

    /// Appends [`Bench::clear`](crate::Bench::clear).
    pub fn clear(&mut self, unit: u8) -> Result<(), Refusal> {
        self.push(&Operation::Clear { unit })
    }

    /// Appends [`Bench::sanity_check`](crate::Bench::sanity_check).
    pub fn sanity_check(&mut self, unit: u8) -> Result<(), Refusal> {
        self.push(&Operation::Check { unit })
    }

    /// Closes the file with the list of starts and the trailer.
    pub fn finish(self) -> Vec<u8> {
        let (start, count) = (self.records.len() as u32, self.starts.len() as u32);
        let mut file = self.records;
        file.reserve_exact(4 * self.starts.len() + TRAILER);
        for start in self.starts {
            file.extend(start.to_le_bytes());
        }
        let before = file.len() as u32;
        for number in [start, count, before] {
            file.extend(number.to_le_bytes());
        }
        file.extend(MARK);
        debug_assert_eq!(Records::new(&file).map(|records| records.len()), Ok(count as usize));
        file
    }
}
