//! A file of byte records, read record by record.
use super::{linked, Operation};
use crate::refusal::settled;
use crate::Refusal;

/// A file of byte records, tested, to be read record by record.
#[derive(Clone, Copy, PartialEq, Eq)]
pub struct Records<'a> {
    file: &'a [u8],
    count: usize,
}

impl core::fmt::Debug for Records<'_> {
    fn fmt(&self, f: &mut core::fmt::Formatter) -> core::fmt::Result {
        f.debug_list().entries(*self).finish()
    }
}

impl<'a> Records<'a> {
    /// Tests a file whole: its trailer, its list and every record.
    ///
    /// # Errors
    /// [`File`](Refusal::File): it is none.
    pub fn new(file: &'a [u8]) -> Result<Records<'a>, Refusal> {
        let mut count = 0;
        settled(linked::count(file, &mut count), ())?;
        Ok(Records { file, count })
    }

    /// How many records it has.
    pub fn len(&self) -> usize {
        self.count
    }

    /// Whether it has none.
    pub fn is_empty(&self) -> bool {
        self.count == 0
    }

    /// What record `at` says, the first being 0; found by the list, however many there are. None past the last.
    pub fn get(&self, at: usize) -> Option<Operation> {
        (at < self.count).then(|| super::get(self.file, at).expect("a whole file has its records"))
    }

    /// Each record in turn.
    pub fn iter(&self) -> Iter<'a> {
        Iter { records: *self, next: 0 }
    }
}

/// The records of a file in turn.
#[derive(Clone, Debug)]
pub struct Iter<'a> {
    records: Records<'a>,
    next: usize,
}

impl Iterator for Iter<'_> {
    type Item = Operation;

    fn next(&mut self) -> Option<Operation> {
        let operation = self.records.get(self.next)?;
        self.next += 1;
        Some(operation)
    }

    fn size_hint(&self) -> (usize, Option<usize>) {
        let left = self.records.len() - self.next;
        (left, Some(left))
    }
}

impl ExactSizeIterator for Iter<'_> {}

impl<'a> IntoIterator for Records<'a> {
    type Item = Operation;
    type IntoIter = Iter<'a>;

    fn into_iter(self) -> Iter<'a> {
        self.iter()
    }
}
