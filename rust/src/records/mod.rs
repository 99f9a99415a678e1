//! Byte records: the second form of a record, which has a pair of touching serials beside each member of a blossom (docs/MANUAL.md, Byte records).
//!
//! [`to_bytes`] and [`to_text`] move between the forms by the proved functions. A [`Writer`] records a decoder's calls where they are made; [`Records`] reads
//! a file record by record, by the proved functions too; [`get`] one record of bytes that were not tested.
//!
//! ```
//! use dual_ledger::records::{self, Operation, Records, Writer};
//! use dual_ledger::{Bench, Refusal};
//!
//! # fn main() -> Result<(), Refusal> {
//! let (mut bench, mut record) = (Bench::default(), Writer::new());
//! let mut nodes = vec![];
//! for vertex in [3, 8, 9] {
//!     nodes.push(bench.create_defect_node(0, vertex)?);
//!     record.create_defect_node(0, vertex)?;
//! }
//! let touching = [[nodes[0], nodes[1]], [nodes[1], nodes[2]], [nodes[2], nodes[0]]];
//! bench.create_blossom(0, &nodes, &touching)?;
//! record.create_blossom(0, &nodes, &touching)?;
//! let file = record.finish();
//!
//! let read = Records::new(&file)?;
//! assert_eq!(read.len(), 4);
//! assert_eq!(read.get(1), Some(Operation::Defect { unit: 0, vertex: 8 }));
//! assert_eq!(records::to_text(&file), Err(Refusal::SelfPair)); // a line has no pairs
//! # Ok(())
//! # }
//! ```
mod operation;
mod reader;
mod writer;

pub use operation::{Member, Operation};
pub use reader::{Iter, Records};
pub use writer::Writer;

use crate::linked::records as linked;
use crate::refusal::settled;
use crate::Refusal;
use alloc::string::String;
use alloc::vec;
use alloc::vec::Vec;

/// The most bytes of a file: starts and trailer numbers take 4.
const LARGEST: usize = u32::MAX as usize;
/// The bytes of a trailer, and the letters that it ends in.
const TRAILER: usize = 16;
const MARK: &[u8; 4] = b"DLG2";
/// The words of a record: of a blossom of seven members, and of the 510 that a line has room for.
const SHORT: usize = 3 + 3 * 7;
const LONGEST: usize = 3 + 3 * 510;

/// What a move wrote into a slice that it was lent, of which so many bytes are enough.
fn moved(room: usize, call: impl FnOnce(&mut [u8], &mut usize) -> u8) -> Result<Vec<u8>, Refusal> {
    let (mut out, mut wrote) = (vec![0; room], 0);
    settled(call(&mut out, &mut wrote), ())?;
    out.truncate(wrote);
    out.shrink_to_fit();
    Ok(out)
}

/// How many bytes the file of a text has, if it moves; else FILE is found before SMALL, whatever the room.
fn file_size(text: &[u8]) -> usize {
    let size = |line: &[u8]| match line.first() {
        Some(b'B') => 12 * line.iter().filter(|byte| **byte == b' ').count().max(1) - 8,
        Some(b'G') => 10,
        Some(b'S') => 7,
        Some(b'D' | b'E') => 6,
        Some(b'F') => 4,
        _ => 2,
    };
    text.split_inclusive(|byte| *byte == b'\n').map(|line| size(line) + 4).sum::<usize>().saturating_add(TRAILER).min(LARGEST)
}

/// What record `at` of a file says, the first being 0, of any bytes: found by the trailer and the list alone, however many there are. The trailer, the record's
/// start and the next one's, and the record itself must fit; whether all of the file does is what [`Records::new`] asks.
///
/// ```
/// use dual_ledger::records::{self, Operation};
/// use dual_ledger::Refusal;
/// let file = records::to_bytes("D 0 3\nG 0 -5\n")?;
/// assert_eq!(records::get(&file, 1)?, Operation::Grow { unit: 0, length: -5 });
/// assert_eq!(records::get(&file, 2), Err(Refusal::Range));
/// assert_eq!(records::get(&file[1..], 0), Err(Refusal::File));
/// # Ok::<(), Refusal>(())
/// ```
#[doc = errors!(get)]
pub fn get(file: impl AsRef<[u8]>, at: usize) -> Result<Operation, Refusal> {
    let (file, mut words) = (file.as_ref(), [0; SHORT]);
    match get_into(file, at, &mut words) {
        Ok(wrote) => Ok(Operation::of_words(&words[..wrote])),
        Err(Refusal::Small) => {
            let mut words = vec![0; LONGEST];
            let wrote = get_into(file, at, &mut words)?;
            Ok(Operation::of_words(&words[..wrote]))
        }
        Err(refusal) => Err(refusal),
    }
}

/// The same as words into a lent slice: the letter, then the record's fields in order, a state and a length in two's complement; how many were written. Words past
/// them stay, and so do all where it is refused. 1,533 are always enough.
#[doc = errors!(get_into)]
pub fn get_into(file: impl AsRef<[u8]>, at: usize, out: &mut [u64]) -> Result<usize, Refusal> {
    let mut wrote = 0;
    let number = linked::get(file.as_ref(), at, out, &mut wrote);
    settled(number, wrote)
}

/// Moves a text record to a file of byte records, every pair the member itself. Lines that a run would refuse do move.
///
/// ```
/// use dual_ledger::records;
/// let file = records::to_bytes("D 0 3\nG 0 -5\n")?;
/// assert_eq!(file.len(), 6 + 10 + 2 * 4 + 16);
/// assert_eq!(records::to_text(&file)?, "D 0 3\nG 0 -5\n");
/// # Ok::<(), dual_ledger::Refusal>(())
/// ```
#[doc = errors!(to_bytes)]
pub fn to_bytes(text: impl AsRef<[u8]>) -> Result<Vec<u8>, Refusal> {
    let text = text.as_ref();
    moved(file_size(text), |out, wrote| linked::to_records(text, out, wrote))
}

/// The same into a lent slice; how many bytes were written. Bytes past them stay, and so do all where it is refused.
#[doc = errors!(to_bytes_into)]
pub fn to_bytes_into(text: impl AsRef<[u8]>, out: &mut [u8]) -> Result<usize, Refusal> {
    let mut wrote = 0;
    let number = linked::to_records(text.as_ref(), out, &mut wrote);
    settled(number, wrote)
}

/// Moves a file of byte records to text, exactly if every pair is the member itself. What was moved there and back is the same bytes.
#[doc = errors!(to_text)]
pub fn to_text(file: impl AsRef<[u8]>) -> Result<String, Refusal> {
    let file = file.as_ref();
    // the longest line has 27 bytes, of a record of 10 and a start of 4; a member's 12 are at most 11 of a line
    let text = moved(file.len().saturating_mul(2), |out, wrote| linked::to_text(file, out, wrote))?;
    Ok(String::from_utf8(text).expect("a line is letters, digits, spaces and minus"))
}

/// The same into a lent slice; how many bytes were written. Bytes past them stay, and so do all where it is refused.
#[doc = errors!(to_text_into)]
pub fn to_text_into(file: impl AsRef<[u8]>, out: &mut [u8]) -> Result<usize, Refusal> {
    let mut wrote = 0;
    let number = linked::to_text(file.as_ref(), out, &mut wrote);
    settled(number, wrote)
}
