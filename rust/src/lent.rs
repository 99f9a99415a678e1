//! The calls, reads and checks on words from anywhere: a file, another process, a device. Each tests the words first and answers [`Refusal::Broken`] where they
//! hold no sound bench; a refused call leaves every word as it was. To make many calls, test once by [`Bench::from_words`](crate::Bench::from_words).
//!
//! ```
//! use dual_ledger::{lent, Bench, Notice, Refusal};
//!
//! let mut words = *Bench::default().words();
//! let told = lent::create_defect_node(&mut words, 0, 3).unwrap();
//! let node = told.node().unwrap();
//! assert_eq!(told.notices().collect::<Vec<_>>(), [Notice::DefectAdded(node)]);
//!
//! words[0] = 0; // no serial comes next: not a sound bench
//! assert_eq!(lent::get_dual_variable(&words, node), Err(Refusal::Broken));
//! ```
use crate::linked::{any, recorded, AnswerWords, Words};
use crate::reads::{reads, MOST_VERTICES, PICTURE_FRAME, PICTURE_SLOT};
use crate::refusal::settled;
use crate::text::any_line;
use crate::{GrowState, Handle, Refusal, Reply, Told, Verdict};
use alloc::string::String;
use alloc::vec;
use alloc::vec::Vec;

reads!(any, Words, " [`Broken`](Refusal::Broken)");

fn told(call: impl FnOnce(&mut AnswerWords) -> u8) -> Result<Told, Refusal> {
    let mut answer = Told::blank();
    let number = call(answer.words());
    settled(number, answer)
}

/// Makes the words an empty bench whose first node gets this serial.
///
/// # Errors
/// [`Refusal::Worn`] for 0: then the words are a bench as from serial 1.
pub fn set_up(words: &mut Words, first_serial: u32) -> Result<(), Refusal> {
    settled(any::set_up(words, first_serial), ())
}

/// Makes the words an empty bench of the plain engine (see [`Bench::plain`](crate::Bench::plain)) whose first node gets this serial.
///
/// # Errors
/// [`Refusal::Worn`] for 0: then the words are a bench as from serial 1.
pub fn set_up_plain(words: &mut Words, first_serial: u32) -> Result<(), Refusal> {
    settled(any::set_up_plain(words, first_serial), ())
}

/// Whether the words hold a sound bench.
pub fn is_sound(words: &Words) -> bool {
    any::is_sound(words) == 1
}

/// Adds the node of a vertex to an interface: growing, with value 0.
#[doc = errors!(create_defect_node)]
#[doc = " [`Broken`](Refusal::Broken)"]
pub fn create_defect_node(words: &mut Words, interface: u8, vertex: u32) -> Result<Told, Refusal> {
    told(|answer| any::create_defect_node(words, interface, vertex, answer))
}

/// Makes a blossom of the members, in circle order. `touching` has two handles for each member, or is empty: then each member touches by itself.
#[doc = errors!(create_blossom)]
#[doc = " [`Broken`](Refusal::Broken)"]
pub fn create_blossom(words: &mut Words, interface: u8, circle: &[Handle], touching: &[[Handle; 2]]) -> Result<Told, Refusal> {
    told(|answer| any::create_blossom(words, interface, circle, touching, answer))
}

/// Takes a blossom apart: its members are outermost again and grow, and its value stays in the sum.
#[doc = errors!(expand_blossom)]
#[doc = " [`Broken`](Refusal::Broken)"]
pub fn expand_blossom(words: &mut Words, interface: u8, blossom: Handle) -> Result<Told, Refusal> {
    told(|answer| any::expand_blossom(words, interface, blossom, answer))
}

/// Sets the state of an outermost node.
#[doc = errors!(set_grow_state)]
#[doc = " [`Broken`](Refusal::Broken)"]
pub fn set_grow_state(words: &mut Words, interface: u8, node: Handle, state: GrowState) -> Result<Told, Refusal> {
    told(|answer| any::set_grow_state(words, interface, node, state.rate(), answer))
}

/// Grows an interface, and what is fused into it.
#[doc = errors!(grow)]
#[doc = " [`Broken`](Refusal::Broken)"]
pub fn grow(words: &mut Words, interface: u8, length: i64) -> Result<Told, Refusal> {
    told(|answer| any::grow(words, interface, length, answer))
}

/// Grows an interface against a recording, as [`Bench::grow_recorded_into`](crate::Bench::grow_recorded_into) does. The recording is its words as they lie: a last
/// group that is cut short is a broken one at its position.
#[doc = errors!(grow_recorded_into)]
pub fn grow_recorded(words: &mut Words, interface: u8, length: i64, groups: &[u64], lengths: &mut [u64]) -> Result<usize, Refusal> {
    let mut taken = 0;
    settled(recorded::grow_any(words, interface, length, groups, lengths, &mut taken), ())?;
    Ok(taken)
}

/// Makes two interfaces the halves of a third of higher number. Tells nothing.
#[doc = errors!(fuse)]
#[doc = " [`Broken`](Refusal::Broken)"]
pub fn fuse(words: &mut Words, parent: u8, left: u8, right: u8) -> Result<(), Refusal> {
    settled(any::fuse(words, parent, left, right), ())
}

/// Empties an interface and what is fused into it; serials go on. Tells nothing.
#[doc = errors!(clear)]
#[doc = " [`Broken`](Refusal::Broken)"]
pub fn clear(words: &mut Words, interface: u8) -> Result<(), Refusal> {
    settled(any::clear(words, interface), ())
}

/// Has an interface without halves or used slots fill emptied slots from now on, until it is cleared. Tells nothing.
#[doc = errors!(mark_filling)]
#[doc = " [`Broken`](Refusal::Broken)"]
pub fn mark_filling(words: &mut Words, interface: u8) -> Result<(), Refusal> {
    settled(any::mark_filling(words, interface), ())
}

/// Has an interface without halves or used slots refuse every growth by which a value would fall below zero, until it is cleared. Tells nothing.
#[doc = errors!(mark_floored)]
#[doc = " [`Broken`](Refusal::Broken)"]
pub fn mark_floored(words: &mut Words, interface: u8) -> Result<(), Refusal> {
    settled(any::mark_floored(words, interface), ())
}

/// Does what a line of a text record says (docs/MANUAL.md, Lines), its newline left out. Of words that hold no sound bench the reply is
/// [`Broken`](Refusal::Broken), and every word is as it was.
pub fn line(words: &mut Words, line: &[u8]) -> Reply {
    any_line(words, line)
}
