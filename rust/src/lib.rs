//! The proved dual ledger, for Rust: where a decoder calls fusion-blossom's `DualModuleInterface`, it calls a [`Bench`].
//!
//! The work is done by functions in Rattle, each proved to meet its contract, linked from `libdual_ledger.a`; this crate gives them Rust's types. No call panics,
//! and a refused one names its [`Refusal`] and changes nothing. docs/MANUAL.md says what every word means, docs/MIGRATING.md goes from the original to this,
//! call by call. [`Session`] runs text records; [`records`] are the same in bytes, with touching pairs.
//!
//! ```
//! use dual_ledger::{Bench, GrowState, Refusal, Verdict};
//!
//! # fn main() -> Result<(), Refusal> {
//! let mut bench = Bench::default();
//! let nodes = [bench.create_defect_node(0, 3)?, bench.create_defect_node(0, 8)?, bench.create_defect_node(0, 9)?];
//! bench.grow(0, 5)?;
//! let blossom = bench.create_blossom(0, &nodes, &[])?;
//! bench.grow(0, 2)?;
//! bench.set_grow_state(0, blossom, GrowState::Shrink)?;
//! bench.grow(0, 1)?;
//! bench.expand_blossom(0, blossom)?;
//!
//! assert_eq!(bench.sum_dual_variables(0)?, 16);
//! assert_eq!(bench.sum_grow_speed(0)?, 3);
//! assert_eq!(bench.sanity_check(0)?, Verdict::SumDiffers); // the blossom went with a value of 1
//! assert_eq!(bench.get_dual_variable(blossom), Err(Refusal::Stale));
//! # Ok(())
//! # }
//! ```
//!
//! Without the default feature `std` the crate needs `core` and `alloc` alone; the command `dual-ledger` and `std::error::Error` for [`Refusal`] come with it.
#![cfg_attr(not(feature = "std"), no_std)]
#![deny(unsafe_code)]
#![warn(missing_docs)]

extern crate alloc;

#[macro_use]
mod errors;
mod bench;
mod group;
mod handle;
pub mod lent;
mod linked;
mod notice;
mod reads;
mod recorded;
pub mod records;
mod refusal;
pub mod runs;
mod telling;
mod text;
mod verdict;

pub use bench::{Bench, PresentNodes};
pub use errors::REFUSALS;
pub use group::{Group, Obstacle};
pub use handle::{GrowState, Handle};
pub use linked::{GroupWords, Words, GROUP_WORDS, WORDS};
pub use notice::{Notice, Told};
pub use refusal::Refusal;
pub use telling::{DualModule, Telling};
pub use text::{Reply, Session};
pub use verdict::Verdict;

/// The guide's program, run as an example.
#[cfg(doctest)]
#[doc = include_str!("../../docs/MIGRATING.md")]
pub struct Guide;
